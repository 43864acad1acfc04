(* Derivatives of expressions, simplified and printed with as few parentheses as are needed. *)
datatype expression =
    Constant of int
  | X
  | Sum of expression * expression
  | Product of expression * expression
  | Power of expression * int

fun derive (Constant _) = Constant 0
  | derive X = Constant 1
  | derive (Sum (a, b)) = Sum (derive a, derive b)
  | derive (Product (a, b)) = Sum (Product (derive a, b), Product (a, derive b))
  | derive (Power (a, n)) = Product (Product (Constant n, Power (a, n - 1)), derive a)

fun sum (Constant 0, b) = b
  | sum (a, Constant 0) = a
  | sum (Constant m, Constant n) = Constant (m + n)
  | sum (a, b) = if a = b then Product (Constant 2, a) else Sum (a, b)

fun product (Constant 0, _) = Constant 0
  | product (_, Constant 0) = Constant 0
  | product (Constant 1, b) = b
  | product (a, Constant 1) = a
  | product (Constant m, Constant n) = Constant (m * n)
  | product (Constant m, Product (Constant n, b)) = product (Constant (m * n), b)
  | product (a, Constant n) = product (Constant n, a)
  | product (a, b) = Product (a, b)

fun power (_, 0) = Constant 1
  | power (a, 1) = a
  | power (a, n) = Power (a, n)

fun simple (Sum (a, b)) = sum (simple a, simple b)
  | simple (Product (a, b)) = product (simple a, simple b)
  | simple (Power (a, n)) = power (simple a, n)
  | simple e = e

fun show level e =
  let
    fun at n text = if level > n then "(" ^ text ^ ")" else text
  in
    case e of
      Constant n => Int.toString n
    | X => "x"
    | Sum (a, b) => at 0 (show 0 a ^ " + " ^ show 0 b)
    | Product (a, b) => at 1 (show 1 a ^ " * " ^ show 1 b)
    | Power (a, n) => show 2 a ^ "^" ^ Int.toString n
  end

fun tell e = print (show 0 e ^ "  ->  " ^ show 0 (simple (derive e)) ^ "\n")

val _ = app tell
  [ Sum (Power (X, 3), Sum (Product (Constant 4, X), Constant 7)),
    Product (Sum (X, Constant 1), Sum (X, Constant 2)),
    Power (Sum (Product (Constant 3, X), Constant 1), 5) ]
