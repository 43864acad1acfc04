(* A small language with functions, evaluated by environments and closures. *)
datatype term =
    Number of int
  | Variable of string
  | Plus of term * term
  | Times of term * term
  | Minus of term * term
  | IfZero of term * term * term
  | Function of string * term
  | Apply of term * term
  | Recursive of string * string * term * term

datatype value = Int of int | Closure of string * term * (string * value) list ref

exception Unbound of string
exception Stuck

fun look name nil = raise Unbound name
  | look name ((other, value) :: rest) = if name = other then value else look name rest

fun number (Int n) = n
  | number (Closure _) = raise Stuck

fun eval scope (Number n) = Int n
  | eval scope (Variable x) = look x scope
  | eval scope (Plus (a, b)) = Int (number (eval scope a) + number (eval scope b))
  | eval scope (Times (a, b)) = Int (number (eval scope a) * number (eval scope b))
  | eval scope (Minus (a, b)) = Int (number (eval scope a) - number (eval scope b))
  | eval scope (IfZero (a, b, c)) = if number (eval scope a) = 0 then eval scope b else eval scope c
  | eval scope (Function (x, body)) = Closure (x, body, ref scope)
  | eval scope (Apply (f, a)) =
      (case eval scope f of
         Closure (x, body, ref inner) => eval ((x, eval scope a) :: inner) body
       | Int _ => raise Stuck)
  | eval scope (Recursive (f, x, body, rest)) =
      let
        val inner = ref scope
        val closure = Closure (x, body, inner)
      in
        inner := (f, closure) :: scope;
        eval ((f, closure) :: scope) rest
      end

val factorial =
  Recursive ("fact", "n",
    IfZero (Variable "n", Number 1, Times (Variable "n", Apply (Variable "fact", Minus (Variable "n", Number 1)))),
    Apply (Variable "fact", Number 20))
val twice = Function ("f", Function ("x", Apply (Variable "f", Apply (Variable "f", Variable "x"))))
val sixteen = Apply (Apply (Apply (twice, twice), Function ("x", Plus (Variable "x", Variable "x"))), Number 1)

fun show term =
  (case eval nil term of Int n => Int.toString n | Closure _ => "a function")
  handle Unbound name => name ^ " is not bound" | Stuck => "stuck"

val _ = app (fn term => print (show term ^ "\n"))
  [factorial, sixteen, twice, Variable "y", Apply (Number 1, Number 2)]
