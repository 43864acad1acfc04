(* Exceptions: with and without arguments, raised again, passed through, and one that nobody handles. *)
exception Negative
exception TooLarge of int

fun root n =
  let
    fun go i = if i * i > n then i - 1 else go (i + 1)
  in
    if n < 0 then raise Negative else if n > 1000000 then raise TooLarge n else go 0
  end

fun tell n =
  print ("root " ^ Int.toString n ^ ": "
    ^ (Int.toString (root n)
       handle Negative => "there is none"
            | TooLarge m => "won't look, " ^ Int.toString (m - 1000000) ^ " too large")
    ^ "\n")

val _ = app tell [0, 15, 16, ~4, 1000000, 1000007]

(* The first of a list that something holds of, by leaving a loop early. *)
fun first holds xs =
  let
    exception Found of int
  in
    (app (fn x => if holds x then raise Found x else ()) xs; NONE)
    handle Found x => SOME x
  end

val _ = print (case first (fn x => x > 3) [1, 2, 5, 4] of SOME x => Int.toString x ^ "\n" | NONE => "none\n")
val _ = print (case first (fn x => x > 9) [1, 2, 5, 4] of SOME x => Int.toString x ^ "\n" | NONE => "none\n")

(* What isn't handled goes on outwards. *)
val _ = print ((Int.toString (hd nil) handle Subscript => "wrong") handle Empty => "empty\n")

val _ = print (Int.toString (valOf (Int.fromString "12") div (root 0)))
