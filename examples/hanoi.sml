(* The towers of Hanoi: the moves for three discs, and how many there are for more. *)
fun move (0, _, _, _) = nil
  | move (n, from, to, by) = move (n - 1, from, by, to) @ [(from, to)] @ move (n - 1, by, to, from)

val _ = app (fn (from, to) => print (from ^ " to " ^ to ^ "\n")) (move (3, "left", "right", "middle"))

fun moves n = length (move (n, 1, 2, 3))

val _ = app (fn n => print (Int.toString n ^ ": " ^ Int.toString (moves n) ^ "\n")) [1, 2, 4, 8, 12]
