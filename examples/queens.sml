(* The ways to place eight queens so that none attacks another. *)
val size = 8
val columns = List.tabulate (size, fn i => i + 1)

fun safe _ nil = true
  | safe (x, n) (y :: ys) = x <> y andalso x <> y + n andalso x <> y - n andalso safe (x, n + 1) ys

fun queens 0 = [nil]
  | queens row = List.concat (map (extend columns) (queens (row - 1)))
and extend columns placed = map (fn x => x :: placed) (List.filter (fn x => safe (x, 1) placed) columns)

val _ = print (String.concat [Int.toString (length (queens size)), " ways\n"])
