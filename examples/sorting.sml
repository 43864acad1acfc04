(* Two ways to sort a list by an order that is handed in, and words sorted by length and then by letters. *)
fun insertion less nil = nil
  | insertion less (x :: rest) =
      let
        fun insert nil = [x]
          | insert (y :: ys) = if less (y, x) then y :: insert ys else x :: y :: ys
      in
        insert (insertion less rest)
      end

fun split nil = (nil, nil)
  | split [x] = ([x], nil)
  | split (x :: y :: rest) = let val (xs, ys) = split rest in (x :: xs, y :: ys) end

fun merge less (nil, ys) = ys
  | merge less (xs, nil) = xs
  | merge less (x :: xs, y :: ys) =
      if less (y, x) then y :: merge less (x :: xs, ys) else x :: merge less (xs, y :: ys)

fun mergesort less nil = nil
  | mergesort less [x] = [x]
  | mergesort less xs =
      let val (front, back) = split xs in merge less (mergesort less front, mergesort less back) end

fun shorter (a, b) = size a < size b orelse size a = size b andalso String.compare (a, b) = LESS

val words = String.tokens Char.isSpace "the quick brown fox jumps over the lazy dog"
val numbers = [31, 4, 15, 9, 2, 65, 35, 8, 97, 9, ~3]

val _ = app (fn n => print (Int.toString n ^ " ")) (mergesort op < numbers)
val _ = print "\n"
val _ = if insertion op < numbers = mergesort op < numbers then print "the same\n" else print "not the same\n"
val _ = app (fn w => print (w ^ " ")) (mergesort shorter words)
val _ = print "\n"
