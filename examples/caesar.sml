(* Each line of the input, with its letters moved along the alphabet, and moved back again. *)
fun turn (first, by, c) = chr (ord first + (ord c - ord first + by) mod 26)

fun shift by c =
  if ord c >= ord #"a" andalso ord c <= ord #"z" then turn (#"a", by, c)
  else if ord c >= ord #"A" andalso ord c <= ord #"Z" then turn (#"A", by, c)
  else c

fun cipher by = implode o map (shift by) o explode

fun loop n =
  case TextIO.inputLine TextIO.stdIn of
    NONE => print (Int.toString n ^ " lines\n")
  | SOME line =>
      let val secret = cipher 3 line
      in print secret; print (if cipher ~3 secret = line then "" else "lost!\n"); loop (n + 1) end

val _ = loop 0
