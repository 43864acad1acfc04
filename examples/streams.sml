(* Lists without an end, whose rest is made when it is looked at. *)
datatype 'a stream = Cons of 'a * (unit -> 'a stream)

fun from n = Cons (n, fn () => from (n + 1))

fun map_stream f (Cons (x, rest)) = Cons (f x, fn () => map_stream f (rest ()))

fun filter_stream holds (Cons (x, rest)) =
  if holds x then Cons (x, fn () => filter_stream holds (rest ())) else filter_stream holds (rest ())

fun zip f (Cons (x, xs), Cons (y, ys)) = Cons (f (x, y), fn () => zip f (xs (), ys ()))

fun take (0, _) = nil
  | take (n, Cons (x, rest)) = x :: (if n = 1 then nil else take (n - 1, rest ()))

fun fibonacci (a, b) = Cons (a, fn () => fibonacci (b, a + b))

fun primes (Cons (p, rest)) =
  Cons (p, fn () => primes (filter_stream (fn n => n mod p <> 0) (rest ())))

fun show name stream =
  print (name ^ ":" ^ concat (map (fn n => " " ^ Int.toString n) (take (12, stream))) ^ "\n")

val _ = show "squares" (map_stream (fn n => n * n) (from 0))
val _ = show "fibonacci" (fibonacci (0, 1))
val _ = show "primes" (primes (from 2))
val _ = show "triangles" (zip op + (from 0, map_stream (fn n => n * (n - 1) div 2) (from 0)))
