(* The primes below a limit, by taking out the multiples of each. *)
fun upto (low, high) = if low > high then nil else low :: upto (low + 1, high)

fun sieve nil = nil
  | sieve (p :: rest) = p :: sieve (List.filter (fn n => n mod p <> 0) rest)

fun join separator nil = ""
  | join separator [s] = s
  | join separator (s :: rest) = s ^ separator ^ join separator rest

val _ = print (join " " (map Int.toString (sieve (upto (2, 100)))) ^ "\n")
