(* The ways to pay a sum with coins: one by raising an exception where a choice fails, and how many there are. *)
exception Change

fun pay (_, 0) = nil
  | pay (nil, _) = raise Change
  | pay (coin :: coins, sum) =
      if coin > sum then pay (coins, sum)
      else coin :: pay (coin :: coins, sum - coin)
           handle Change => pay (coins, sum)

fun ways (_, 0) = 1
  | ways (nil, _) = 0
  | ways (coin :: coins, sum) = if sum < 0 then 0 else ways (coin :: coins, sum - coin) + ways (coins, sum)

fun show sum =
  print (Int.toString sum ^ ":" ^ concat (map (fn coin => " " ^ Int.toString coin) (pay ([5, 2], sum))) ^ "\n")
  handle Change => print (Int.toString sum ^ ": can't be paid\n")

val _ = app show [16, 13, 3, 1]
val _ = print (Int.toString (ways ([200, 100, 50, 20, 10, 5, 2, 1], 100)) ^ " ways\n")
