fun ok (q, d, nil) = true
  | ok (q, d, x :: l) = not (x = q) andalso not (x = q + d) andalso not (x = q - d) andalso ok (q, d + 1, l)
fun place (n, k, qs) =
  if k = 0 then 1
  else
    let fun try q = if q > n then 0 else (if ok (q, 1, qs) then place (n, k - 1, q :: qs) else 0) + try (q + 1)
    in try 1 end
val _ = print (Int.toString (place (7, 7, nil)) ^ "\n")
