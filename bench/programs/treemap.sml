datatype t = L | N of t * int * int * t
fun ins (k, v, L) = N (L, k, v, L)
  | ins (k, v, N (l, k', v', r)) =
      if k < k' then N (ins (k, v, l), k', v', r)
      else if k' < k then N (l, k', v', ins (k, v, r))
      else N (l, k, v, r)
fun get (k, L) = 0
  | get (k, N (l, k', v, r)) = if k < k' then get (k, l) else if k' < k then get (k, r) else v
fun fill (0, s, t) = t
  | fill (n, s, t) = fill (n - 1, (s * 16807) mod 32003, ins (s, n, t))
fun look (0, t, a) = a
  | look (n, t, a) = look (n - 1, t, (a + get (n, t)) mod 1000003)
val t = fill (2000, 1, L)
fun map f L = L
  | map f (N (l, k, v, r)) = N (map f l, k, f v, map f r)
val _ = print (Int.toString (look (8000, map (fn v => v * 3) t, 0)) ^ "\n")
