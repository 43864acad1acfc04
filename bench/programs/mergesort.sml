fun split nil = (nil, nil)
  | split [x] = ([x], nil)
  | split (x :: y :: l) = let val (a, b) = split l in (x :: a, y :: b) end
fun merge (nil, l) = l
  | merge (l, nil) = l
  | merge (x :: l, y :: m) = if x < y then x :: merge (l, y :: m) else y :: merge (x :: l, m)
fun sort nil = nil
  | sort [x] = [x]
  | sort l = let val (a, b) = split l in merge (sort a, sort b) end
fun make (0, s, l) = l
  | make (n, s, l) = make (n - 1, (s * 1103515245 + 12345) mod 1000003, s :: l)
fun sum (nil, i, a) = a
  | sum (x :: l, i, a) = sum (l, i + 1, (a + i * x) mod 1000007)
val _ = print (Int.toString (sum (sort (make (4000, 42, nil)), 1, 0)) ^ "\n")
