fun line (0, s) = s
  | line (n, s) = line (n - 1, s ^ "x" ^ Int.toString n)
fun all (0, t) = t
  | all (n, t) = all (n - 1, t + size (line (60, "")))
val l = String.tokens Char.isSpace "the quick brown fox jumps over the lazy dog"
fun rep 0 = ""
  | rep n = concat (map (fn w => implode (rev (explode w)) ^ " ") l) ^ rep (n - 1)
val _ = (print (Int.toString (all (60, 0)) ^ "\n"); print (Int.toString (size (rep 30)) ^ "\n"))
