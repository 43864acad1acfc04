(* Queues: one with two lists, which is a value, and one with cells, which changes. *)
type 'a queue = 'a list * 'a list

val empty = (nil, nil)
fun put (x, (front, back)) = (front, x :: back)
fun take (x :: front, back) = SOME (x, (front, back))
  | take (nil, nil) = NONE
  | take (nil, back) = take (rev back, nil)

fun drain queue =
  case take queue of
    NONE => print "\n"
  | SOME (x, rest) => (print (x ^ " "); drain rest)

val _ = drain (put ("c", put ("b", put ("a", empty))))

datatype 'a link = End | Link of 'a * 'a link ref
type 'a line = 'a link ref ref * 'a link ref

fun line () = let val first = ref End in (ref first, first) end

fun join ((last, _), x) =
  let val next = ref End
  in !last := Link (x, next); last := next end

fun show (_, first) =
  let
    fun go End = print "\n"
      | go (Link (x, ref rest)) = (print (Int.toString x ^ " "); go rest)
  in
    go (!first)
  end

val numbers : int line = line ()
val i = ref 1
val _ = while !i <= 10 do (join (numbers, !i * !i); i := !i + 1)
val _ = show numbers
