(* A calculator: each line of the input is an expression of numbers, + - * / and parentheses, and its value is written.
   An expression may use the value of the line before it as `it`. *)
datatype token = Number of int | Word of string | Sign of char

exception Bad of string

fun digit c = ord c - ord #"0"

fun read_number (n, c :: rest) = if Char.isDigit c then read_number (10 * n + digit c, rest) else (n, c :: rest)
  | read_number (n, nil) = (n, nil)

fun read_word (taken, c :: rest) =
      if Char.isAlpha c then read_word (c :: taken, rest) else (implode (rev taken), c :: rest)
  | read_word (taken, nil) = (implode (rev taken), nil)

fun tokens nil = nil
  | tokens (c :: rest) =
      if Char.isSpace c then tokens rest
      else if Char.isDigit c then let val (n, left) = read_number (0, c :: rest) in Number n :: tokens left end
      else if Char.isAlpha c then let val (w, left) = read_word (nil, c :: rest) in Word w :: tokens left end
      else Sign c :: tokens rest

(* expression = term {(+|-) term}, term = factor {( * |/) factor}, factor = number | it | - factor | ( expression ) *)
fun expression it ts = let val (a, rest) = term it ts in sums it (a, rest) end
and sums it (a, Sign #"+" :: ts) = let val (b, rest) = term it ts in sums it (a + b, rest) end
  | sums it (a, Sign #"-" :: ts) = let val (b, rest) = term it ts in sums it (a - b, rest) end
  | sums it (a, ts) = (a, ts)
and term it ts = let val (a, rest) = factor it ts in products it (a, rest) end
and products it (a, Sign #"*" :: ts) = let val (b, rest) = factor it ts in products it (a * b, rest) end
  | products it (a, Sign #"/" :: ts) = let val (b, rest) = factor it ts in products it (a div b, rest) end
  | products it (a, ts) = (a, ts)
and factor it (Number n :: ts) = (n, ts)
  | factor it (Word "it" :: ts) = (it, ts)
  | factor it (Word w :: ts) = raise Bad ("what is " ^ w)
  | factor it (Sign #"-" :: ts) = let val (a, rest) = factor it ts in (~a, rest) end
  | factor it (Sign #"(" :: ts) =
      (case expression it ts of
         (a, Sign #")" :: rest) => (a, rest)
       | _ => raise Bad "a parenthesis is open")
  | factor it (Sign c :: ts) = raise Bad ("no value begins with " ^ str c)
  | factor it nil = raise Bad "something is missing"

fun value it line =
  case expression it (tokens (explode line)) of
    (a, nil) => a
  | _ => raise Bad "something is left over"

fun answer it line =
  let val a = value it line
  in print (Int.toString a ^ "\n"); a end
  handle Bad why => (print (why ^ "\n"); it)
       | Div => (print "division by zero\n"; it)
       | Overflow => (print "too large\n"; it)

fun loop it =
  case TextIO.inputLine TextIO.stdIn of
    NONE => ()
  | SOME line => loop (answer it line)

val _ = loop 0
