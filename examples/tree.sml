(* A dictionary as a binary search tree. *)
datatype ('k, 'v) tree = Leaf | Node of ('k, 'v) tree * 'k * 'v * ('k, 'v) tree

fun insert compare (key, value) =
  let
    fun go Leaf = Node (Leaf, key, value, Leaf)
      | go (Node (left, k, v, right)) =
          case compare (key, k) of
            LESS => Node (go left, k, v, right)
          | EQUAL => Node (left, k, value, right)
          | GREATER => Node (left, k, v, go right)
  in
    go
  end

fun find compare key =
  let
    fun go Leaf = NONE
      | go (Node (left, k, v, right)) =
          case compare (key, k) of
            LESS => go left
          | EQUAL => SOME v
          | GREATER => go right
  in
    go
  end

fun fold f start Leaf = start
  | fold f start (Node (left, k, v, right)) = fold f (f (k, v, fold f start left)) right

fun depth Leaf = 0
  | depth (Node (left, _, _, right)) = 1 + Int.max (depth left, depth right)

fun count word tree =
  let val before_it = getOpt (find String.compare word tree, 0)
  in insert String.compare (word, before_it + 1) tree end

val text = "one fish two fish red fish blue fish black fish blue fish old fish new fish"
val counted = foldl (fn (word, tree) => count word tree) Leaf (String.tokens Char.isSpace text)

val _ = fold (fn (word, n, ()) => print (word ^ " " ^ Int.toString n ^ "\n")) () counted
val _ = print ("depth " ^ Int.toString (depth counted) ^ "\n")
