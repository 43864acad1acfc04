(* The game of life, on a plane without edges: the cells that live, as a sorted list. *)
fun less ((r, c), (s, d)) = r < s orelse r = s andalso c < d

fun insert cell nil = [cell]
  | insert cell (other :: rest) =
      if cell = other then other :: rest
      else if less (cell, other) then cell :: other :: rest
      else other :: insert cell rest

fun lives cell cells = List.exists (fn other => other = cell) cells

val around = [(~1, ~1), (~1, 0), (~1, 1), (0, ~1), (0, 1), (1, ~1), (1, 0), (1, 1)]
fun neighbours (r, c) = map (fn (dr, dc) => (r + dr, c + dc)) around

fun next cells =
  let
    fun living cell = length (List.filter (fn n => lives n cells) (neighbours cell))
    val stay = List.filter (fn cell => let val n = living cell in n = 2 orelse n = 3 end) cells
    val near = List.filter (fn cell => not (lives cell cells)) (List.concat (map neighbours cells))
    val born = List.filter (fn cell => living cell = 3) near
  in
    foldl (fn (cell, all) => insert cell all) nil (stay @ born)
  end

fun show (rows, columns) cells =
  let
    fun row r = implode (List.tabulate (columns, fn c => if lives (r, c) cells then #"#" else #".")) ^ "\n"
  in
    print (concat (List.tabulate (rows, row)) ^ "\n")
  end

fun run 0 cells = ()
  | run n cells = (show (6, 8) cells; run (n - 1) (next cells))

val glider = [(0, 1), (1, 2), (2, 0), (2, 1), (2, 2)]
val _ = run 5 glider
