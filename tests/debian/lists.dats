// Lists, and a tree of them, of which most go at once.
#include "share/atspre_staload.hats"
datatype tree = leaf of () | node of (tree, int, tree)
fun numbers(n: int): List0(int) = if n <= 0 then list_nil() else list_cons(n, numbers(n - 1))
fun sum(xs: List0(int)): int = case+ xs of list_nil() => 0 | list_cons(x, xs) => x + sum(xs)
fun grow(depth: int, n: int): tree = if depth = 0 then leaf() else node(grow(depth - 1, 2 * n), n, grow(depth - 1, 2 * n + 1))
fun count(t: tree): int = case+ t of leaf() => 0 | node(a, _, b) => count(a) + 1 + count(b)
fun lists(k: int, s: int): int = if k = 0 then s else lists(k - 1, s + sum(numbers(100)))
fun trees(k: int, s: int): int = if k = 0 then s else trees(k - 1, s + count(grow(10, k)))
implement main0 () = let
  val kept = grow(14, 1)
  val all = lists(20000, 0)
  val nodes = trees(200, 0)
in
  println! ("lists ", all, " trees ", nodes, " kept ", count(kept))
end
