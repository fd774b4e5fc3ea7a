// A tree of some million nodes, and many that go at once, with lists.
#include "share/atspre_staload.hats"
datatype tree = leaf of () | node of (tree, int, tree)
fun numbers(n: int, xs: List0(int)): List0(int) = if n <= 0 then xs else numbers(n - 1, list_cons(n, xs))
fun sum(xs: List0(int), s: int): int = case+ xs of list_nil() => s | list_cons(x, xs) => sum(xs, s + x % 7)
fun grow(depth: int, n: int): tree = if depth = 0 then leaf() else node(grow(depth - 1, 2 * n), n, grow(depth - 1, 2 * n + 1))
fun count(t: tree): int = case+ t of leaf() => 0 | node(a, _, b) => count(a) + 1 + count(b)
fun lists(k: int, s: int): int = if k = 0 then s else lists(k - 1, s + sum(numbers(20000, list_nil()), 0) % 1000)
fun trees(k: int, s: int): int = if k = 0 then s else trees(k - 1, s + count(grow(14, k)))
implement main0 () = let
  val kept = grow(22, 1)
  val row = numbers(2000000, list_nil())
  val all = lists(300, 0)
  val nodes = trees(150, 0)
in
  println! ("lists ", all, " trees ", nodes, " kept ", count(kept), " ", sum(row, 0))
end
