class Node
  property left : Node?
  property right : Node?
  def initialize(@left, @right); end
end
def tree(d) : Node?
  d == 0 ? nil : Node.new(tree(d - 1), tree(d - 1))
end
def count(t) : Int32
  t ? 1 + count(t.left) + count(t.right) : 1
end
puts count(tree(12))
h = {} of String => Array(Int32)
20000.times { |i| h["k#{i % 500}"] = [i] }
puts h.size
ch = Channel(Int32).new
4.times { |k| spawn { s = 0; 3000.times { s += Array.new(20, k).sum }; ch.send s } }
puts (1..4).map { ch.receive }.sort
puts (1..2000).join(",").size
