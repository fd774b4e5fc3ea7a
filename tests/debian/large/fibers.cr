# A million objects, fibers that hand them on, threads of Crystal's runtime, finalizers, tables, strings, big numbers.
require "weak_ref"
class Node
  property left : Node?
  property right : Node?
  property name : String

  def initialize(@left, @right, @name); end
end

class Watched
  @@gone = 0

  def self.gone
    @@gone
  end

  def initialize(@number : Int32); end

  def finalize
    @@gone += 1
  end
end

def tree(depth) : Node?
  depth == 0 ? nil : Node.new(tree(depth - 1), tree(depth - 1), "at #{depth}")
end

def size(of : Node?) : Int64
  of ? 1_i64 + size(of.left) + size(of.right) + of.name.size - of.name.size : 0_i64
end

held = tree(16)
puts "trees: #{(1..20).sum { size(tree(13)) }}"
puts "held: #{size(held)}"

# Fibers in a row, each with a stack of its own, hand on what the first ones make.
first = Channel(Array(Int32)).new(8)
last = first
50.times do |k|
  from = last
  to = Channel(Array(Int32)).new(8)
  spawn do
    while list = from.receive?
      to.send(list.map { |x| x + k })
    end
    to.close
  end
  last = to
end
spawn do
  2000.times { |k| first.send(Array.new(10, k)) }
  first.close
end
sum = 0_i64
while list = last.receive?
  sum += list.sum
end
puts "handed on: #{sum}"

# A thousand fibers that live at once, and each hold a list in their stack.
answers = Channel(Int32).new
start = Channel(Nil).new
1000.times do |k|
  spawn do
    mine = (0..99).map { |x| "#{k} #{x}" }
    start.receive
    answers.send(mine.sum(&.size))
  end
end
Fiber.yield
GC.collect
1000.times { start.send(nil) }
puts "fibers: #{(1..1000).sum { answers.receive }}"

table = {} of String => Array(String)
200_000.times { |k| (table["k#{k % 5000}"] ||= [] of String) << k.to_s; table.delete("k#{k % 777}") if k % 10 == 0 }
puts "table: #{table.size} #{table.values.sum(&.size)}"

20_000.times { |k| Watched.new(k) }
GC.collect
puts "finalized: #{Watched.gone > 19_000}"

puts "words: #{(1..100_000).join(",").split(',').map(&.to_i64).sum}"
puts "sorted: #{(0...200_000).map { |k| (k.to_i64 * 7919) % 200_003 }.sort.first(5)}"
text = String.build { |io| 50_000.times { |k| io << k << ' ' } }
puts "matched: #{text.scan(/\d*7\d*/).size}"
puts "raised: #{(0...20_000).sum { |k| begin; raise "odd #{k}" if k.odd?; 1; rescue error; error.message.not_nil!.size; end }}"
weak = (0...1000).map { |k| WeakRef.new([k]) }
GC.collect
puts "weak: #{weak.count { |one| one.value.nil? } > 900}"
