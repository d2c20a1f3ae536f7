# Each kind of assertion, violated and met, regions, and ways in which a check may reach no verdict.
require 'gcaudit'

class Config; end
class Node; end
class Item; end
class Orphan; end
class Entry; end
class Metric; end
class Scratch; end
Box = Struct.new(:item)

LEFT = []
RECENT = []

NODE_OF_THE_PROGRAM = Node.new

# Ruby keeps what a constant led to beside each place that asks for it. That is no reference of the program.
def node_of_the_program
  NODE_OF_THE_PROGRAM
end

# By `more` each is violated. The objects are those of the lists alone when it ends.
def kinds(heap, more)
  node, item, orphan = Node.new, Item.new, Orphan.new
  box, gone = Box.new(item), Box.new(orphan)
  LEFT.push(Config.new, node, box)
  RECENT.push(item)
  heap.assert_instances(Config, 1)
  heap.assert_unshared(node)
  heap.assert_unshared(node_of_the_program)
  heap.assert_owned_by(box, item)
  heap.assert_owned_by(gone, orphan)
  return unless more

  LEFT.push(Config.new)
  RECENT.push(node, orphan)
  box.item = nil
end

def leak(heap, leaks)
  node = Node.new
  heap.assert_dead(node)
  LEFT << node if leaks
end

def handle(entries)
  Scratch.new
  entries.times { LEFT << Entry.new }
  LEFT << Metric.new
end

def said(&work)
  GcAudit.audited(&work)
  puts 'clean'
rescue GcAudit::HeapViolation => e
  puts e.report
ensure
  LEFT.clear
  RECENT.clear
end

case ARGV[0]
when 'kinds'
  said { |heap| kinds(heap, true) }
  said { |heap| kinds(heap, false) }
when 'regions'
  handle(1)
  LEFT.clear
  said { |heap| heap.region(ignore: [Metric]) { handle(0) } }
  said do |heap|
    heap.region(ignore: [Metric]) { handle(3) }
    LEFT << Entry.new
  end
when 'empty'
  said { |_| nil }
when 'unchecked'
  2.times { leak(GcAudit::Heap.new, true) }
when 'leak'
  said { |heap| leak(heap, true) }
when 'text'
  said { |heap| heap.assert_dead(LEFT.push("a text of its own #{LEFT.size}").last) }
when 'unnamed'
  said { |heap| heap.assert_dead(LEFT.push(Class.new(Node).new).last) }
when 'inside'
  # A variable of a method that has not ended holds its object.
  begin
    GcAudit.audited do |heap|
      node = Node.new
      heap.assert_dead(node)
      heap.check
      node.hash
    end
  rescue GcAudit::HeapViolation => e
    puts e.report
  end
when 'well'
  heap = GcAudit::Heap.new
  leak(heap, false)
  heap.check
  puts 'clean'
  heap.abandon
end
