# A heap that is dumped without gcaudit's library: sessions, one of which has ended, a box and its item, and a shared node.
require 'objspace'
require 'weakref'

class Session; end
class EndedSession < Session; end
class WeaklyHeld; end
class Node; end
class Item; end
Box = Struct.new(:item)

module Shop
  SESSIONS = { 'ada' => Session.new, 'bob' => EndedSession.new }
  LAST = [SESSIONS['ada'], Node.new, Node.new]
  NODES = [LAST[1]]
  BOX = Box.new(Item.new)
  ITEMS = [BOX.item]
  WEAK = Array.new(3) { WeakRef.new(WeaklyHeld.new) }
end

class Holder
  def initialize(held)
    @held = held
  end
end

$holder = Holder.new(Session.new)
File.open(ARGV[0], 'w') { |file| ObjectSpace.dump_all(output: file) }
