# frozen_string_literal: true

# Prints what the gem for Ruby costs in a process of so many objects: costs.rb OBJECTS. Each line is a name and seconds.
require 'gcaudit'

ROUNDS = 5
REGIONS = [0, 1_000, 100_000, 1_000_000].freeze
Item = Struct.new(:next_item)
Session = Class.new
LEFT = [] # rubocop:disable Style/MutableConstant

# The processor time of this process and of those that it waited for.
def seconds
  Process.times.sum
end

def print_seconds(name)
  before = seconds
  yield
  puts format('%<name>s %<seconds>.2f', name: name, seconds: seconds - before)
  $stdout.flush
end

def assert_dead(heap, leaks:)
  session = Session.new
  LEFT.push(session) if leaks
  heap.assert_dead(session)
end

def find
  GcAudit.audited { |heap| assert_dead(heap, leaks: true) }
rescue GcAudit::HeapViolation
  LEFT.clear
else
  raise 'the leak was not found'
end

# A region with its beginning and its end; what it allocates takes a part of that.
def region(objects)
  heap = GcAudit::Heap.new(may_be_empty: true)
  print_seconds("region of #{objects}") { heap.region { objects.times { LEFT.push(Session.new) } } }
  heap.abandon
  LEFT.clear
end

ITEMS = Integer(ARGV.fetch(0)).times.reduce(nil) { |items, _| Item.new(items) }
ROUNDS.times do
  print_seconds('collection') { GC.start }
  print_seconds('well') { GcAudit.audited { |heap| assert_dead(heap, leaks: false) } }
end
print_seconds('finds') { find }
REGIONS.each { |objects| region(objects) }
