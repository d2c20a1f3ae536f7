# Examples about a shop, one of which leaks by the variable LEAKS, and one of which asserts nothing by the variable EMPTY.
require 'gcaudit/rspec'

class Session; end

class Bus
  attr_reader :listeners

  def initialize
    @listeners = []
  end
end

BUS = Bus.new

RSpec.describe 'a shop' do
  it 'lets go of the session', heap: true do
    session = Session.new
    BUS.listeners << session
    BUS.listeners.pop unless ENV['LEAKS']
    heap
    heap.assert_dead(session) unless ENV['EMPTY']
  end

  it 'has one bus', heap: true do
    heap.assert_instances(Bus, 1)
  end
end
