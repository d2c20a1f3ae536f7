# Tests of a shop, one of which leaks by the variable LEAKS, and one of which asserts nothing by the variable EMPTY.
require 'minitest/autorun'
require 'gcaudit/minitest'

class Session; end

class Bus
  attr_reader :listeners

  def initialize
    @listeners = []
  end
end

BUS = Bus.new

class ShopTest < Minitest::Test
  include GcAudit::Minitest

  def test_the_session_is_gone
    session = Session.new
    BUS.listeners << session
    BUS.listeners.pop unless ENV['LEAKS']
    heap
    heap.assert_dead(session) unless ENV['EMPTY']
  end

  def test_the_session_is_gone_in_a_block
    assert_heap do |heap|
      session = Session.new
      BUS.listeners << session
      BUS.listeners.pop unless ENV['LEAKS']
      heap.assert_dead(session)
    end
  end

  def test_without_an_audit
    assert true
  end
end
