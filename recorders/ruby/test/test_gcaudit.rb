# frozen_string_literal: true

# The library itself. What needs gcaudit finds it by the variable GCAUDIT or on the PATH.
require 'minitest/autorun'
require_relative '../lib/gcaudit/minitest'

class AuditTest < Minitest::Test
  class Thing; end
  class Other; end

  LEFT = []

  def teardown
    LEFT.clear
    Thread.current[:gcaudit_thing] = nil
  end

  def violation(&work)
    assert_raises(GcAudit::HeapViolation) { GcAudit.audited(&work) }
  end

  def test_what_is_gone_is_no_violation
    assert_nil(GcAudit.audited { |heap| heap.assert_dead(Thing.new) })
  end

  def test_the_value_of_the_block_is_not_held
    GcAudit.audited do |heap|
      thing = Thing.new
      heap.assert_dead(thing)
      thing
    end
    pass
  end

  def test_the_message_has_the_path
    found = violation { |heap| heap.assert_dead(LEFT.push(Thing.new).last) }
    assert_match(/\Agcaudit found a violation:\ngc 1 live /, found.message)
    assert_match(/AuditTest ::LEFT -> \d+ Array \[0\] -> \d+ AuditTest::Thing$/, found.report)
  end

  def test_an_assertion_is_looked_at_again
    heap = GcAudit::Heap.new
    heap.assert_dead(LEFT.push(Thing.new).last)
    2.times { assert_raises(GcAudit::HeapViolation) { heap.check } }
    LEFT.clear
    heap.check
  ensure
    heap.abandon
  end

  def test_the_library_counts_for_nothing
    GcAudit.audited do |heap|
      20.times { heap.assert_dead(Other.new) }
      heap.assert_instances(GcAudit::OwnStack::Checker, 0)
      heap.assert_instances(ObjectSpace::WeakMap, ObjectSpace.each_object(ObjectSpace::WeakMap).count - 1)
      heap.assert_instances(Other, 0)
    end
    pass
  end

  def test_fiber_local_variables_go_in_and_out
    Thread.current[:gcaudit_thing] = :before
    GcAudit.audited(may_be_empty: true) do
      assert_equal(:before, Thread.current[:gcaudit_thing])
      Thread.current[:gcaudit_thing] = :after
      Thread.current[:gcaudit_new] = 1
    end
    assert_equal([:after, 1], [Thread.current[:gcaudit_thing], Thread.current[:gcaudit_new]])
    GcAudit.audited(may_be_empty: true) { Thread.current[:gcaudit_new] = nil }
    assert_nil(Thread.current[:gcaudit_new])
  end

  def test_a_block_that_fails_is_not_checked
    error = assert_raises(RuntimeError) do
      GcAudit.audited do |heap|
        heap.assert_dead(LEFT.push(Thing.new).last)
        raise 'of the program'
      end
    end
    assert_equal('of the program', error.message)
  end

  def test_a_block_that_gives_up_its_fiber_is_refused
    error = assert_raises(GcAudit::HeapAuditError) { GcAudit.audited { Fiber.yield } }
    assert_match(/gave up its fiber/, error.message)
  end

  def test_nothing_asserted_is_refused
    assert_raises(GcAudit::HeapAuditError) { GcAudit.audited { |_heap| nil } }
    assert_nil(GcAudit.audited(may_be_empty: true) { |_heap| nil })
  end

  def test_arguments_that_make_no_sense_are_refused
    GcAudit.audited(may_be_empty: true) do |heap|
      [nil, true, 7, 1.5, :symbol].each { |one| assert_raises(TypeError) { heap.assert_dead(one) } }
      thing = Thing.new
      assert_raises(ArgumentError) { heap.assert_owned_by(thing, thing) }
      assert_raises(TypeError) { heap.assert_instances(Class.new, 1) }
      assert_raises(TypeError) { heap.assert_instances(Comparable, 1) }
      assert_raises(TypeError) { heap.assert_instances(Thing, 1.5) }
      assert_raises(RangeError) { heap.assert_instances(Thing, -1) }
    end
    assert_raises(ArgumentError) { GcAudit.audited }
  end

  def test_a_closed_audit_is_refused
    heap = GcAudit::Heap.new
    heap.abandon
    assert_raises(GcAudit::HeapAuditError) { heap.assert_dead(Thing.new) }
    assert_raises(GcAudit::HeapAuditError) { heap.check }
  end

  def test_a_check_inside_a_region_is_refused
    heap = GcAudit::Heap.new
    heap.region { assert_raises(GcAudit::HeapAuditError) { heap.check } }
  ensure
    heap.abandon
  end

  def test_a_region_answers_the_value_of_its_block
    GcAudit.audited { |heap| assert_equal(7, heap.region { 7 }) }
  end

  def test_regions_within_regions
    found = violation do |heap|
      heap.region do
        heap.region { LEFT << Thing.new }
        LEFT << Other.new
      end
    end
    assert_match(/dead \d+ AuditTest::Thing: /, found.report)
    assert_match(/dead \d+ AuditTest::Other: /, found.report)
  end

  def test_objects_without_methods
    hidden = Class.new(BasicObject)
    GcAudit.audited { |heap| heap.assert_dead(hidden.new) }
    violation { |heap| heap.assert_dead(LEFT.push(hidden.new).last) }
  end

  def test_frozen_objects
    GcAudit.audited { |heap| heap.assert_dead(Thing.new.freeze) }
    violation { |heap| heap.assert_dead(LEFT.push(Thing.new.freeze).last) }
  end
end
