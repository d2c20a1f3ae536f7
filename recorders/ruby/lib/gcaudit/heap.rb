# frozen_string_literal: true

require_relative 'assertion'
require_relative 'auditor'
require_relative 'own_stack'
require_relative 'region'

module GcAudit
  # Assertions about objects of the running program.
  class Heap
    MOST = 4_294_967_295
    TRIES = 3
    OPEN = {}.compare_by_identity
    private_constant :MOST, :TRIES, :OPEN

    attr_reader :unchecked

    # Options: program, python, recorders, keep, seconds (see README.md), and may_be_empty.
    def initialize(may_be_empty: false, **options)
      @may_be_empty = may_be_empty
      @auditor = Auditor.new(**options)
      @assertions = OwnStack::List.new
      @was_asserted = false
      @closed = false
      @open_regions = 0
      @unchecked = 0
      OPEN[self] = true
    end

    # The object is gone at the check: nothing leads to it but weak references.
    def assert_dead(object)
      need_object(object, 'an object')
      add(Assertion.new(:dead, object))
    end

    # At most one reference leads to the object.
    def assert_unshared(object)
      need_object(object, 'an object')
      add(Assertion.new(:unshared, object))
    end

    # Where a root leads to the object past its owner, the owner leads to it too.
    def assert_owned_by(owner, object)
      need_object(owner, 'an owner')
      need_object(object, 'an object')
      raise ArgumentError, "an object can't own itself" if owner.equal?(object)

      add(Assertion.new(:ownedby, object, owner: [owner]))
    end

    # At most so many objects of exactly this class are reached.
    def assert_instances(type, limit)
      raise TypeError, "a class with a name is needed, not #{type.inspect}" unless type.instance_of?(Class) && type.name
      raise TypeError, "a limit is a whole number, not #{limit.inspect}" unless limit.is_a?(Integer)
      raise RangeError, "a limit is a number from 0 on, not #{limit}" unless limit.between?(0, MOST)

      add(Assertion.new(:instances, type, limit: limit))
    end

    # What is allocated while the block runs must be gone at the check. Answers the block's value.
    def region(ignore: [])
      need_open
      @open_regions += 1
      region = Region.new(ignore)
      begin
        yield
      ensure
        @open_regions -= 1
        region.end.each { |assertion| @assertions << assertion }
        noted
      end
    end

    # Checks what was asserted so far, and raises HeapViolation where something doesn't hold. What still lives is looked at again
    # by each later check.
    def check
      need_open
      raise HeapAuditError, 'a region is open: it ends before the check' if @open_regions.positive?

      unless @was_asserted || @may_be_empty
        raise HeapAuditError, 'nothing was asserted, so this check would pass whatever the program does'
      end

      @unchecked = 0
      OwnStack.clear(OwnStack::DEPTH)
      drop_met
      @auditor.audit(@assertions) unless @assertions.empty?
      nil
    end

    # Ends without a check.
    def abandon
      @closed = true
      @unchecked = 0
      @assertions.clear
      OPEN.delete(self)
      nil
    end

    def inspect
      "#<#{self.class} #{@assertions.size} assertions>"
    end

    # Says which assertions were never checked. The answer is how many.
    def self.say_unchecked
      count = OPEN.each_key.sum(&:unchecked)
      warn "gcaudit: #{count} assertions were never checked: call check of each GcAudit::Heap" if count.positive?
      count
    end

    private

    # Where all that is left must be dead, the collector is asked more than once: what an earlier call left on a stack may
    # have held something.
    def drop_met
      TRIES.times do
        OwnStack.in_checker do
          GC.start
          @assertions.reject!(&:met?)
        end
        break unless @assertions.any? { |assertion| assertion.kind == :dead }
      end
    end

    def add(assertion)
      need_open
      @assertions << assertion
      noted
    end

    def noted
      @was_asserted = true
      @unchecked += 1
      nil
    end

    def need_open
      raise HeapAuditError, 'the audit is closed' if @closed
    end

    # Numbers, true and their like, and symbols, which the program's text may have too, never die.
    def need_object(object, what)
      case object
      when nil, true, false, Integer, Float, Symbol
        raise TypeError, "#{what} is needed, not #{object.inspect}"
      end
    end
  end

  at_exit { exit(1) if Heap.say_unchecked.positive? && ($!.nil? || ($!.is_a?(SystemExit) && $!.success?)) }
end
