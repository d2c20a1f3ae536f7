# frozen_string_literal: true

require 'objspace'
require_relative 'assertion'
require_relative 'own_stack'

module GcAudit
  # What is allocated while a region is open. Ruby notes of each object in which turn of its collector it was allocated.
  class Region
    OWN = "#{__dir__}/"
    private_constant :OWN

    def initialize(ignore)
      @ignore = OwnStack::List.new(ignore)
      @is_traced_otherwise = !ObjectSpace.allocation_sourcefile(Object.new).nil?
      OwnStack.in_checker { GC.start }
      @first = GC.count
      ObjectSpace.trace_object_allocations_start
    end

    # Ends the region. The answer is an assertion for each object that it allocated and that is still alive.
    def end
      last = GC.count
      OwnStack.clear(OwnStack::DEPTH)
      OwnStack.in_checker do
        GC.start
        survivors(last)
      end
    ensure
      ObjectSpace.trace_object_allocations_stop
      ObjectSpace.trace_object_allocations_clear unless @is_traced_otherwise
    end

    private

    def survivors(last)
      found = OwnStack::List.new
      ObjectSpace.each_object(BasicObject) do |object|
        found << Assertion.new(:region, object) if allocated?(object, last)
      end
      found
    end

    def allocated?(object, last)
      generation = ObjectSpace.allocation_generation(object)
      return false unless generation&.between?(@first, last)

      !ObjectSpace.allocation_sourcefile(object)&.start_with?(OWN) && !ignored?(object)
    end

    # Classes and symbols last; the iterators, threads and fibers of the library are gone at the check.
    def ignored?(object)
      case object
      when Module, Symbol, Mark, Assertion, OwnStack::List, OwnStack::Checker then true
      else @ignore.any? { |type| type === object } # rubocop:disable Style/CaseEquality
      end
    end
  end
end
