# frozen_string_literal: true

require 'minitest'
require_relative '../gcaudit'

module GcAudit
  # For a class of tests: include GcAudit::Minitest. The method `heap` is an audit that is checked when the test is over.
  module Minitest
    def heap
      @gcaudit_heap ||= Heap.new
    end

    # Runs the block with an audit of its own, and checks that when the block is over.
    def assert_heap(**options, &work)
      self.assertions += 1
      GcAudit.audited(**options, &work)
    rescue HeapViolation => e
      raise ::Minitest::Assertion, e.message
    end

    # The test's own variables are gone by now. Where the test has failed or was skipped, the heap isn't checked.
    def before_teardown
      super
      return unless @gcaudit_heap

      begin
        check_heap if failures.empty?
      ensure
        @gcaudit_heap.abandon
        @gcaudit_heap = nil
      end
    end

    private

    def check_heap
      self.assertions += 1
      @gcaudit_heap.check
    rescue HeapViolation => e
      raise ::Minitest::Assertion, e.message
    end
  end
end
