# frozen_string_literal: true

require 'rspec/core'
require_relative '../gcaudit'

module GcAudit
  # For examples with `heap: true`: the method `heap` is an audit that is checked when the example is over.
  module RSpec
    def heap
      @gcaudit_heap ||= Heap.new
    end

    # Where the example has failed or is pending, the heap isn't checked.
    def check_heap(example)
      return unless @gcaudit_heap

      begin
        @gcaudit_heap.check unless example.exception || example.pending?
      ensure
        @gcaudit_heap.abandon
        @gcaudit_heap = nil
      end
    end
  end
end

RSpec.configure do |config|
  config.include GcAudit::RSpec, heap: true
  config.append_after(:each, heap: true) { |example| check_heap(example) }
end
