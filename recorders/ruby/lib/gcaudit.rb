# frozen_string_literal: true

require_relative 'gcaudit/version'
require_relative 'gcaudit/errors'
require_relative 'gcaudit/heap'
require_relative 'gcaudit/dump'

# Assertions about objects of the running program, checked by gcaudit on a dump of its heap.
module GcAudit
  # Runs the block with a Heap, and checks the heap when the block is over. Where the block fails, the heap isn't checked.
  #
  # The block runs in a fiber of its own, so that nothing of it stays on the stack. Its value is dropped.
  def self.audited(**options, &work)
    raise ArgumentError, 'a block is needed' unless work

    heap = Heap.new(**options)
    begin
      OwnStack.run { work.call(heap) }
      heap.check
    ensure
      heap.abandon
    end
    nil
  end
end
