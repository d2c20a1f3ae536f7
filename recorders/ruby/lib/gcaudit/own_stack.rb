# frozen_string_literal: true

module GcAudit
  # Work on a stack that is gone afterwards. Ruby's collector takes whatever looks like an address on a stack for a reference,
  # so an object may live on by what a method that has returned left there.
  module OwnStack
    DEPTH = 200

    # A list of a type of its own, so that none of the program's types has more objects by an audit.
    class List < Array
    end

    # The thread of a check: whatever is on its stack is the library's.
    class Checker < Thread
    end

    # Runs the block in a fiber of the same thread. It sees the fiber-local variables of the caller, and what it sets stays.
    def self.run(&work)
      caller_locals = locals
      left = nil
      fiber = Fiber.new(blocking: true) do
        set_locals(caller_locals)
        begin
          work.call
        ensure
          left = locals
        end
        nil
      end
      begin
        fiber.resume
      ensure
        set_locals(left) if left
      end
      return unless fiber.alive?

      raise HeapAuditError, 'the block gave up its fiber (Fiber.yield) before its end'
    end

    # Runs the block in a thread of the library, and answers its value.
    def self.in_checker
      thread = Checker.new do
        Thread.current.report_on_exception = false
        Thread.current.abort_on_exception = false
        clear(DEPTH)
        [yield, nil]
      rescue StandardError => e
        [nil, e]
      end
      answer, error = thread.value
      raise error if error

      answer
    end

    # Overwrites what earlier calls left on the stack beyond this frame.
    def self.clear(depth)
      [nil].each { clear(depth - 1) if depth.positive? }
    end

    def self.locals
      current = Thread.current
      current.keys.to_h { |key| [key, current[key]] }
    end

    def self.set_locals(wanted)
      current = Thread.current
      (current.keys - wanted.keys).each { |key| current[key] = nil }
      wanted.each { |key, value| current[key] = value }
    end

    private_class_method :locals, :set_locals
  end
end
