# frozen_string_literal: true

module GcAudit
  # An assertion is violated.
  class HeapViolation < StandardError
    attr_reader :report

    def initialize(message, report)
      super(message)
      @report = report
    end
  end

  # No verdict was reached.
  class HeapAuditError < StandardError
  end
end
