# frozen_string_literal: true

module GcAudit
  VERSION = '0.1.0'
end
