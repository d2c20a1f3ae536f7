# frozen_string_literal: true

require 'objspace'
require_relative 'names'
require_relative 'own_stack'

module GcAudit
  # Writes the heap of this process into a file, as ObjectSpace.dump_all does, and after that the names of instance variables,
  # constants, keys and variables of blocks, which a dump doesn't have. rubyheap_to_trace reads both.
  #
  # A thread of the library writes it, so nothing is held by what an earlier call left on the stack of the machine.
  def self.dump(path)
    OwnStack.in_checker { write_dump(path) }
    path
  end

  def self.write_dump(path)
    File.open(path, 'w') do |file|
      ObjectSpace.dump_all(output: file)
      Names.new(file).write
    end
  end
end
