# frozen_string_literal: true

module GcAudit
  # Holds an object weakly.
  class Mark
    # A table of a type of its own, so that none of the program's types has more objects by an audit.
    class Table < ObjectSpace::WeakMap
    end

    HELD = Table.new
    TO_S = Kernel.instance_method(:to_s)
    CLASS = Kernel.instance_method(:class)
    NAME = Module.instance_method(:name)
    private_constant :HELD, :TO_S, :CLASS, :NAME

    attr_reader :type

    def initialize(object)
      @type = Mark.class_name(object)
      HELD[self] = object
    end

    def gone?
      !HELD.key?(self)
    end

    # The address of the object, which is a number; nil where it is gone.
    def address
      gone? ? nil : Mark.address_of(HELD[self])
    end

    # Ruby writes an object's address where the object says nothing else of itself: #<Session:0x00007f5d9641b720>.
    def self.address_of(object)
      TO_S.bind_call(object)[-17, 16].to_i(16)
    end

    def self.class_name(object)
      NAME.bind_call(CLASS.bind_call(object)) || '(class without a name)'
    end
  end
end
