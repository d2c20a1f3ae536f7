# frozen_string_literal: true

require 'json'
require_relative 'marks'
require_relative 'own_stack'

module GcAudit
  # Writes the names under which the objects of the program hold others: a line for each object.
  class Names
    MOST_OF_A_KEY = 40
    OF_GLOBALS = 'globals'
    A_GLOBAL = /\A\$[A-Za-z_]\w*\z/
    UNASKED = %i[$stdin $stdout $stderr $PROGRAM_NAME $VERBOSE $DEBUG $FILENAME].freeze
    INSTANCE_VARIABLES, VALUE = %i[instance_variables instance_variable_get].map { |name| Kernel.instance_method(name) }
    CONSTANTS, CONSTANT, AUTOLOAD, CLASS_VARIABLES, CLASS_VARIABLE =
      %i[constants const_get autoload? class_variables class_variable_get].map { |name| Module.instance_method(name) }
    PAIRS, ELEMENTS, MEMBERS, VALUES = [Hash.instance_method(:to_a), Array.instance_method(:to_a),
                                        Struct.instance_method(:members), Struct.instance_method(:to_a)]
    BINDING = Proc.instance_method(:binding)
    LOCALS, LOCAL = %i[keys []].map { |name| Thread.instance_method(name) }
    private_constant(*constants(false))

    def initialize(file)
      @file = file
    end

    def write
      warned = Warning[:deprecated]
      Warning[:deprecated] = false # some constants complain when they are asked for
      write_globals
      ObjectSpace.each_object(BasicObject) do |object|
        given = names_of(object)
        put(address(object), given) unless given.empty?
      end
    ensure
      Warning[:deprecated] = warned
    end

    private

    def put(holder, given)
      @file.puts(JSON.generate(type: 'NAMES', of: holder, names: given))
    end

    def address(object)
      format('0x%x', Mark.address_of(object))
    end

    # What is in a dump and may hold something: not what is written in a reference itself, nor texts.
    def held?(value)
      case value
      when nil, true, false, Integer, Float, Symbol then false
      when String then !INSTANCE_VARIABLES.bind_call(value).empty?
      else true
      end
    end

    def names_of(object)
      given = OwnStack::List.new
      INSTANCE_VARIABLES.bind_call(object).each { |name| add(given, name.to_s, VALUE.bind_call(object, name)) }
      case object
      when Module then add_of_module(given, object)
      when Hash then add_pairs(given, object)
      when Array then add_elements(given, object)
      when Struct then add_members(given, object)
      when Proc then add_variables(given, object)
      when Thread then add_locals(given, object)
      end
      given
    end

    def add(given, label, value)
      given << address(value) << label if held?(value)
    end

    def add_of_module(given, object)
      CONSTANTS.bind_call(object, false).each do |name|
        next if AUTOLOAD.bind_call(object, name, false)

        add(given, "::#{name}", CONSTANT.bind_call(object, name, false))
      rescue NameError, LoadError
        next # it was taken away, or is one of those that are made when they are first asked for
      end
      CLASS_VARIABLES.bind_call(object, false).each do |name|
        add(given, name.to_s, CLASS_VARIABLE.bind_call(object, name))
      end
    end

    def add_pairs(given, object)
      PAIRS.bind_call(object).each do |key, value|
        add(given, '(key)', key)
        add(given, "[#{key_text(key)}]", value)
      end
    end

    def key_text(key)
      case key
      when String then short(plain(key).inspect)
      when Symbol then short(key.inspect)
      when nil, true, false, Integer, Float then key.inspect
      else Mark.class_name(key)
      end
    end

    # The text in UTF-8, as an object of String itself.
    def plain(text)
      String.new(text).encode('UTF-8', invalid: :replace, undef: :replace).scrub
    end

    def short(text)
      text.length > MOST_OF_A_KEY ? "#{text[0, MOST_OF_A_KEY]}.." : text
    end

    def add_elements(given, object)
      elements = ELEMENTS.bind_call(object)
      return unless elements.any? { |value| held?(value) } && !elements.all? { |value| held?(value) || String === value }

      elements.each_with_index { |value, index| add(given, "[#{index}]", value) }
    end

    def add_members(given, object)
      MEMBERS.bind_call(object).zip(VALUES.bind_call(object)) { |name, value| add(given, ".#{name}", value) }
    end

    def add_variables(given, object)
      scope = BINDING.bind_call(object)
      scope.local_variables.each { |name| add(given, "(variable #{name})", scope.local_variable_get(name)) }
      add(given, '(self)', scope.receiver)
    rescue ArgumentError
      nil # a block that was written in C
    end

    def add_locals(given, object)
      LOCALS.bind_call(object).each { |name| add(given, "[#{name.inspect}]", LOCAL.bind_call(object, name)) }
    end

    def write_globals
      given = OwnStack::List.new
      (global_variables - UNASKED).grep(A_GLOBAL).each { |name| add(given, name.to_s, eval(name.to_s)) } # rubocop:disable Security/Eval
      put(OF_GLOBALS, given)
    end
  end
end
