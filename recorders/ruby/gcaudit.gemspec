# frozen_string_literal: true

require_relative 'lib/gcaudit/version'

Gem::Specification.new do |gem|
  gem.name = 'gcaudit'
  gem.version = GcAudit::VERSION
  gem.summary = 'Assertions about the heap of a Ruby program, with the path that keeps an object alive'
  gem.authors = ['The authors of gcaudit']
  gem.required_ruby_version = '>= 3.1'
  gem.files = Dir.chdir(__dir__) { Dir['lib/**/*.rb', 'lib/gcaudit/recorders.zip', 'README.md', 'LICENCE.md'] }
end
