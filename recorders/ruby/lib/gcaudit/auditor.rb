# frozen_string_literal: true

require 'fileutils'
require 'json'
require 'tmpdir'
require_relative 'dump'
require_relative 'errors'
require_relative 'own_stack'

module GcAudit
  # Writes a dump of the heap, and has it read and audited by processes of their own.
  class Auditor
    MOST_SECONDS = 1800
    HEAD = /\Achecked (\d+) assertions at collection 1: (\d+) violations\n/
    LAST = /^end gcs 1 violations (\d+)$/
    STEP = 0.02
    private_constant :MOST_SECONDS, :HEAD, :LAST, :STEP

    def initialize(program: nil, python: nil, recorders: nil, keep: nil, seconds: nil)
      @program = program
      @python = python || ENV.fetch('GCAUDIT_PYTHON', 'python3')
      @recorders = recorders || ENV['GCAUDIT_RECORDERS']
      @keep = keep || ENV['GCAUDIT_KEEP']
      @seconds = Float(seconds || ENV.fetch('GCAUDIT_SECONDS', MOST_SECONDS))
    end

    def audit(assertions)
      folder = new_folder
      begin
        asserted = OwnStack.in_checker { write(assertions, folder) }
        judge(folder, run(folder), asserted) if asserted.positive?
      ensure
        FileUtils.remove_entry(folder) unless @keep
      end
    end

    private

    def new_folder
      return Dir.mktmpdir('gcaudit-') unless @keep

      FileUtils.mkdir_p(@keep)
      Dir.mktmpdir('audit-', @keep)
    rescue SystemCallError => e
      raise HeapAuditError, "no folder for the heap dump can be made: #{e.message}"
    end

    # Writes the dump, and what is asserted of it. Nothing may move or be freed in between, since addresses are the marks.
    def write(assertions, folder)
      was_disabled = GC.disable
      lines = assertions.filter_map(&:line)
      File.write(File.join(folder, 'marks.jsonl'), lines.map { |line| "#{JSON.generate(line)}\n" }.join)
      GcAudit.write_dump(File.join(folder, 'heap.json')) unless lines.empty?
      lines.size
    rescue SystemCallError, IOError => e
      raise HeapAuditError, "no heap dump could be written: #{e.message}"
    ensure
      GC.enable unless was_disabled
    end

    def judge(folder, status, asserted)
      said = read(folder, 'report.txt')
      violations = said.lines.last&.[](LAST, 1)
      is_whole = violations && said[HEAD, 1].to_i == asserted
      unless is_whole && [0, 1].include?(status) && status.zero? == violations.to_i.zero?
        reason = read(folder, 'errors.txt').lines.last&.strip || 'nothing was said'
        raise HeapAuditError, "the heap could not be audited (status #{status}): #{reason}#{where(folder)}"
      end
      return if status.zero?

      report = said.sub(HEAD, '')
      raise HeapViolation.new("gcaudit found a violation:\n#{report.strip}#{where(folder)}", report)
    end

    def read(folder, name)
      File.read(File.join(folder, name), encoding: 'UTF-8').scrub
    end

    def where(folder)
      @keep ? "\nThe dump, its trace and the report are in #{folder}" : ''
    end

    # Runs the reader of dumps, which runs gcaudit. The answer is its status.
    def run(folder)
      files = %w[heap.json marks.jsonl heap.jsonl].map { |name| File.join(folder, name) }
      child = Process.spawn(environment, @python, '-B', '-m', 'rubyheap_to_trace.marked', *files,
                            in: File::NULL, out: File.join(folder, 'report.txt'), err: File.join(folder, 'errors.txt'))
      wait(child)
    rescue SystemCallError => e
      raise HeapAuditError, "Python could not be run, which reads the dump: put its path into the variable GCAUDIT_PYTHON (#{e.message})"
    end

    def wait(child)
      limit = Process.clock_gettime(Process::CLOCK_MONOTONIC) + @seconds
      until (_, status = Process.waitpid2(child, Process::WNOHANG))
        if Process.clock_gettime(Process::CLOCK_MONOTONIC) > limit
          Process.kill(:KILL, child)
          Process.waitpid(child)
          raise HeapAuditError, "the heap was not audited within #{@seconds} seconds; the variable GCAUDIT_SECONDS allows more"
        end
        sleep STEP
      end
      status.exitstatus || "signal #{status.termsig}"
    end

    # The environment of the reader: with the recorders that are named, else those that the gem or the repository has.
    def environment
      found = {}
      place = @recorders || [File.join(__dir__, 'recorders.zip'), File.expand_path('../../..', __dir__)].find do |one|
        one.end_with?('.zip') ? File.exist?(one) : Dir.exist?(File.join(one, 'rubyheap_to_trace'))
      end
      found['PYTHONPATH'] = [File.expand_path(place), ENV['PYTHONPATH']].compact.join(File::PATH_SEPARATOR) if place
      found['GCAUDIT'] = File.expand_path(@program) if @program
      found
    end
  end
end
