# Leaks that services have, and for each the mended twin. Each scenario answers the object that must be gone after it.
require 'gcaudit'
require 'observer'

SCENARIOS = {}

def scenario(name, &work)
  SCENARIOS[name] = work
end

# ---- a constant: a customer who is stored under one name and taken away under another

class Customer; end

CUSTOMERS = {}

scenario 'constant' do |leaks|
  customer = Customer.new
  CUSTOMERS['Bob'] = customer
  CUSTOMERS.delete(leaks ? 'bob' : 'Bob')
  customer
end

# ---- a class variable: the last request that a class has seen

class Request; end

class Router
  @@last = nil

  def self.route(request, leaks)
    @@last = request
    @@last = nil unless leaks
  end
end

scenario 'class variable' do |leaks|
  request = Request.new
  Router.route(request, leaks)
  request
end

# ---- a global variable

class Draft; end

scenario 'global variable' do |leaks|
  $draft = Draft.new
  draft = $draft
  $draft = nil unless leaks
  draft
end

# ---- a variable of a thread, which outlives the request

class Tenant; end

scenario 'thread variable' do |leaks|
  tenant = Tenant.new
  Thread.current.thread_variable_set(:tenant, tenant)
  Thread.current.thread_variable_set(:tenant, nil) unless leaks
  tenant
end

# ---- a variable of a fiber: what most programs call thread-local

class Locale; end

scenario 'fiber local' do |leaks|
  locale = Locale.new
  Thread.current[:locale] = locale
  Thread.current[:locale] = nil unless leaks
  locale
end

# ---- a callback that is kept, and closes over a window

class Window; end

ON_QUIT = []

scenario 'closure' do |leaks|
  window = Window.new
  ON_QUIT << proc { window }
  ON_QUIT.pop unless leaks
  window
end

# ---- a finalizer that closes over its own object, which then never dies

class Upload
  def self.cleaner(path)
    proc { path }
  end
end

FILES = ['upload.tmp'].freeze

scenario 'finalizer' do |leaks|
  upload = Upload.new
  ObjectSpace.define_finalizer(upload, leaks ? proc { upload } : Upload.cleaner(FILES.first))
  upload
end

# ---- what is done at the end of the program

class Connection
  attr_reader :number

  def initialize
    @number = 7
  end

  def self.close_at_exit(number)
    at_exit { number }
  end
end

scenario 'at_exit' do |leaks|
  connection = Connection.new
  leaks ? at_exit { connection } : Connection.close_at_exit(connection.number)
  connection
end

# ---- a method that remembers its answers

class Report; end

class Reports
  def initialize(most)
    @most = most
    @known = {}
  end

  def report(number)
    found = @known[number] ||= Report.new
    @known.shift if @known.size > @most
    found
  end
end

REPORTS = { true => Reports.new(Float::INFINITY), false => Reports.new(10) }

scenario 'memoized method' do |leaks|
  first = REPORTS[leaks].report(0)
  20.times { |number| REPORTS[leaks].report(number + 1) }
  first
end

# ---- an observer that isn't taken away

class Gauge
  def update(*) = nil
end

class Ticker
  include Observable
end

TICKER = Ticker.new

scenario 'observer' do |leaks|
  gauge = Gauge.new
  TICKER.add_observer(gauge)
  TICKER.delete_observer(gauge) unless leaks
  gauge
end

# ---- a job that nobody takes from its queue

class Job; end

JOBS = Queue.new

scenario 'queue' do |leaks|
  job = Job.new
  JOBS << job
  JOBS.pop unless leaks
  job
end

# ---- a thread that waits for its time

class Watch
  def look = nil
end

scenario 'timer' do |leaks|
  watch = Watch.new
  timer = Thread.new(watch) do |seen|
    sleep
    seen.look
  end
  Thread.pass until timer.stop?
  timer.kill.join unless leaks
  watch
end

# ---- a method of a session that is kept as a handler

class Session
  def on_event = nil
end

HANDLERS = {}

scenario 'method object' do |leaks|
  session = Session.new
  HANDLERS[:news] = session.method(:on_event)
  HANDLERS.delete(:news) unless leaks
  session
end

# ---- a method that was defined for one object alone

class Plugin; end

class Host; end

HOST = Host.new

scenario 'singleton class' do |leaks|
  plugin = Plugin.new
  HOST.define_singleton_method(:plugin) { plugin }
  HOST.singleton_class.remove_method(:plugin) unless leaks
  plugin
end

# ---- a fiber that is never resumed again

class Page; end

FIBERS = []

scenario 'fiber' do |leaks|
  page = Page.new
  fiber = Fiber.new do |seen|
    Fiber.yield
    seen
  end
  fiber.resume(page)
  FIBERS << fiber
  FIBERS.pop unless leaks
  page
end

def assert_dead(heap, leaks)
  SCENARIOS.each_value { |work| heap.assert_dead(work.call(leaks)) }
end

times = Integer(ARGV.fetch(0, 1))
times.times { GcAudit.audited { |heap| assert_dead(heap, false) } }
puts "no violation #{times}"
begin
  GcAudit.audited { |heap| assert_dead(heap, true) }
  puts 'no violation'
rescue GcAudit::HeapViolation => e
  puts e.message
end
