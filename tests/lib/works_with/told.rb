# What the applications' scripts in Ruby share: a line for each feature, as told.py has it.
require "redis"
$VERBOSE = nil
PORT = ARGV[0].to_i
ADDRESS = "redis://127.0.0.1:#{PORT}"

def feature(name, wanted, left: -> { false })
  found = yield
  error = found == wanted ? nil : "#{found.inspect} is not #{wanted.inspect}"
rescue StandardError => e
  error = "#{e.class}: #{e.message}"
ensure
  puts error ? "#{left.call ? 'half' : 'fail'} #{name}: #{error.split.join(' ')}" : "pass #{name}"
  $stdout.flush
end

# A client of its own.
def plain
  Redis.new(port: PORT)
end
