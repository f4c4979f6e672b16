# redis-namespace: keys with a word before them.
require_relative "told"
require "redis-namespace"

names = Redis::Namespace.new("names", redis: plain)
feature("commands of keys", ["OK", "1", ["1", nil], "1", 1]) do
  [names.set("a", 1), names.get("a"), names.mget("a", "b"), plain.get("names:a"), names.del("a")]
end
feature("multi", ["OK"], left: -> { plain.get("names:b") }) { names.multi { |together| together.set("b", 1) } }
