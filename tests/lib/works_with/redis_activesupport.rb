# redis-activesupport: ActiveSupport's cache by redis-store.
require_relative "told"
require "active_support"
require "redis-activesupport"

cache = ActiveSupport::Cache::RedisStore.new(ADDRESS)
feature("write, read", { x: 1 }) { cache.write("a", { x: 1 }, expires_in: 60) && cache.read("a") }
feature("fetch", [5, 5]) { [cache.fetch("f") { 5 }, cache.fetch("f") { 6 }] }
feature("read_multi", { "a" => { x: 1 }, "f" => 5 }) { cache.read_multi("a", "f", "none") }
feature("increment", [1, 3]) { [cache.increment("n"), cache.increment("n", 2)] }
feature("delete", [1, nil]) { [cache.delete("a"), cache.read("a")] }
feature("clear", [true, nil], left: -> { !plain.exists?("f") }) { [!!cache.clear, cache.read("f")] }
