# Rails: ActiveSupport's RedisCacheStore, which tells its handler of errors and goes on.
require_relative "told"
require "active_support"
require "active_support/cache"
require "active_support/cache/redis_cache_store"

ERRORS = []
tell = ->(method:, returning:, exception:) { ERRORS << "#{exception.class}: #{exception.message}" }
STORE = -> { ActiveSupport::Cache::RedisCacheStore.new(url: ADDRESS, error_handler: tell) }
CACHE, OTHER = STORE.call, STORE.call

# What some work gives; an error that its handler was told is one.
def told
  ERRORS.clear
  found = yield
  raise ERRORS.first unless ERRORS.empty?
  found
end

feature("write, read", [true, { x: 1 }]) { told { [!!CACHE.write("a", { x: 1 }, expires_in: 60), CACHE.read("a")] } }
feature("fetch", [5, 5]) { told { [CACHE.fetch("f") { 5 }, CACHE.fetch("f") { 6 }] } }
feature("write_multi, read_multi", { "b" => 1, "c" => 2 }) do
  told { CACHE.write_multi({ "b" => 1, "c" => 2 }) && CACHE.read_multi("b", "c", "none") }
end
feature("fetch_multi", { "b" => 1, "q" => "Q" }) { told { CACHE.fetch_multi("b", "q") { |key| key.upcase } } }
feature("increment", [1, 3]) { told { [CACHE.increment("n", 1, expires_in: 60), CACHE.increment("n", 2)] } }
feature("delete, delete_multi", [true, 1, false]) { told { [!!CACHE.delete("b"), CACHE.delete_multi(["c"]), CACHE.exist?("c")] } }
feature("delete_matched", nil, left: -> { !plain.exists?("f") }) { told { CACHE.delete_matched("f*"); CACHE.read("f") } }
feature("clear", nil, left: -> { !plain.exists?("f") }) { told { OTHER.clear; OTHER.read("f") } }
