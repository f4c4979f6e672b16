# rollout: features that are switched on for some.
require_relative "told"
require "rollout"

rollout = Rollout.new(plain)
feature("flags", [false, true, false]) do
  before = rollout.active?(:word)
  rollout.activate(:word)
  during = rollout.active?(:word)
  rollout.deactivate(:word)
  [before, during, rollout.active?(:word)]
end
