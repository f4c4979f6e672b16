# Sidekiq: a job is pushed, and a worker looks for one. This file is the worker's application too.
require "sidekiq"

class Job
  include Sidekiq::Worker
  def perform(*) = nil
end

if ARGV[0].to_i.positive?
  require_relative "told"
  require "json"
  require "tempfile"
  Sidekiq.configure_client { |config| config.redis = { url: ADDRESS, reconnect_attempts: 0 } }
  feature("push", [1, [5]]) { Job.perform_async(5) && [plain.llen("queue:default"), JSON.parse(plain.lindex("queue:default", 0))["args"]] }
  feature("schedule", 1) { Job.perform_in(60, 6) && plain.zcard("schedule") }
  feature("worker", 0) do
    said = Tempfile.new
    worker = spawn({ "REDIS_URL" => ADDRESS }, "sidekiq", "-r", __FILE__, "-c", "1", out: said.path, err: %i[child out])
    limit, ended = Time.now + 20, nil
    sleep 0.1 until plain.llen("queue:default").zero? || (ended = Process.wait(worker, Process::WNOHANG)) || Time.now > limit
    Process.kill("KILL", worker) unless ended
    error = File.readlines(said.path).grep(/Error|unsupported/).first
    raise error if error
    plain.llen("queue:default")
  end
end
