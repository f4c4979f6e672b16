# redis-rack: sessions of Rack.
require_relative "told"
require "rack"
require "redis-rack"

count = ->(env) { [200, {}, [(env["rack.session"]["n"] = (env["rack.session"]["n"] || 0) + 1).to_s]] }
visits = lambda do |app|
  browser, first = Rack::MockRequest.new(app), Rack::MockRequest.new(app).get("/")
  [first.body, browser.get("/", "HTTP_COOKIE" => first["Set-Cookie"]).body, browser.get("/").body]
end
feature("sessions", %w[1 2 1]) { visits.call(Rack::Session::Redis.new(count, redis_server: ADDRESS, expire_after: 60)) }
feature("sessions in a namespace", %w[1 2 1]) { visits.call(Rack::Session::Redis.new(count, redis_server: "#{ADDRESS}/0/sessions")) }
