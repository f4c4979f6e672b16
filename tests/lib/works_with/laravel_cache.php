<?php
// Laravel's cache over phpredis, as its own settings have it.
require __DIR__ . "/told.php";
foreach (["Support", "Redis", "Cache"] as $part) {
    require_once "/usr/share/php/Illuminate/$part/autoload.php";
}
use Illuminate\Cache\RedisStore;
use Illuminate\Redis\RedisManager;

function store($driver, $rest = [])
{
    global $port;
    return new RedisStore(new RedisManager(null, $driver, ["default" => ["host" => "127.0.0.1", "port" => $port, ...$rest]]), "laravel");
}

$cache = store("phpredis");
feature("put, get", fn() => [$cache->put("a", [1], 60), $cache->get("a")], [true, [1]]);
feature("many", fn() => $cache->many(["a", "none"]), ["a" => [1], "none" => null]);
feature("add", fn() => [$cache->add("b", 2, 60), $cache->add("b", 3, 60), (int) $cache->get("b")], [true, false, 2]);
feature("increment", fn() => [$cache->increment("n"), $cache->increment("n", 4), (int) $cache->get("n")], [1, 5, 5]);
feature("lock", fn() => [$cache->lock("lock", 5)->get(fn() => 7), (bool) plain()->exists("laravel:lock")], [7, false]);
feature("forget", fn() => [$cache->forget("a"), $cache->get("a")], [true, null]);
feature("putMany", fn() => [$cache->putMany(["c" => "3", "d" => "4"], 60), $cache->many(["c", "d"])], [true, ["c" => "3", "d" => "4"]],
        fn() => plain()->exists("laravel:c", "laravel:d"));
feature("flush", fn() => store("phpredis")->flush(), true, fn() => !plain()->exists("laravel:b"));
feature("database 0, its default", fn() => [store("phpredis", ["database" => 0])->put("e", "5", 60), store("phpredis")->get("e")], [true, "5"],
        fn() => plain()->exists("laravel:e"));
