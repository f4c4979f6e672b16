<?php
// Symfony's cache.
require __DIR__ . "/told.php";
require_once "/usr/share/php/Symfony/Component/Cache/autoload.php";
use Symfony\Component\Cache\Adapter\RedisAdapter;

$cache = new RedisAdapter(RedisAdapter::createConnection("redis://127.0.0.1:$port"), "names");

function kept($cache, $keys)
{
    foreach ($keys as $key) {
        $cache->saveDeferred($cache->getItem($key)->set("of $key"));
    }
    $done = $cache->commit();
    return [$done, ...array_map(fn($key) => $cache->getItem($key)->get(), $keys)];
}

feature("get, save", fn() => [$cache->get("k", fn() => 5), $cache->get("k", fn() => 6)], [5, 5]);
feature("getItems", fn() => array_map(fn($item) => $item->get(), iterator_to_array($cache->getItems(["k", "none"]))),
        ["k" => 5, "none" => null]);
feature("saveDeferred, commit", fn() => kept($cache, ["d1", "d2", "d3"]), [true, "of d1", "of d2", "of d3"]);
feature("deleteItems", fn() => [$cache->deleteItems(["d1", "d2"]), $cache->hasItem("d1")], [true, false]);
feature("clear", fn() => $cache->clear(), true, fn() => !$cache->hasItem("d3"));
feature("save, get after clear", fn() => kept($cache, ["u1", "u2", "u3"]), [true, "of u1", "of u2", "of u3"]);
feature("database 1", function () use ($port) {
    $other = new RedisAdapter(RedisAdapter::createConnection("redis://127.0.0.1:$port/1"), "names");
    return [$other->save($other->getItem("other")->set(1)), $other->getItem("other")->get()];
}, [true, 1], fn() => plain()->exists("names:other"));
