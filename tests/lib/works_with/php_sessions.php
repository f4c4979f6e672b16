<?php
// php-redis: PHP's sessions, without and with locks.
ob_start();
require __DIR__ . "/told.php";
foreach (["save_handler" => "redis", "save_path" => "tcp://127.0.0.1:$port", "use_cookies" => "0", "use_only_cookies" => "0",
          "cache_limiter" => ""] as $name => $value) {
    ini_set("session.$name", $value);
}

function visits($locks)
{
    ini_set("redis.session.locking_enabled", $locks);
    session_id("visitor$locks");
    session_start();
    $_SESSION["n"] = 1;
    session_write_close();
    session_start();
    $first = $_SESSION["n"]++;
    session_regenerate_id(true);
    $new = session_id();
    session_write_close();
    session_start();
    $found = [$first, $_SESSION["n"], (bool) plain()->exists("PHPREDIS_SESSION:$new")];
    session_destroy();
    return [...$found, (bool) plain()->exists("PHPREDIS_SESSION:$new"), (bool) plain()->exists("PHPREDIS_SESSION:visitor$locks")];
}

feature("sessions", fn() => visits("0"), [1, 2, true, false, false]);
feature("sessions with locks", fn() => visits("1"), [1, 2, true, false, false]);
