<?php
// What the applications' scripts in PHP share: a line for each feature, as told.py has it.
error_reporting(E_ALL & ~E_DEPRECATED);
$port = (int) $argv[1];

function feature($name, $work, $wanted, $left = null)
{
    try {
        $found = $work();
        $error = $found === $wanted ? null : var_export($found, true) . " is not " . var_export($wanted, true);
    } catch (Throwable $problem) {
        $error = get_class($problem) . ": " . $problem->getMessage();
    }
    $kind = $left && $left() ? "half" : "fail";
    echo $error === null ? "pass $name\n" : "$kind $name: " . preg_replace("/\\s+/", " ", $error) . "\n";
}

/** A client of its own. */
function plain()
{
    global $port;
    $client = new Redis();
    $client->connect("127.0.0.1", $port);
    return $client;
}
