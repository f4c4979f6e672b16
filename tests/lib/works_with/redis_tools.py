"""redis-cli and redis-benchmark."""
import subprocess

from told import PORT, feature, plain

CLI = ("redis-cli", "-p", str(PORT))


def said(*words, given=None):
    ended = subprocess.run(words, input=given, capture_output=True, text=True, timeout=60, check=False)
    return " ".join((ended.stdout + ended.stderr).split())


def benchmark(*words):
    """How many tests it told a rate of, or what it says where it told none."""
    found = said("redis-benchmark", "-p", str(PORT), "-q", "-n", "100", *words)
    return found.count("requests per second") or found


def piped():
    """What it says at the end of a pipe, without what it says on the way."""
    return said(*CLI, "--pipe", given=PIPED).removeprefix("All data transferred. Waiting for the last reply... ")


PIPED = "*3\r\n$3\r\nSET\r\n$1\r\np\r\n$1\r\n1\r\n"
feature("commands of keys", lambda: (said(*CLI, "set", "a", "1"), said(*CLI, "mget", "a", "b"), plain().get("a")), ("OK", "1", b"1"))
feature("benchmark -t get,set", lambda: benchmark("-t", "get,set"), 2)
feature("benchmark", benchmark, 20)
feature("--scan", lambda: said(*CLI, "--scan", "--pattern", "?"), "a")
feature("--pipe", piped, "Last reply received from server. errors: 0, replies: 1", left=lambda: plain().exists("p"))
feature("-n 1", lambda: said(*CLI, "-n", "1", "set", "d", "1"), "OK", left=lambda: plain().exists("d"))
