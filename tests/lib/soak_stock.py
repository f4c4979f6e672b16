"""Stock clients in a soak: redis-cli, redis-benchmark and redis-py. Each end status and each error is checked."""
import collections
import json
import subprocess
import sys
import threading
import traceback

from soak_shared import WAIT, Program
from soak_values import ERRORS

# The connections and requests of one run of redis-benchmark, and its depths of pipelines.
CONNECTIONS, REQUESTS, DEPTHS = 20, 4_800, (1, 16, 100)
# The number of redis-cli's keys that are only set.
MASS = 20


def pythons():
    """An interpreter that has redis-py, and the parsers that it can take."""
    for python in (sys.executable, "/usr/bin/python3"):
        for modules, parsers in (("redis, hiredis", ("python", "hiredis")), ("redis", ("python",))):
            try:
                subprocess.run([python, "-c", f"import {modules}"], check=True, stderr=subprocess.DEVNULL)
                return python, parsers
            except (subprocess.CalledProcessError, FileNotFoundError):
                pass
    return None, ()


def missing():
    """A line for each stock client that isn't there."""
    _, parsers = pythons()
    if not parsers:
        yield "redis-py isn't there and not tried: install Debian's python3-redis and python3-hiredis"
    elif "hiredis" not in parsers:
        yield "hiredis isn't there, and redis-py is tried without it: install Debian's python3-hiredis"


def redis_pys(run, port, word, keys):
    """redis-py with each parser, beginning with a word, each with keys of its own."""
    python, parsers = pythons()
    return [Program(run, "soak_redis_py.py", port, run.seed, parser, word, json.dumps(keys[place::len(parsers)]), python=python)
            for place, parser in enumerate(parsers)]


def ran(*words, **rest):
    """Runs a stock client."""
    return subprocess.run(list(map(str, words)), capture_output=True, text=True, timeout=4 * WAIT, check=False, **rest)


class Stock(threading.Thread):
    """A stock client that is run again and again until it is ended. While hosts fail it may meet a named error."""

    def __init__(self, run, port, chance, word):
        """The words are those of tests/lib/soak_shared.py."""
        super().__init__(daemon=True)
        self.shared, self.port, self.chance, self.is_well = run, port, chance, word == "well"
        self.goes, self.turn = True, 0

    def run(self):
        """Runs the client."""
        try:
            while self.goes:
                self.once()
                self.turn += 1
        except Exception:  # pylint: disable=broad-except
            self.shared.tell_wrong(traceback.format_exc())

    def end(self):
        """Ends it after its present run."""
        self.goes = False
        self.join(5 * WAIT)
        if self.is_alive():
            self.shared.tell_wrong(f"{type(self).__name__} doesn't end")

    def met_error(self, said):
        """Whether it met a named error of the proxy. None comes once hosts are well."""
        found = any(error in said for error in (*ERRORS, "finished with"))
        assert not (found and self.is_well), f"{said!r:.200} of hosts that are well"
        return found


class Benchmark(Stock):
    """redis-benchmark, with each depth of pipelines. It ends at the first error reply, and when a connection ends."""

    # Its tests, and whether the proxy alone answers.
    LOADS = (("ping_mbulk", True), ("set", False), ("get", False), ("mset", False), ("incr", False))

    def once(self):
        """One test at one depth."""
        load, is_local = self.LOADS[self.turn // len(DEPTHS) % len(self.LOADS)]
        depth = DEPTHS[self.turn % len(DEPTHS)]
        ended = ran("redis-benchmark", "-p", self.port, "-c", CONNECTIONS, "-n", REQUESTS, "-P", depth, "-r", 10_000, "-q", "-t",
                    load)
        said = ended.stderr.replace("WARNING: Could not fetch server CONFIG\n", "")
        how = f"redis-benchmark -P {depth} -t {load} ended with status {ended.returncode}: {said} {ended.stdout[-200:]}"
        if ended.returncode == 0:
            assert said == "" and ended.stdout.count("requests per second") == 1, how
            # (at first it asks for two settings, and leaves at the first error)
            self.shared.add(benchmarks=1, left=1)
        else:
            assert not is_local and self.met_error(said), how
            self.shared.add(benchmarks_refused=1, left=CONNECTIONS * depth + 1)


class Cli(Stock):
    """redis-cli, with single commands and with many over one connection."""

    def __init__(self, run, port, chance, word, keys):
        """No other client uses the keys, and the host that lies never gets them."""
        super().__init__(run, port, chance, word)
        self.set_only, self.keys = keys[:MASS], keys[MASS:]
        # The values that were set at each key.
        self.values = collections.defaultdict(list)

    def once(self):
        """One use."""
        self.chance.choice((self.single, self.single, self.mass))()

    def single(self):
        """PING, a SET and its GET. While hosts fail the value may be missing, or an older one."""
        ended = self.asked("ping")
        assert (ended.returncode, ended.stdout, ended.stderr) == (0, "PONG\n", ""), f"PING: {ended}"
        key, value = self.chance.choice(self.keys), f"{self.turn}-{self.chance.getrandbits(64)}\n"
        self.values[key].append(value)
        was_set = self.is_answered(self.asked("-x", "set", key, input=value[:-1]), ["OK\n"])
        ended = self.asked("get", key)
        self.is_answered(ended, [value] if self.is_well and was_set else ["\n", *self.values[key]])
        self.shared.add(cli=3)

    def asked(self, *words, **rest):
        """Runs it so that an error reply ends it with status 1."""
        return ran("redis-cli", "-p", self.port, "-e", *words, **rest)

    def is_answered(self, ended, wanted):
        """Whether one of the wanted outputs came, and not a named error."""
        if ended.returncode == 0:
            assert ended.stdout in wanted and ended.stderr == "", f"{ended}, and {wanted} is due"
            return True
        assert ended.returncode == 1 and self.met_error(ended.stdout + ended.stderr), f"{ended}"
        return False

    def mass(self):
        """Commands in lines. (`redis-cli --pipe` sends an empty line before its last command, which is no RESP2.)"""
        count = self.chance.choice((1, 30, 300))
        lines = [f"SET {self.chance.choice(self.set_only)} {number}" for number in range(count)]
        ended = ran("redis-cli", "-p", self.port, input="\n".join(lines) + "\n")
        replies = [line for line in ended.stdout.split("\n") if line]
        assert (ended.returncode, len(replies), ended.stderr) == (0, count, ""), \
            f"{len(replies)} of {count} replies: {ended!s:.500}"
        for reply in set(replies) - {"OK"}:
            assert self.met_error(reply), f"SET is answered {reply!r:.200}"
        self.shared.add(cli=count)
