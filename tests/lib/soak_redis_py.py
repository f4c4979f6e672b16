"""redis-py in a soak: threads with a common pool of connections, single commands and pipelines, with hiredis or without.

    tests/lib/soak_redis_py.py PORT SEED PARSER WORD KEYS       (tests/soak starts it)

PARSER is `hiredis` or `python`. WORD is `trouble` or `well` (see tests/lib/soak_shared.py). No other client uses the KEYS, and the host
that lies never gets them. A reply has to be the one that is due (see tests/lib/soak_values.py); while hosts fail it may be a named
error of the proxy.
"""
import json
import random
import sys
import threading
import time
import traceback

sys.dont_write_bytecode = True
if sys.argv[3] == "python":
    # (without hiredis redis-py takes its own parser)
    sys.modules["hiredis"] = None
# pylint: disable=wrong-import-position,wrong-import-order
import redis
from redis.utils import HIREDIS_AVAILABLE

from soak_shared import WAIT, Led
from soak_values import ERRORS, Values

THREADS = 4


class User(threading.Thread):
    """One thread, with keys of its own."""

    def __init__(self, led, pool, seed, number, keys):
        """The first key is that of INCR."""
        super().__init__(daemon=True)
        self.led, self.chance, (self.counter, *self.keys) = led, random.Random(f"{seed}-redis-py-{number}"), keys
        self.client, self.values, self.is_well = redis.Redis(connection_pool=pool), Values(), False
        # The last number that INCR gave while hosts were well.
        self.sum = None

    def run(self):
        """Sends one command or pipeline after the other."""
        try:
            while self.led.word != "end":
                self.is_well = self.led.word == "well"
                self.chance.choice((self.single, self.single, self.pipeline, self.mget, self.count))()
                time.sleep(0.001)
        except Exception:  # pylint: disable=broad-except
            self.led.tell_wrong(traceback.format_exc())

    def excuse(self, problem):
        """An error came for a reply. It has to be the proxy's, and none may come once hosts are well."""
        assert isinstance(problem, redis.ResponseError), repr(problem)
        assert str(problem) in ERRORS or str(problem).startswith("finished with"), repr(problem)
        assert not self.is_well, f"{problem!r} of hosts that are well"
        self.led.add({"errors": 1})

    def asked(self, call, *words):
        """Makes a call. Its reply, and whether an error stands for that."""
        self.led.add({"replies": 1})
        try:
            return call(*words), False
        except redis.ResponseError as problem:
            self.excuse(problem)
            return None, True

    def command(self):
        """The name of a method, and its words."""
        key = self.chance.choice(self.keys)
        kind = self.chance.choice(("set", "get", "get", "delete"))
        return (kind, key, self.values.new(key.encode(), self.chance.choice((0, 100, 20_000)))) if kind == "set" else (kind, key)

    def single(self):
        """One command."""
        kind, *words = self.command()
        reply, is_error = self.asked(getattr(self.client, kind), *words)
        if not is_error:
            self.check(kind, words, reply)

    def check(self, kind, words, reply):
        """Compares a reply with its command."""
        key = words[0].encode()
        if kind == "set":
            assert reply is True, f"SET {key} is answered {reply!r}"
            self.values.was_set(key, words[1], self.is_well)
        elif kind == "delete":
            self.values.was_deleted(key, reply, self.is_well)
        else:
            self.values.look_at(key, reply, self.is_well)

    def pipeline(self):
        """A pipeline, in which an error stands for one reply."""
        asked = [self.command() for _ in range(self.chance.choice((2, 20, 200)))]
        pipe = self.client.pipeline(transaction=False)
        for kind, *words in asked:
            getattr(pipe, kind)(*words)
        replies = pipe.execute(raise_on_error=False)
        assert len(replies) == len(asked), f"{len(replies)} replies to {len(asked)} commands"
        self.led.add({"replies": len(replies)})
        for (kind, *words), reply in zip(asked, replies):
            if isinstance(reply, Exception):
                self.excuse(reply)
            else:
                self.check(kind, words, reply)

    def mget(self):
        """An MGET, in which an error stands for one value."""
        keys = self.chance.sample(self.keys, self.chance.randrange(1, 8))
        replies, is_error = self.asked(self.client.mget, keys)
        for key, reply in zip(keys, replies or ()):
            if isinstance(reply, Exception):
                self.excuse(reply)
            else:
                self.values.look_at(key.encode(), reply, self.is_well)
        assert is_error or len(replies) == len(keys), f"{len(replies)} values of {len(keys)} keys"

    def count(self):
        """An INCR. Once hosts are well, each is carried out once."""
        before, (found, _) = self.sum, self.asked(self.client.incr, self.counter)
        self.sum = found if self.is_well else None
        assert before is None or found == before + 1, f"INCR gives {found} after {before}"


def main():
    """Runs all threads."""
    port, seed, parser, word, keys = sys.argv[1:]
    assert HIREDIS_AVAILABLE == (parser == "hiredis"), "redis-py has the other parser"
    keys = json.loads(keys)
    pool = redis.ConnectionPool(host="127.0.0.1", port=int(port), max_connections=2 * THREADS, socket_timeout=WAIT,
                                health_check_interval=1)
    led = Led(word)
    led.lead([User(led, pool, seed, number, keys[number::THREADS]) for number in range(THREADS)])


main()
