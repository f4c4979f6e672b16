"""Clients of a soak that send pipelines on keys of their own, and check each reply. Only a drain ends their connections.

    tests/lib/soak_good.py PORT SEED CLIENTS       (tests/soak starts it)

A reply has to be the one that is due (see tests/lib/soak_values.py). While hosts fail it may be a named error of the proxy or a lie.
"""
import random
import sys
import threading
import traceback

sys.dont_write_bytecode = True
# pylint: disable=wrong-import-position
from harness import Client, Failure, text
from soak_shared import WAIT, Led
from soak_values import ERRORS, Values, is_lie

# At these words no reply may be an error.
WELL = ("well", "drain")


class Good(threading.Thread):
    """One client. It counts replies, errors and lies among them, and the parts that hosts are asked for these replies."""

    def __init__(self, led, port, seed, number):
        """Its commands depend on the seed and its number alone."""
        super().__init__(daemon=True)
        self.led, self.port, self.number = led, port, number
        self.chance, self.values, self.is_well = random.Random(f"{seed}-{number}"), Values(), False
        self.counts = {}

    def run(self):
        """Sends one pipeline after the other."""
        try:
            with Client(self.port) as client:
                client.socket.settimeout(WAIT)
                while self.led.word != "end" and self.pipeline(client):
                    if self.led.word == "rest":
                        self.led.rest()
        except Exception:  # pylint: disable=broad-except
            self.led.tell_wrong(f"client {self.number}: {traceback.format_exc()}")

    def key(self):
        """One of its keys."""
        return b"good%d-%d" % (self.number, self.chance.randrange(500))

    def command(self):
        """The words of a command."""
        key = self.key()
        kind = self.chance.choice(("set", "get", "get", "mget", "echo", "del"))
        if kind == "set":
            return ["SET", key, self.values.new(key, self.chance.choice((0, 10, 1_000, 30_000)))]
        if kind == "mget":
            return ["MGET"] + [self.key() for _ in range(self.chance.randrange(1, 12))]
        if kind == "echo":
            return ["ECHO", b"%d-%d" % (self.number, self.chance.getrandbits(64))]
        return [kind.upper(), key]

    def pipeline(self, client):
        """Sends a pipeline and takes its replies. Whether the connection is still open."""
        self.is_well = self.led.word in WELL
        asked = [self.command() for _ in range(self.chance.choice((1, 1, 10, 100)))]
        self.counts = dict.fromkeys(("replies", "errors", "lies", "parts"), 0)
        try:
            client.socket.sendall(b"".join(text(*words) for words in asked))
            return self.take(client, asked)
        except ConnectionError:
            # (a drain ended the connection while this was sent; its answers can still be read)
            assert self.led.word == "drain"
            return self.take(client, asked)
        finally:
            self.led.add(self.counts)

    def take(self, client, asked):
        """Takes replies until the last one is there. False: a drain ended the connection before."""
        for words in asked[self.counts["replies"]:]:
            try:
                reply = client.reply()
            except (EOFError, ConnectionError):
                assert self.led.word == "drain", f"the connection ended where {words!r:.80} was to be answered"
                return False
            self.check(words, reply)
        return True

    def check(self, words, reply):
        """Compares a reply with its command."""
        self.counts["replies"] += 1
        if words[0] == "ECHO":
            assert reply == words[1], f"{words} is answered {reply!r:.80}"
            return
        self.counts["parts"] += len(words) - 1 if words[0] == "MGET" else 1
        if words[0] == "MGET":
            assert isinstance(reply, list) and len(reply) == len(words) - 1, f"{words} is answered {reply!r:.80}"
            for key, one in zip(words[1:], reply):
                self.check_value(key, one)
        elif not self.is_excused(words[0], reply):
            self.check_own(words, reply)

    def check_own(self, words, reply):
        """Checks a reply of a host that tells the truth."""
        if words[0] == "SET":
            assert reply == b"OK", f"{words!r:.80} is answered {reply!r:.80}"
            self.values.was_set(words[1], words[2], self.is_well)
        elif words[0] == "DEL":
            self.values.was_deleted(words[1], reply, self.is_well)
        else:
            self.values.look_at(words[1], reply, self.is_well)

    def check_value(self, key, value):
        """Checks one of the values of an MGET."""
        if not self.is_excused("MGET", value):
            self.values.look_at(key, value, self.is_well)

    def is_excused(self, name, reply):
        """Whether a named error or a lie stands for the reply. None does once hosts are well."""
        if isinstance(reply, Failure):
            assert reply in ERRORS or (name == "DEL" and reply.startswith("finished with")), f"{name} is answered {reply!r}"
            self.counts["errors"] += 1
        elif is_lie(reply):
            self.counts["lies"] += 1
        else:
            return False
        assert not self.is_well, f"{name} is answered {reply!r:.80} by hosts that are well"
        return True


def main():
    """Runs all clients."""
    port, seed, count = sys.argv[1:]
    led = Led()
    led.lead([Good(led, int(port), seed, number) for number in range(int(count))])


main()
