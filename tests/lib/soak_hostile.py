"""Clients of a soak that misbehave: they leave in the middle, read slowly or not at all, send a byte at a time, bytes that are no
RESP and commands past every limit, and open connections without need.

    tests/lib/soak_hostile.py PORT SEED CLIENTS       (tests/soak starts it)

Their replies are checked as far as they are due. The count `left` has the commands that they sent and whose replies they didn't
read, or more.
"""
import contextlib
import random
import socket
import struct
import sys
import threading
import time
import traceback

sys.dont_write_bytecode = True
# pylint: disable=wrong-import-position
from harness import Client, Failure, text
from soak_shared import WAIT, Led
from soak_values import ERRORS, is_lie

# A reply may be one of these in place of a value while hosts fail.
EXCUSES = tuple(map(Failure, ERRORS))


class Counting(Client):
    """A client that counts its commands and the replies that it took."""

    def __init__(self, port):
        """It is connected."""
        super().__init__(port)
        self.asked, self.taken = 0, 0
        self.socket.settimeout(WAIT)

    def asks(self, count, *parts):
        """Sends bytes that have at most `count` commands."""
        self.asked += count
        self.socket.sendall(b"".join(parts))

    def takes(self):
        """The next reply."""
        reply = self.reply()
        self.taken += 1
        return reply

    def takes_all(self):
        """All replies until the connection ends."""
        replies = []
        with contextlib.suppress(EOFError, ConnectionError):
            while True:
                replies.append(self.takes())
        return replies


def cut(chance, client):
    """Leaves in the middle of a command, or of the answers."""
    count = chance.randrange(50)
    asked = text("SET", "cut", b"v" * chance.choice((10, 10_000, 900_000))) + text("GET", "cut") * count
    client.asks(1 + count, asked[:chance.randrange(1, len(asked))])
    if chance.random() < 0.5:
        # (the connection is reset in place of closed)
        client.socket.setsockopt(socket.SOL_SOCKET, socket.SO_LINGER, struct.pack("ii", 1, 0))


def stall(chance, client):
    """Asks for much, and reads nothing for a while."""
    client.asks(1, text("SET", "stall", b"v" * 20_000))
    count = chance.choice((10, 3_000))
    client.socket.settimeout(0.5)
    with contextlib.suppress(TimeoutError):
        client.asks(count, text("GET", "stall") * count)
    time.sleep(chance.random() * 2)
    client.socket.settimeout(WAIT)
    if chance.random() < 0.5:
        with contextlib.suppress(EOFError):
            for _ in range(5):
                client.takes()


def sip(chance, client):
    """Reads slowly. The proxy may close it for that: then the bytes that came are the first of those that were due."""
    words = [b"%032x" % chance.getrandbits(128) * chance.choice((1, 30)) for _ in range(chance.randrange(1, 300))]
    due = b"".join(b"$%d\r\n%s\r\n" % (len(word), word) for word in words)
    client.socket.setsockopt(socket.SOL_SOCKET, socket.SO_RCVBUF, 4_096)
    client.asks(len(words), *[text("ECHO", word) for word in words])
    got, limit = b"", time.monotonic() + chance.random() * 10
    with contextlib.suppress(ConnectionError):
        while len(got) < len(due):
            some = client.socket.recv(chance.randrange(1, 400) if time.monotonic() < limit else 65_536)
            if not some:
                break
            got += some
            time.sleep(0.01 if time.monotonic() < limit else 0)
    assert due.startswith(got), f"{got[-200:]!r} isn't due after {len(got)} bytes"
    if got == due:
        client.taken = client.asked


def garbage(chance, client):
    """Sends bytes that are no RESP: a named error and an end answer them, after the answers to earlier commands."""
    kind = chance.randrange(3)
    rest = (chance.randbytes(chance.randrange(1, 3_000)), b"GET / HTTP/1.1\r\n\r\n", b"*2\r\n$-7\r\n")[kind]
    client.asks(2, text("PING") + rest)
    client.socket.shutdown(socket.SHUT_WR)
    replies = client.takes_all()
    assert not replies or (replies[0] == b"PONG" and all(isinstance(one, Failure) for one in replies[1:])), \
        f"{rest[:60]!r} is answered {replies!r:.200}"


OVERSIZED = (
    b"*1025\r\n",
    b"*3\r\n$3\r\nSET\r\n$1\r\nk\r\n$1048577\r\n",
    b"*3\r\n$3\r\nSET\r\n$1\r\nk\r\n$99999999999\r\n",
    b"*20\r\n" + (b"$1000000\r\n" + b"w" * 1_000_000 + b"\r\n") * 9,
)


def oversized(chance, client):
    """Sends a command past a limit: a named error and an end answer it. The end may come before all answers are read."""
    with contextlib.suppress(BrokenPipeError, ConnectionResetError):
        client.asks(2, text("PING") + chance.choice(OVERSIZED))
        replies = client.takes_all()
        assert not replies or (replies[0] == b"PONG" and replies[1:] in ([], [Failure("downstream protocol error")])), \
            f"a command past a limit is answered {replies!r:.200}"


def unknown(chance, client):
    """Names commands that don't exist, with long names."""
    client.asks(6, text(b"n" * chance.choice((10, 1_000_000)), "k") * 5 + text("PING"))
    replies = [client.takes() for _ in range(6)]
    assert all(isinstance(one, Failure) for one in replies[:5]) and replies[5] == b"PONG", \
        f"unknown commands are answered {replies!r:.200}"


def unfinished(chance, client):
    """Begins a command of megabytes, and doesn't end it."""
    member = b"$1\r\nk\r\n$900000\r\n" + b"u" * 900_000 + b"\r\n"
    client.asks(1, b"*17\r\n$4\r\nMSET\r\n" + member * chance.randrange(1, 8))
    time.sleep(chance.random())


def byte_by_byte(chance, client):
    """Sends a byte at a time: a command for the proxy, and one for a host."""
    word = b"%d" % chance.getrandbits(64)
    client.asked += 2
    for byte in text("ECHO", word) + text("SET", b"byte" + word, word):
        client.socket.sendall(bytes([byte]))
        time.sleep(0.005)
    replies = [client.takes(), client.takes()]
    assert replies[0] == word and (replies[1] in (b"OK", *EXCUSES) or is_lie(replies[1])), \
        f"bytes one by one are answered {replies!r:.200}"


def half(chance, client):
    """Closes its sending half at once, and gets all answers and then an end."""
    words = [b"%d" % chance.getrandbits(64) for _ in range(chance.randrange(1, 200))]
    client.asks(len(words), *[text("ECHO", word) for word in words])
    client.socket.shutdown(socket.SHUT_WR)
    replies = client.takes_all()
    assert replies == words, f"a half closed client got {len(replies)} of {len(words)} replies"


def quits(chance, client):
    """QUIT ends the connection: all commands before it are answered, and none behind it."""
    count = chance.randrange(1, 50)
    client.asks(count + 1, text("PING") * count, text("QUIT"), text("PING") * chance.randrange(3))
    replies = client.takes_all()
    wanted = [b"PONG"] * count + [b"OK"]
    # (a command behind it may be met by a reset, which takes unread answers along)
    assert replies == wanted[:len(replies)], f"QUIT behind {count} PINGs is answered {replies!r:.200}"


def crowd(chance, client):
    """Opens connections that ask nothing."""
    port = client.socket.getpeername()[1]
    others = [Client(port) for _ in range(chance.randrange(100))]
    time.sleep(chance.random())
    for other in others:
        other.close()


KINDS = (cut, stall, sip, garbage, oversized, unknown, unfinished, byte_by_byte, half, quits, crowd)


class Hostile(threading.Thread):
    """One hostile client after another, until the word changes."""

    def __init__(self, led, port, seed, number):
        """Its kinds of clients depend on the seed and its number alone."""
        super().__init__(daemon=True)
        self.led, self.port, self.chance = led, port, random.Random(f"{seed}-hostile-{number}")

    def run(self):
        """Plays the clients."""
        while self.led.word == "trouble":
            kind = self.chance.choice(KINDS)
            try:
                self.play(kind)
            except TimeoutError:
                self.led.tell_wrong(f"{kind.__name__} waited for longer than {WAIT} s")
            except (OSError, EOFError):
                # (the proxy may close any of them)
                self.led.add({"closed": 1})
            except Exception:  # pylint: disable=broad-except
                self.led.tell_wrong(f"{kind.__name__}: {traceback.format_exc()}")

    def play(self, kind):
        """Plays one client, and counts."""
        with Counting(self.port) as client:
            try:
                kind(self.chance, client)
            finally:
                self.led.add({"hostile": 1, "replies": client.taken, "left": client.asked - client.taken})


def main():
    """Runs all threads."""
    port, seed, count = sys.argv[1:]
    led = Led()
    led.lead([Hostile(led, int(port), seed, number) for number in range(int(count))])


main()
