"""What the tests on sockets share: Redis servers, redproxy before them, and clients.

Whoever starts a process by `start` ends all by `end_all`.
"""
import bisect
import contextlib
import hashlib
import itertools
import json
import os
import re
import select
import shutil
import signal
import socket
import subprocess
import sys
import tempfile
import threading
import time
import traceback
import urllib.request
from concurrent.futures import ThreadPoolExecutor

TOP = os.path.dirname(os.path.dirname(os.path.dirname(os.path.abspath(__file__))))
PROGRAM = os.environ.get("REDPROXY", os.path.join(TOP, "redproxy"))
# The program itself: what builds it would meet what stands before the C library too.
BUILT = os.environ.get("REDPROXY", os.path.join(TOP, "crates", "proxy_main", "out", "proxy_main"))
# So many checks are made side by side.
LANES = 8
# So many lines of generations has each proxy that is started; `in_lines` changes it.
LINES = [1]
# No call to a socket waits longer than so many seconds.
PATIENCE = 20
STARTED = []
PORTS = itertools.count(os.getpid() * 101)
# A process that is being started has a copy of each socket till its program begins; so none is started while a port is tried.
STARTING = threading.Lock()


class Late(AssertionError):
    """Something took longer than it may: on a machine that does much else a test has a second chance then."""


def in_time(limit, what):
    """Whether a moment of the clock is still to come; else `Late` says what didn't happen."""
    if time.monotonic() >= limit:
        raise Late(what)


def free_port():
    """A port on which nobody listens. It is below those that the system gives to connections, and no two calls give the same."""
    for number in PORTS:
        port = 20_000 + number % 12_000
        with STARTING, socket.socket() as probe, contextlib.suppress(OSError):
            probe.bind(("127.0.0.1", port))
            return port
    raise AssertionError("there is no end of numbers")


def start(words, **rest):
    with STARTING:
        process = subprocess.Popen(words, stdin=subprocess.DEVNULL, **rest)
    STARTED.append(process)
    return process


def end_all():
    for process in STARTED:
        if process.poll() is None:
            with contextlib.suppress(ProcessLookupError):
                os.kill(process.pid, signal.SIGCONT)
            process.kill()
    for process in STARTED:
        process.wait()


def await_port(port, process):
    limit = time.monotonic() + PATIENCE
    while time.monotonic() < limit:
        if process.poll() is not None:
            raise AssertionError(f"{process.args[0]} ended with status {process.returncode}")
        with contextlib.suppress(OSError):
            socket.create_connection(("127.0.0.1", port), 1).close()
            return
        time.sleep(0.02)
    raise AssertionError(f"nobody listens on {port}")


class Redis:
    """A Redis server without files."""

    def __init__(self, port=None):
        self.port = port or free_port()
        self.start()

    def start(self):
        words = ["redis-server", "--port", str(self.port), "--bind", "127.0.0.1", "--save", "", "--appendonly", "no"]
        self.process = start(words, stdout=subprocess.DEVNULL, stderr=subprocess.DEVNULL)
        await_port(self.port, self.process)

    def kill(self):
        self.process.kill()
        self.process.wait()

    def stop(self):
        os.kill(self.process.pid, signal.SIGSTOP)

    def go_on(self):
        os.kill(self.process.pid, signal.SIGCONT)

    def clear(self):
        with Client(self.port) as client:
            client.ask("FLUSHALL")


@contextlib.contextmanager
def in_lines(count):
    """Proxies that are started meanwhile have so many lines of generations."""
    LINES.append(count)
    try:
        yield
    finally:
        LINES.pop()


class Proxy:
    """`redproxy serve` before some servers. The connection that asks whether it listens is counted by it too."""

    def __init__(self, servers, connections=0, program=PROGRAM, environment=None, before=(), after=(), **settings):
        self.port = free_port()
        self.room = tempfile.mkdtemp(prefix="redproxy-")
        self.names = settings.get("hosts") or [f"127.0.0.1:{server.port}" for server in servers]
        self.weights = settings.get("weights") or [1] * len(self.names)
        self.file = os.path.join(self.room, "settings.json")
        with open(self.file, "w", encoding="utf-8") as out:
            json.dump({"listen": f"127.0.0.1:{self.port}", "hosts": self.names, **settings}, out)
        # (words `before` start the program, and words `after` are told to it)
        words = [*before, program, "serve", "--config", self.file, *after]
        if connections:
            words += ["--connections", str(connections)]
        if LINES[-1] > 1:
            words += ["--lines", str(LINES[-1])]
        # (it appends: where `told` has moved the place that both share, a line would be written over another)
        self.errors = open(os.path.join(self.room, "errors"), "a+", encoding="utf-8")
        self.output = open(os.path.join(self.room, "output"), "a+", encoding="utf-8")
        self.process = start(words, stdout=self.output, stderr=self.errors, env={**os.environ, **(environment or {})})

    def __enter__(self):
        await_port(self.port, self.process)
        return self

    def __exit__(self, *_):
        self.process.kill()
        self.process.wait()
        self.errors.close()
        self.output.close()
        shutil.rmtree(self.room)

    def ended(self):
        """Its status, and what it wrote to its output and as errors."""
        status = self.process.wait(PATIENCE)
        texts = []
        for file in (self.output, self.errors):
            file.seek(0)
            texts.append(file.read())
        return status, *texts

    def told(self):
        self.errors.seek(0)
        return self.errors.read()

    def place(self, key):
        """Where a key is on libketama's ring of the servers."""
        if not hasattr(self, "ring"):
            digests = [40 * len(self.names) * weight // sum(self.weights) for weight in self.weights]
            self.ring = sorted(
                (int.from_bytes(hashlib.md5(f"{name}-{n}".encode()).digest()[4 * k:4 * k + 4], "little"), host)
                for host, name in enumerate(self.names) for n in range(digests[host]) for k in range(4))
        point = int.from_bytes(hashlib.md5(key.encode()).digest()[:4], "little")
        return bisect.bisect_left(self.ring, (point, -1)) % len(self.ring)

    def owner(self, key):
        """Which server owns a key."""
        place = self.place(key)
        return self.ring[place][1]

    def owners(self, key):
        """All servers in the order in which they get a key: the first that isn't put aside has it."""
        place = self.place(key)
        yield from dict.fromkeys(host for _, host in self.ring[place:] + self.ring[:place])

    def key_of(self, host, word="key"):
        return next(key for key in (f"{word}{n}" for n in range(100_000)) if self.owner(key) == host)


class Metered(Proxy):
    """With a page of its numbers."""

    def __init__(self, servers, **settings):
        self.admin = free_port()
        super().__init__(servers, after=("--metrics", f"127.0.0.1:{self.admin}"), **settings)

    def number(self, name):
        """A number of the page."""
        with urllib.request.urlopen(f"http://127.0.0.1:{self.admin}/metrics", timeout=PATIENCE) as page:
            return float(re.search(rf"^{re.escape(name)} (\S+)$", page.read().decode(), re.M)[1])

    def generations(self):
        """How many have opened."""
        return self.number("redproxy_generations_total")


class Twemproxy:
    """A real twemproxy with these settings of a pool, in a folder for its files."""

    def __init__(self, path, config):
        file = os.path.join(path, "nutcracker.yml")
        with open(file, "w", encoding="utf-8") as out:
            out.write(config)
        words = ["nutcracker", "-c", file, "-s", str(free_port()), "-o", os.path.join(path, "log")]
        self.process = start(words, stdout=subprocess.DEVNULL, stderr=subprocess.DEVNULL)

    def __enter__(self):
        return self

    def __exit__(self, *_):
        self.process.kill()
        self.process.wait()


class Failure(str):
    """An error reply."""


# What the proxy answers for a part that was lost.
LOST = Failure("upstream failure")


class Client:
    def __init__(self, port):
        self.socket = socket.create_connection(("127.0.0.1", port), PATIENCE)
        self.socket.setsockopt(socket.IPPROTO_TCP, socket.TCP_NODELAY, 1)
        self.file = self.socket.makefile("rb")

    def __enter__(self):
        return self

    def __exit__(self, *_):
        self.close()

    def close(self):
        self.file.close()
        self.socket.close()

    def send(self, *words):
        self.socket.sendall(text(*words))

    def ask(self, *words):
        self.send(*words)
        return self.reply()

    def reply(self):
        line = self.file.readline()
        if not line.endswith(b"\r\n"):
            raise EOFError("the connection ended")
        kind, rest = line[:1], line[1:-2]
        if kind == b"+":
            return rest
        if kind == b"-":
            return Failure(rest.decode())
        if kind == b":":
            return int(rest)
        if kind == b"$":
            if rest == b"-1":
                return None
            whole = self.file.read(int(rest) + 2)
            if len(whole) < int(rest) + 2:
                raise EOFError("the connection ended in a reply")
            assert whole.endswith(b"\r\n")
            return whole[:-2]
        assert kind == b"*", line
        return None if rest == b"-1" else [self.reply() for _ in range(int(rest))]

    def has_ended(self):
        """Whether the peer ends the connection, and sends nothing more."""
        return self.file.read(1) == b""


def is_ready(client):
    """Whether something came for a client."""
    return bool(select.select([client.socket], [], [], 0)[0])


def is_ended(client):
    """Whether a connection ended, as far as can be told without waiting."""
    client.socket.setblocking(False)
    try:
        return client.socket.recv(1) == b""
    except BlockingIOError:
        return False
    except ConnectionError:
        return True
    finally:
        client.socket.settimeout(PATIENCE)


def text(*words):
    words = [word if isinstance(word, bytes) else str(word).encode() for word in words]
    return b"*%d\r\n" % len(words) + b"".join(b"$%d\r\n%s\r\n" % (len(word), word) for word in words)


def equal(found, wanted):
    assert found == wanted, f"{found!r} is not {wanted!r}"


def each(checks):
    """Makes the checks side by side."""
    with ThreadPoolExecutor(LANES) as pool:
        for result in [pool.submit(check) for check in checks]:
            result.result()


def compiler():
    """The name of a C compiler."""
    return next(word for word in (os.environ.get("CC"), "cc", "clang", "gcc") if word and shutil.which(word))


def preloaded(source, room):
    """The shared object of a C source that lies beside this file, compiled into a room."""
    found = os.path.join(room, source + ".so")
    subprocess.run([compiler(), "-O1", "-shared", "-fPIC", "-o", found, os.path.join(TOP, "tests", "shims", source)], check=True)
    return found


def counts_in(line):
    numbers = re.fullmatch(r"accepted (\d+) handed (\d+) sent (\d+) answered (\d+) lost (\d+) ejections (\d+)\n", line)
    assert numbers, line
    return dict(zip(("accepted", "handed", "sent", "answered", "lost", "ejections"), map(int, numbers.groups())))


class Stream(threading.Thread):
    """A client that sends pipelines of 100, one after the other over one socket, and compares all that comes with what has to
    come."""

    # Ten digits that stand for a number of the pipeline, and so for values that no other has.
    MARK = b"@@@@@@@@@@"

    def __init__(self, proxy, number):
        super().__init__(daemon=True)
        self.proxy, self.number = proxy, number
        # Whether it goes on, what was wrong, and how many replies came.
        self.goes, self.wrong, self.good = True, None, 0
        asked, wanted = [], []
        for place in range(50):
            key, value = b"s%d-%d" % (number, place), b"%d-%d-" % (number, place) + self.MARK
            asked += [text("SET", key, value), text("GET", key)]
            wanted += [b"+OK\r\n", b"$%d\r\n%s\r\n" % (len(value), value)]
        self.asked, self.wanted = b"".join(asked), b"".join(wanted)

    def run(self):
        turn = 0
        try:
            with Client(self.proxy.port) as client:
                while self.goes:
                    client.socket.sendall(self.asked.replace(self.MARK, b"%010d" % turn))
                    wanted = self.wanted.replace(self.MARK, b"%010d" % turn)
                    equal(client.file.read(len(wanted)), wanted)
                    self.good += 100
                    turn += 1
        except Exception as problem:  # pylint: disable=broad-except
            self.wrong = problem


# So many PINGs fill a journal, which has 262,144 steps: once they are answered another generation has begun.
PINGS = 131_072


def ping(client, count=PINGS):
    """A client asks so often, in pipelines, and is answered as often."""
    while count:
        some = min(count, 1_000)
        client.socket.sendall(text("PING") * some)
        equal(client.file.read(7 * some), b"+PONG\r\n" * some)
        count -= some


# A text of so many bytes; seventeen ECHOs of it, each with its answer, have more payload than that at which a generation ends.
MEGABYTE = b"x" * 1_000_000


def change(proxy, client):
    """A client asks for large texts until another generation begins. This takes a fiftieth of what PINGs take."""
    before, limit = proxy.generations(), time.monotonic() + PATIENCE
    while proxy.generations() == before:
        equal(client.ask("ECHO", MEGABYTE), MEGABYTE)
        in_time(limit, "no other generation begins")


def resident_mib(process):
    """How much memory a process has now."""
    with open(f"/proc/{process.pid}/status", encoding="utf-8") as status:
        return int(re.search(r"VmRSS:\s+(\d+) kB", status.read())[1]) / 1024


def thread_count(process):
    """How many threads a process has now."""
    return len(os.listdir(f"/proc/{process.pid}/task"))


def made_ready(servers):
    """The servers, all of them started, going and empty."""
    for server in servers:
        if server.process.poll() is not None:
            server.start()
        server.go_on()
        server.clear()
    return servers


def install():
    """Installs Redis where it is missing and that may be done; else ends with a line that says so."""
    packages = {"redis-server": "redis-server", "redis-cli": "redis-tools", "redis-benchmark": "redis-tools"}
    missing = [word for word in packages if not shutil.which(word)]
    if missing and os.geteuid() == 0 and shutil.which("apt-get"):
        quiet = {"stdout": subprocess.DEVNULL, "stderr": subprocess.DEVNULL}
        # (a server that the package starts by itself isn't wanted)
        subprocess.run(["apt-get", "update", "-q"], check=False, **quiet)
        subprocess.run(["apt-get", "install", "-y", "-q", *{packages[word] for word in missing}], check=False,
                       env={**os.environ, "RUNLEVEL": "1", "DEBIAN_FRONTEND": "noninteractive"}, **quiet)
        missing = [word for word in missing if not shutil.which(word)]
    if missing:
        names = ", ".join(sorted({packages[word] for word in missing}))
        print(f"the tests need {', '.join(missing)}: install Debian's {names}", file=sys.stderr)
        print("0 passed, 1 failed")
        sys.exit(1)


def run_test(name, test):
    """Runs a test, and once more where only time was too short."""
    try:
        test()
    except Late as late:
        print(f"{name}: late ({late}), once more", flush=True)
        test()


def run_tests(names):
    """Runs a script's functions `test_..`: all, or those whose names have one of the words of the command line. Prints how each
    ended, ends all processes and then the script, whose last line is 'N passed, M failed'."""
    subprocess.run([PROGRAM, "--help"], stdout=subprocess.DEVNULL, check=True)
    tests = [(name[5:], test) for name, test in names.items() if name.startswith("test_")]
    tests = [(name, test) for name, test in tests if not sys.argv[1:] or any(word in name for word in sys.argv[1:])]
    passed, failed = 0, 0
    try:
        for name, test in tests:
            began = time.monotonic()
            try:
                run_test(name, test)
                passed += 1
                print(f"{name}: passed in {time.monotonic() - began:.1f} s", flush=True)
            except Exception:  # pylint: disable=broad-except
                failed += 1
                print(f"{name}: failed\n{traceback.format_exc()}", flush=True)
    finally:
        end_all()
    print(f"{passed} passed, {failed} failed")
    sys.exit(1 if failed else 0)
