"""Random legal runs of a proxy, as records that tools/audit/RECORD.md defines: what tests/audit has read.

It shares nothing with tools/audit. Owners are least members of a set, and outlier detection is counted in the list of all results.
Values are pairs of RESP2's type character and bytes, a number, a list or None.
"""
import hashlib
import hmac
import json
import random

NAMES_OF_SUMS = (b"DEL", b"EXISTS", b"TOUCH", b"UNLINK")
OWN_TEXTS = (b"PONG", b"OK", b"invalid request", b"no upstream host", b"upstream failure", b"upstream protocol error", b"proxy busy",
             b"downstream protocol error")
OWN_BEGINNINGS = (b"unsupported command '", b"wrong number of arguments for '", b"finished with ")
FRESH = {"out": False, "start": 0, "streak": 0, "good": 0, "results": 0, "multiplier": 0}
UNIX = 1_764_500_000_000
ZERO_T = 1_000


def text_of(value):
    """The one spelling of a value."""
    kind, it = value
    sign = kind.encode()
    if it is None:
        return sign + b"-1\r\n"
    if kind == "*":
        return b"*%d\r\n" % len(it) + b"".join(text_of(member) for member in it)
    if kind == "$":
        return b"$%d\r\n%s\r\n" % (len(it), it)
    return sign + (b"%d" % it if kind == ":" else it) + b"\r\n"


def command(*words):
    return ("*", [("$", word) for word in words])


class Clear:
    """Writes payloads as they are."""
    values, key = True, None

    def leaf(self, data):
        return data.hex()

    number_of = staticmethod(str)

    def value(self, value, clear_number=True):
        kind, it = value
        if it is None:
            return [kind]
        if kind == "*":
            return [kind, [self.value(member, False) for member in it]]
        if kind == ":":
            return [kind, str(it) if clear_number else self.number_of(it)]
        return [kind, self.own(it) if kind in "+-" else self.leaf(it)]

    def own(self, data):
        return data.hex() if data in OWN_TEXTS or data.startswith(OWN_BEGINNINGS) else self.leaf(data)

    def words(self, words):
        return [words[0].hex()] + [self.leaf(word) for word in words[1:]]


class Hashed(Clear):
    """Writes lengths and keyed hashes in place of payloads."""
    values = False

    def __init__(self, key):
        self.key = key.hex()
        self.secret = key

    def leaf(self, data):
        return f"{len(data)}:{hmac.new(self.secret, data, 'md5').hexdigest()}"

    def number_of(self, number):
        return self.leaf(b"%d" % number)


def points_of(names, weights):
    pairs = set()
    for host, name in enumerate(names):
        for k in range(40 * len(names) * weights[host] // sum(weights)):
            digest = hashlib.md5(b"%s-%d" % (name.encode(), k)).digest()
            pairs |= {(int.from_bytes(digest[at:at + 4], "little"), host) for at in (0, 4, 8, 12)}
    return pairs


def point_of(key, tags):
    before, opening, rest = key.partition(b"{")
    tag, closing, _ = rest.partition(b"}")
    hashed = tag if tags and opening and closing and tag else key
    return int.from_bytes(hashlib.md5(hashed).digest()[:4], "little")


class Marks:
    """All results of all hosts, and what they did: each question is answered by counting in this list."""

    def __init__(self, hosts, rules, opening, clock):
        self.hosts, self.rules, self.opening, self.clock = hosts, rules, opening, clock
        self.log = [[] for _ in range(hosts)]

    def last(self, host, names):
        return next((at for at in range(len(self.log[host]) - 1, -1, -1) if self.log[host][at][0] in names), None)

    def is_out(self, host):
        at = self.last(host, ("ejected", "returned"))
        return self.opening[host]["out"] if at is None else self.log[host][at][0] == "ejected"

    def start(self, host):
        at = self.last(host, ("ejected",))
        return self.opening[host]["start"] if at is None else self.log[host][at][1]

    def streak(self, host):
        if self.is_out(host) or not self.rules["consecutive"]:
            return 0
        at = self.last(host, ("good", "ejected", "kept", "returned"))
        after = self.log[host] if at is None else self.log[host][at + 1:]
        return sum(name == "bad" for name, _ in after) + (self.opening[host]["streak"] if at is None else 0)

    def tallies(self, host):
        at = self.last(host, ("swept",))
        after = [name for name, _ in (self.log[host] if at is None else self.log[host][at + 1:])]
        good, bad = after.count("good"), after.count("bad")
        old = self.opening[host] if at is None else FRESH
        return old["good"] + good, old["results"] + good + bad

    def multiplier(self, host):
        number, most = self.opening[host]["multiplier"], -(-self.rules["max_ms"] // self.rules["base_ms"])
        for name, _ in self.log[host]:
            number = min(number + 1, most) if name == "ejected" else max(number - 1, 0) if name == "lowered" else number
        return number

    def state(self):
        hosts = []
        for host in range(self.hosts):
            good, results = self.tallies(host)
            hosts.append({"out": self.is_out(host), "start": self.start(host), "streak": self.streak(host), "good": good,
                          "results": results, "multiplier": self.multiplier(host)})
        return {"clock": self.clock, "hosts": hosts}

    def outs(self):
        return [host for host in range(self.hosts) if self.is_out(host)]

    def usable(self):
        out = self.outs()
        if 100 * (self.hosts - len(out)) < self.rules["panic_percent"] * self.hosts:
            return list(range(self.hosts))
        return [host for host in range(self.hosts) if host not in out]

    def trip(self, host):
        out = len(self.outs())
        name = "ejected" if out == 0 or 100 * out < self.rules["max_percent"] * self.hosts else "kept"
        self.log[host].append((name, self.clock))
        return name.capitalize()

    def result(self, host, good, t):
        self.clock = max(self.clock, t)
        counts = not good and not self.is_out(host) and self.rules["consecutive"] > 0
        trips = counts and self.streak(host) + 1 == self.rules["consecutive"]
        self.log[host].append(("good" if good else "bad", self.clock))
        return self.trip(host) if trips else "None"

    def sweep(self, t):
        self.clock = max(self.clock, t)
        told = {"returned": 0, "ejected": 0, "kept": 0}
        for host in range(self.hosts):
            if not self.is_out(host):
                self.log[host].append(("lowered", t))
            elif self.clock - self.start(host) >= min(self.rules["base_ms"] * self.multiplier(host), self.rules["max_ms"]):
                self.log[host].append(("returned", t))
                told["returned"] += 1
        for host in self.far_below():
            told[self.trip(host).lower()] += 1
        for log in self.log:
            log.append(("swept", t))
        return told

    def far_below(self):
        tallies = {host: self.tallies(host) for host in range(self.hosts) if not self.is_out(host)}
        rates = {host: 10 ** 6 * good // all_ for host, (good, all_) in tallies.items() if all_ >= self.rules["request_volume"]}
        if len(rates) < self.rules["success_hosts"]:
            return []
        n, total, squares = len(rates), sum(rates.values()), sum(rate ** 2 for rate in rates.values())
        return [host for host, rate in rates.items() if total - n * rate > 0
                and (total - n * rate) ** 2 * 10 ** 6 > self.rules["factor"] ** 2 * (n * squares - total ** 2)]


class Socket:
    """A client's socket. `input` and `output` are all bytes that it sent and got."""

    def __init__(self, number):
        self.number = number
        self.client = f"127.0.0.1:{40_000 + number}"
        self.origin, self.commands, self.rest, self.next = None, 0, b"", None
        self.input, self.output = [], []
        self.made = 0


class Ask:
    """A command of a connection: its answer once it is known, or its parts."""

    def __init__(self, how, parts=(), own=None):
        self.how, self.parts, self.own = how, list(parts), own

    def outcome(self):
        if self.own is not None:
            return self.own
        values = [part["value"] for part in self.parts]
        return None if None in values else joined(self.how, values)


def joined(how, values):
    if how == "same":
        return values[0]
    if how == "get":
        return ("*", [value if value[0] in "$-" else ("-", b"upstream protocol error") for value in values])
    wrong = [value for value in values if (value != ("+", b"OK") if how == "set" else value[0] != ":")]
    if wrong:
        return ("-", b"finished with %d error(s)" % len(wrong))
    if how == "set":
        return ("+", b"OK")
    total = sum(value[1] for value in values)
    return (":", total) if -2 ** 63 <= total < 2 ** 63 else ("-", b"upstream protocol error")


class Client:
    """A connection over a socket."""

    def __init__(self, number, worker, socket):
        self.number, self.worker, self.socket = number, worker, socket
        self.asks, self.accepted, self.handed = [], 0, 0
        self.open, self.finishing = True, False


class Generation:
    """One journal, made step by step; each method makes a legal step."""

    def __init__(self, world, number, origin, opening):
        self.world, self.number, self.origin = world, number, origin
        self.opening = opening
        self.marks = Marks(len(world.names), world.rules, opening["hosts"], opening["clock"])
        self.lines, self.clients = [], []
        self.epochs = [0] * len(world.names)
        self.pipes = [{"waiting": [], "sent": [], "came": 0} for _ in world.names]
        self.links = {}
        self.bytes = self.steps = 0
        self.start, self.writer = world.now, world.writer

    def first(self):
        world = self.world
        rules = {name: world.rules[name] for name in world.rules}
        return {"format": 1, "program": "simulator 1", "line": 0, "generation": self.number, "start": UNIX + self.start - ZERO_T,
                "start_t": self.start, "values": self.writer.values, "hash_key": self.writer.key, "listen": world.listen,
                "hosts": world.names, "weights": world.weights, "tags": world.tags, "workers": world.workers,
                "reply_ms": world.reply_ms, "detection": rules, "from": self.origin, "opening": self.opening}

    def record(self):
        return [self.first(), *self.lines, {"end": {"steps": self.steps, "bytes": self.bytes}}]

    def step(self, passed, event, answer, length=0, **fields):
        self.lines.append({"n": self.steps, "at": self.world.now, "pass": passed, "event": event, **fields, "answer": answer})
        self.steps += 1
        self.bytes += length

    def connect(self, socket):
        number = len(self.clients)
        client = Client(number, number % self.world.workers, socket)
        self.clients.append(client)
        told = {"number": socket.number, "client": socket.client, "from": socket.origin, "commands": socket.commands,
                "rest": self.world.writer.leaf(socket.rest)}
        self.step(client.worker, "Opened", {"conn": number}, socket=told)
        return client

    def arrive(self, client, request):
        write, length = self.world.writer, 0
        how, plans, own, name, finishes = self.world.plan(request)
        if request is None:
            fields = {"broken": True}
        elif name == "Invalid":
            fields, length = {"value": write.value(request, False)}, len(text_of(request))
        else:
            fields, length = {"words": write.words([word for _, word in request[1]])}, len(text_of(request))
        if plans and not write.values:
            fields["points"] = [point_of(key, self.world.tags) for key, _ in plans]
        ask = Ask(how, own=own)
        counts = self.place(client, ask, plans)
        client.asks.append(ask)
        client.finishing |= finishes
        answer = {"index": client.accepted, "local": name, "parts": len(plans), "no_host": counts[0], "busy": counts[1]}
        client.accepted += 1
        client.socket.input.append((self.world.now, b"?" if request is None else text_of(request)))
        self.step(client.worker, "Arrived", answer, length, conn=client.number, **fields)

    def place(self, client, ask, plans):
        no_host = busy = 0
        usable = self.marks.usable()
        for key, words in plans:
            host = self.world.owner(point_of(key, self.world.tags), usable)
            part = {"client": client, "words": words, "host": host, "value": None}
            ask.parts.append(part)
            if host is None:
                part["value"] = ("-", b"no upstream host")
                no_host += 1
            elif len(self.pipes[host]["waiting"]) == 1_024:
                part["value"] = ("-", b"proxy busy")
                busy += 1
            else:
                self.pipes[host]["waiting"].append(part)
        return no_host, busy

    def take(self, host):
        pipe, epoch = self.pipes[host], self.epochs[host]
        if (host, epoch) not in self.links:
            self.links[host, epoch] = {"local": f"127.0.0.1:{self.world.port()}", "at": self.world.now, "sent": [], "came": []}
            self.lines.append({"link": {"host": host, "epoch": epoch, "local": self.links[host, epoch]["local"], "at": self.world.now}})
        part = pipe["waiting"].pop(0)
        part["at"] = self.world.now
        text = text_of(command(*part["words"]))
        answer = {"epoch": epoch, "place": len(pipe["sent"]), "words": self.world.writer.words(part["words"])}
        pipe["sent"].append(part)
        self.links[host, epoch]["sent"].append((self.world.now, text))
        self.step(host % self.world.workers, "Taken", answer, len(text), host=host)

    def answer(self, host, value):
        pipe, world = self.pipes[host], self.world
        part = pipe["sent"][pipe["came"]]
        pipe["came"] += 1
        part["value"] = value
        trip = self.marks.result(host, True, world.now)
        text = text_of(value)
        self.links[host, self.epochs[host]]["came"].append((world.now, text))
        told = world.writer.value(value, part["words"][0] in NAMES_OF_SUMS)
        self.step(host % world.workers, "Answered", {"trip": trip}, len(text), host=host, epoch=self.epochs[host], t=world.now, value=told)

    def fail(self, host, kind):
        pipe, world = self.pipes[host], self.world
        lost = pipe["sent"][pipe["came"]:] + pipe["waiting"]
        trip = "None" if kind == "Dropped" and not lost else self.marks.result(host, False, world.now)
        for part in lost:
            part["value"] = ("-", b"upstream failure")
        self.pipes[host] = {"waiting": [], "sent": [], "came": 0}
        self.epochs[host] += 1
        answer = {"parts": len(lost), "trip": trip}
        self.step(host % world.workers, "Failed", answer, host=host, epoch=self.epochs[host] - 1, kind=kind, t=world.now)

    def sweep(self):
        self.step(self.world.workers, "Swept", self.marks.sweep(self.world.now), t=self.world.now)

    def hand(self, client):
        ask = client.asks.pop(0)
        client.handed += 1
        value = ask.outcome()
        text = text_of(value)
        client.socket.output.append((self.world.now, text))
        self.step(client.worker, "Handed", {"value": self.world.writer.value(value, ask.how == "sum")}, len(text), conn=client.number)

    def finish(self, client):
        client.finishing = True
        self.step(client.worker, "Finished", {}, conn=client.number)

    def close(self, client):
        client.open = False
        for pipe in self.pipes:
            pipe["waiting"] = [part for part in pipe["waiting"] if part["client"] is not client]
        self.step(client.worker, "Closed", {}, conn=client.number)

    def carry(self, client, target):
        """The socket goes over to a generation, or nowhere, with the beginning of its next command."""
        socket, world = client.socket, self.world
        socket.next = world.request(socket)
        whole = text_of(socket.next)
        socket.rest = whole[:world.random.randrange(len(whole) + 1)]
        socket.commands += client.accepted
        socket.origin = {"generation": self.number, "conn": client.number}
        told = {"conn": client.number, "socket": socket.number, "commands": socket.commands, "rest": world.writer.leaf(socket.rest),
                "to": target}
        self.lines.append({"carried": told})

    def ready(self):
        return [client for client in self.clients if client.open and client.asks and client.asks[0].outcome() is not None]


class World:
    """A line of generations with its settings, clients and clock."""

    def __init__(self, seed, values=True, hosts=None, **settings):
        self.random = random.Random(seed)
        draw = self.random
        count = hosts or draw.randint(1, 5)
        self.names = [f"127.0.0.1:{7_001 + n}" for n in range(count)]
        self.weights = [draw.choice((1, 1, 2, 5)) for _ in self.names]
        self.tags, self.workers, self.reply_ms = draw.random() < 0.3, draw.randint(1, 3), 500
        self.listen = "127.0.0.1:7000"
        base = draw.choice((1_000, 3_000))
        self.rules = {
            "interval_ms": 1_000, "base_ms": base, "max_ms": base * draw.choice((1, 2, 3)) + draw.choice((0, 1)),
            "max_percent": draw.choice((0, 10, 40, 60, 100)), "consecutive": draw.choice((0, 1, 2, 3, 5)),
            "success_hosts": draw.randint(1, 3), "request_volume": draw.randint(1, 4), "factor": draw.choice((0, 500, 1_000, 1_900)),
            "panic_percent": draw.choice((0, 30, 50, 100))}
        self.rules.update(settings)
        self.writer = Clear() if values else Hashed(draw.randbytes(16))
        self.pairs = points_of(self.names, self.weights)
        self.owners = {}
        self.now, self.ports, self.sockets, self.counter = ZERO_T, 50_000, 0, 0

    def port(self):
        self.ports += 1
        return self.ports

    def owner(self, point, usable):
        asked = point, tuple(usable)
        if asked not in self.owners:
            left = [pair for pair in self.pairs if pair[1] in usable]
            self.owners[asked] = min([pair for pair in left if pair[0] >= point] or left)[1] if left else None
        return self.owners[asked]

    def plan(self, request):
        """How a request is joined, its parts, the proxy's own answer and its name, and whether the connection finishes."""
        if request is None:
            return None, [], ("-", b"downstream protocol error"), "Broken", True
        if request[0] != "*" or not request[1] or any(kind != "$" or it is None for kind, it in request[1]):
            return None, [], ("-", b"invalid request"), "Invalid", False
        words = [word for _, word in request[1]]
        name, count = words[0].upper(), len(words)
        if (name in (b"GET", b"SET", b"INCR") and count == 1 or name == b"MSET" and count % 2 == 0
                or name == b"PING" and count > 1 or name == b"EVAL" and count < 4):
            return None, [], ("-", b"wrong number of arguments for '%s' command" % name.lower()), "WrongNumber", False
        own = {b"PING": (("+", b"PONG"), "Pong"), b"QUIT": (("+", b"OK"), "Bye"), b"ECHO": (("$", words[-1]), "Echoed")}.get(name)
        if own:
            return None, [], *own, name == b"QUIT"
        if name == b"MGET":
            return "get", [(key, [b"GET", key]) for key in words[1:]], None, None, False
        if name == b"MSET":
            return "set", [(words[at], [b"SET", words[at], words[at + 1]]) for at in range(1, count, 2)], None, None, False
        if name in NAMES_OF_SUMS:
            return "sum", [(key, [name, key]) for key in words[1:]], None, None, False
        if name in (b"GET", b"SET", b"INCR", b"EVAL"):
            return "same", [(words[3 if name == b"EVAL" else 1], words)], None, None, False
        shown = bytes(byte if 0x20 <= byte <= 0x7E else ord("?") for byte in words[0][:64])
        return None, [], ("-", b"unsupported command '%s'" % shown), "Unsupported", False

    def key(self):
        n = self.random.randrange(400)
        return self.random.choice((b"key%d", b"{tag%d}x", b"k\xff\r\n%d")) % n

    def fresh(self):
        self.counter += 1
        return b"value-%d" % self.counter

    def request(self, socket):
        """A random request that is whole: of Broken ones the text has no end."""
        draw = self.random
        keys = [self.key() for _ in range(draw.randint(1, 4))]
        common = (lambda: command(b"GET", self.key()), lambda: command(b"set", self.key(), self.fresh()),
                  lambda: command(b"MGET", *keys), lambda: command(b"Del", *keys), lambda: command(b"exists", *keys),
                  lambda: command(b"MSET", *(word for key in keys for word in (key, self.fresh()))),
                  lambda: command(b"INCR", self.key()), lambda: command(b"EVAL", b"return 1", b"1", self.key()))
        rare = (lambda: command(b"PING"), lambda: command(b"echo", self.fresh()), lambda: command(b"BLPOP\x01", b"k", b"0"),
                lambda: command(b"GET"), lambda: command(b"MSET", b"a", b"1", b"b"), lambda: ("*", []), lambda: ("+", b"hello"),
                lambda: command(b"PING", b"x"))
        return draw.choice(common if draw.random() < 0.8 else rare)()

    def reply(self, words):
        draw, name = self.random, words[0].upper()
        if draw.random() < 0.08:
            return ("-", b"ERR " + self.fresh())
        if draw.random() < 0.04:
            return ("*", [("$", self.fresh()), (":", draw.randrange(9)), ("$", None), ("*", None)])
        if name == b"GET":
            return ("$", self.fresh()) if draw.random() < 0.8 else ("$", None)
        if name == b"SET":
            return ("+", b"OK")
        if name in NAMES_OF_SUMS:
            return (":", draw.randrange(3) if draw.random() < 0.95 else 2 ** 63 - 1)
        return (":", draw.randrange(-5, 1_000_000)) if name == b"INCR" else ("$", self.fresh())


def act(world, generation, drained):
    """One random legal step of a generation, if there is one; one that drains takes nothing in."""
    draw = world.random
    world.now += draw.choice((0, 0, 0, 1, 3, 20))
    open_ = [client for client in generation.clients if client.open]
    waiting = [host for host, pipe in enumerate(generation.pipes) if pipe["waiting"]]
    flying = [host for host, pipe in enumerate(generation.pipes) if len(pipe["sent"]) > pipe["came"]]
    ready = generation.ready()
    moves = [(0.4, lambda: fail(world, generation)), (0.4, lambda: sweep(world, generation))]
    if waiting:
        moves.append((6, lambda: generation.take(draw.choice(waiting))))
    if flying:
        moves.append((5, lambda: answer(world, generation, draw.choice(flying))))
    if ready:
        moves.append((6, lambda: generation.hand(draw.choice(ready))))
    if not drained:
        moves.append((0.8 if len(open_) < 8 else 0.1, lambda: connect(world, generation)))
        asking = [client for client in open_ if not client.finishing]
        if asking:
            moves.append((6, lambda: ask(world, generation, draw.choice(asking))))
            moves.append((0.15, lambda: generation.finish(draw.choice(asking))))
        if open_:
            moves.append((0.2, lambda: generation.close(draw.choice(open_))))
    weights = [weight for weight, _ in moves]
    draw.choices(moves, weights)[0][1]()


def connect(world, generation):
    socket = Socket(world.sockets)
    socket.made = world.now
    world.sockets += 1
    world.all_sockets = getattr(world, "all_sockets", [])
    world.all_sockets.append(socket)
    generation.connect(socket)


def ask(world, generation, client):
    socket, request = client.socket, client.socket.next
    chance = world.random.random()
    if request is None:
        request = command(b"QUIT") if chance < 0.02 else world.request(socket)
        if 0.02 <= chance < 0.03:
            request = None
    socket.next, socket.rest = None, b""
    generation.arrive(client, request)


def answer(world, generation, host):
    pipe = generation.pipes[host]
    generation.answer(host, world.reply(pipe["sent"][pipe["came"]]["words"]))


def fail(world, generation):
    draw = world.random
    host = draw.randrange(len(world.names)) if draw.random() < 0.4 else 0
    pipe = generation.pipes[host]
    kind = draw.choice(("Refused", "Dropped", "Late", "Garbled"))
    flying = pipe["sent"][pipe["came"]:]
    if kind == "Late" and flying:
        world.now = max(world.now, flying[0]["at"] + world.reply_ms + draw.choice((0, 0, 7)))
    for _ in range(draw.choice((1, 1, 2, 5))):
        generation.fail(host, kind)
        kind = "Refused"


def sweep(world, generation):
    world.now += world.random.choice((0, 300, 1_000, 4_000))
    generation.sweep()


def drain(world, generation, target):
    """Answers all that was accepted, and closes each connection; sockets that may go over do."""
    carried = []
    for _ in range(10_000):
        for host, pipe in enumerate(generation.pipes):
            if pipe["waiting"]:
                generation.take(host)
            elif len(pipe["sent"]) > pipe["came"]:
                answer(world, generation, host)
        for client in generation.ready():
            generation.hand(client)
        for client in [it for it in generation.clients if it.open and not it.asks]:
            generation.close(client)
            if not client.finishing:
                carried.append(client)
        if not any(client.open for client in generation.clients):
            break
    for client in carried:
        generation.carry(client, target)
    return [client.socket for client in carried]


def run(seed, steps=300, generations=2, values=True, **settings):
    """Records of a random run of some generations: for each its lines, and the world."""
    world = World(seed, values, **settings)
    opening = {"clock": 0, "hosts": [dict(FRESH) for _ in world.names]}
    generation = Generation(world, 0, None, opening)
    made = [generation]
    for number in range(1, generations + 1):
        while generation.steps < steps:
            act(world, generation, False)
        state = generation.marks.state()
        origin = {"generation": generation.number, "steps": generation.steps, "bytes": generation.bytes}
        for _ in range(world.random.randrange(20)):
            act(world, generation, True)
        sockets = drain(world, generation, number if number < generations else None)
        if number < generations:
            # (each file has a key of its own)
            world.writer = Clear() if values else Hashed(world.random.randbytes(16))
            generation = Generation(world, number, origin, state)
            made.append(generation)
            for socket in sockets:
                generation.connect(socket)
    return made, world


def dump(record):
    """A record's bytes."""
    return "".join(json.dumps(line, separators=(",", ":")) + "\n" for line in record).encode()
