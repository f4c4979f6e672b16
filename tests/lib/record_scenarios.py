"""Makes records of the rows of crates/test_scenarios: each told answer becomes a step. Refused events are kept beside it."""
import copy
import re

from record_simulator import FRESH, NAMES_OF_SUMS, Clear, Hashed, Marks, command, point_of, text_of

POINTS = [[2_555_380_112, 0], [3_111_502_092, 1], [3_649_838_548, 2]]
DEFAULTS = {"interval_ms": 10_000, "base_ms": 30_000, "max_ms": 300_000, "max_percent": 10, "consecutive": 5, "success_hosts": 5,
            "request_volume": 100, "factor": 1_900, "panic_percent": 50}
QUESTIONS = ("journal", "counts", "twice", "counts_of", "epoch", "is_out", "in_panic", "hosts", "pass_of", "refusals")
ESCAPE = re.compile(rb"\\(r|n|\\|x[0-9a-f]{2})")
REFUSED = re.compile(r"(10\d\d) ")


def unescaped(text):
    """The bytes of a text with escapes."""
    plain = {b"r": b"\r", b"n": b"\n", b"\\": b"\\"}
    return ESCAPE.sub(lambda it: plain.get(it[1]) or bytes.fromhex(it[1][1:].decode()), text.encode())


def word(text):
    return b"" if text == '""' else unescaped(text)


def value_of(text):
    """The value of a text with escapes."""
    if text.startswith("simple "):
        return "+", unescaped(text[7:])
    value, rest = parsed(unescaped(text))
    assert not rest, text
    return value


def parsed(data):
    line, _, rest = data.partition(b"\r\n")
    kind, line = chr(line[0]), line[1:]
    if kind in "+-":
        return (kind, line), rest
    number = int(line)
    if kind == ":":
        return (kind, number), rest
    if number < 0:
        return (kind, None), rest
    if kind == "$":
        return (kind, rest[:number]), rest[number + 2:]
    members = []
    for _ in range(number):
        member, rest = parsed(rest)
        members.append(member)
    return (kind, members), rest


def request_of(words):
    """The request of an Arrived line: none for a broken one."""
    kind, _, rest = words.partition(" ")
    if kind == "broken":
        return None
    if kind == "value":
        return value_of(rest)
    if kind == "many":
        name, _, count = rest.partition(" ")
        return command(word(name), *[b"a"] * int(count))
    if kind == "bytes":
        return command(bytes(int(rest) - 7 - 1_023 * 65_536 - 10), *[bytes(65_526)] * 1_023)
    return command(*map(word, words.split(" ")))


class Scenario:
    """A record in the making."""

    def __init__(self, name, arguments, writer):
        self.name, self.writer, self.tags, self.rules = name, writer, False, dict(DEFAULTS)
        self.points, self.weights, count = POINTS, None, 3
        for argument in arguments:
            key, _, value = argument.partition("=")
            if key == "tags":
                self.tags = True
            elif key == "weights":
                self.weights = [int(it) for it in value.split(",")]
                count = len(self.weights)
            elif key == "hosts":
                count = int(value)
            elif key == "points":
                self.points = [] if value == "none" else [[int(it) for it in pair.split(":")] for pair in value.split(",")]
            else:
                self.rules[key] = int(value)
        self.hosts = [f"host-{n}" for n in range(count)]
        self.opening, self.origin, self.generation = {"clock": 0, "hosts": [dict(FRESH) for _ in self.hosts]}, None, 0
        self.steps, self.refused, self.ends, self.passed = [], [], [], 7
        self.asked, self.sent, self.came, self.bytes = {}, {}, {}, 0

    def first(self):
        made = {"format": 1, "program": "rows", "line": 0, "generation": self.generation, "start": 0, "start_t": 0,
                "values": self.writer.values, "hash_key": self.writer.key, "listen": None, "hosts": self.hosts,
                "weights": self.weights or [1] * len(self.hosts), "tags": self.tags, "workers": None, "reply_ms": 5_000,
                "detection": self.rules, "from": self.origin, "opening": self.opening}
        if self.weights is None:
            made["points"] = self.points
        return made

    def record(self, count=None, length=None):
        """The record of the first steps."""
        steps = self.steps if count is None else self.steps[:count]
        return [self.first(), *steps, {"end": {"steps": len(steps), "bytes": self.bytes if length is None else length}}]

    def event(self, line, answer):
        """A line of a row with what was told: a step, or a refusal with the step that it would have been."""
        refusal = REFUSED.match(answer)
        if refusal and refusal[1] in ("1001", "1002"):
            return
        step, length = self.made(line, None if refusal else answer)
        step = {"n": len(self.steps), "at": None, "pass": self.passed, **step}
        if refusal:
            self.refused.append((len(self.steps), int(refusal[1]), step))
            return
        self.steps.append(step)
        self.bytes += length

    def made(self, line, answer):
        event, _, rest = line.partition(" ")
        return getattr(self, event.lower())(rest, answer)

    def opened(self, _, answer):
        return {"event": "Opened", "socket": None, "answer": {"conn": int(answer.split()[1]) if answer else 0}}, 0

    def arrived(self, rest, answer):
        conn, _, words = rest.partition(" ")
        request = request_of(words)
        step = {"event": "Arrived", "conn": int(conn)}
        told = {"index": 0, "local": None, "parts": 0, "no_host": 0, "busy": 0}
        is_command = request and request[0] == "*" and request[1]
        if request is None:
            step["broken"] = True
        elif is_command:
            step["words"] = self.writer.words([it for _, it in request[1]])
        else:
            step["value"] = self.writer.value(request, False)
        if answer:
            told["index"] = int(answer.split()[1].rstrip(","))
            for name, found in re.findall(r"(local|parts|no_host|busy) (\w+)", answer):
                told[name] = found if name == "local" else int(found)
            self.asked.setdefault(int(conn), []).append(request[1][0][1].upper() if is_command else b"")
            if told["parts"] and not self.writer.values:
                keys = [it for _, it in request[1][1:]]
                keys = keys[::2] if request[1][0][1].upper() == b"MSET" else keys[:told["parts"]]
                step["points"] = [point_of(key, self.tags) for key in keys]
        return {**step, "answer": told}, len(text_of(request)) if request else 0

    def finished(self, rest, _):
        return {"event": "Finished", "conn": int(rest), "answer": {}}, 0

    def closed(self, rest, _):
        return {"event": "Closed", "conn": int(rest), "answer": {}}, 0

    def taken(self, rest, answer):
        told, length, host = {"epoch": 0, "place": 0, "words": [b"GET".hex()]}, 0, int(rest)
        if answer:
            epoch, place, text = re.fullmatch(r"Sent epoch (\d+), place (\d+), (.*)", answer).groups()
            words = [it for _, it in value_of(text)[1]]
            told, length = {"epoch": int(epoch), "place": int(place), "words": self.writer.words(words)}, len(unescaped(text))
            self.sent.setdefault(host, []).append(words[0])
        return {"event": "Taken", "host": host, "answer": told}, length

    def answered(self, rest, answer):
        host, epoch, t, text = rest.split(" ", 3)
        value, host = value_of(text), int(host)
        name = b""
        if answer:
            name = self.sent[host].pop(0)
        step = {"event": "Answered", "host": host, "epoch": int(epoch), "t": int(t),
                "value": self.writer.value(value, name in NAMES_OF_SUMS), "answer": {"trip": answer.split()[1] if answer else "None"}}
        return step, len(text_of(value))

    def failed(self, rest, answer):
        host, epoch, kind, t = rest.split(" ")
        told = {"parts": 0, "trip": "None"}
        if answer:
            parts, trip = re.fullmatch(r"Lost (\d+), (\w+)", answer).groups()
            told = {"parts": int(parts), "trip": trip}
            self.sent[int(host)] = []
        return {"event": "Failed", "host": int(host), "epoch": int(epoch), "kind": kind, "t": int(t), "answer": told}, 0

    def swept(self, rest, answer):
        told = {name: int(count) for name, count in re.findall(r"(returned|ejected|kept) (\d+)", answer)}
        return {"event": "Swept", "t": int(rest), "answer": told}, 0

    def handed(self, rest, answer):
        value, length, is_sum = ("+", b"OK"), 0, False
        if answer:
            value, length = value_of(answer.removeprefix("Bytes ")), len(unescaped(answer.removeprefix("Bytes ")))
            is_sum = self.asked[int(rest)].pop(0) in NAMES_OF_SUMS
        return {"event": "Handed", "conn": int(rest), "answer": {"value": self.writer.value(value, is_sum)}}, length

    def successor(self):
        """The scenario that goes on from this one's outlier detection, reckoned by the list of its results."""
        after = copy.copy(self)
        marks = Marks(len(self.hosts), self.rules, self.opening["hosts"], self.opening["clock"])
        for step in self.steps:
            if step["event"] == "Swept":
                marks.sweep(step["t"])
            elif step["event"] == "Answered" or step["event"] == "Failed" and (step["kind"] != "Dropped" or step["answer"]["parts"]):
                marks.result(step["host"], step["event"] == "Answered", step["t"])
        after.generation, after.opening = self.generation + 1, marks.state()
        after.origin = {"generation": self.generation, "steps": len(self.steps), "bytes": self.bytes}
        after.steps, after.refused, after.ends, after.asked, after.sent, after.bytes = [], [], [], {}, {}, 0
        return after


def each_answer(line, told):
    """The action of a line and each answer to it; a repeated one has many."""
    if not line.startswith("repeat "):
        return line, [told]
    _, _, action = line.split(" ", 2)
    answers = []
    for part in told.split("; "):
        count, answer = re.fullmatch(r"(\d+) times (.*)", part).groups()
        begin = answer.partition(" to ")[0]
        number = re.fullmatch(r"(\w+ )(\d+)(.*)", begin)
        up = " to " in answer and number
        answers += [f"{number[1]}{int(number[2]) + n}{number[3]}" if up else begin for n in range(int(count))]
    return action, answers


def play(scenario, lines):
    """The scenarios that a row's lines make, one or more."""
    made, other, running = [scenario], None, None
    for text in lines:
        line, _, told = text.partition(" => ")
        name = line.split(" ")[0]
        if name == "new":
            scenario = Scenario(scenario.name, line.split(" ")[1:], scenario.writer)
            if told == "made":
                made.append(scenario)
        elif name == "hand_over":
            # (the simulator counts in lists, which takes too long of a full journal)
            if told.endswith("made") and len(scenario.steps) < 10_000:
                other = scenario.successor()
                made.append(other)
        elif name == "other":
            scenario, other = other, scenario
        elif name == "pass":
            scenario.passed = int(line.split(" ")[1])
        elif name == "run":
            running = []
        elif name == "end":
            for (passed, event), answer in zip(running, told.split("; ")):
                scenario.passed = passed
                scenario.event(event, answer)
            running = None
        elif name == "journal":
            count, length = re.fullmatch(r"(\d+) steps, (\d+) bytes", told).groups()
            scenario.ends.append((int(count), int(length)))
        elif name not in QUESTIONS:
            if running is not None:
                running.append((scenario.passed, line))
                continue
            action, answers = each_answer(line, told)
            for answer in answers:
                scenario.event(action, answer)
    return made


def scenarios(path, hashed_key=None):
    """All rows that can be made into records: for each its name and its scenarios."""
    with open(path, encoding="utf-8") as file:
        rows = re.findall(r"^row (.*?)\n(.*?)(?=\n\n|\Z)", file.read(), re.S | re.M)
    found = []
    for head, body in rows:
        name, _, *arguments = head.split(" ")
        lines = [line for line in body.split("\n") if line and not line.startswith("#")]
        if any(line.startswith("random") for line in lines):
            continue
        is_big = any(" bytes 6" in line.partition(" => ")[0] for line in lines)
        # (what is big is hashed: so the record is small)
        writer = Hashed(hashed_key or b"k" * 16) if hashed_key or is_big else Clear()
        found.append((name, play(Scenario(name, arguments, writer), lines)))
    return found
