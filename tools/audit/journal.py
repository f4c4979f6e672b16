"""Checks the steps of one journal, each by what those before it say."""
from dataclasses import dataclass, field, replace

from audit.commands import BROKEN, BUSY, FAILURE, INVALID, NO_HOST, SUM_NAMES, Local, Split, Table
from audit.detection import Detector, HostState
from audit.findings import Findings
from audit.lines import Step
from audit.reader import Reader
from audit.resp import (
    is_clear, is_plain, leaf_length, may_be_clear, shown, value_length, words_length, words_text)
from audit.ring import Ring, key_point, ketama_points
from audit.state import Command, Connection, Host, Part, Transcript

MOST_STEPS = 262_144
MOST_BYTES = 67_108_864
MOST_CONNECTIONS = 4_096
MOST_UNWRITTEN = 1_024
MOST_WAITING = 1_024


@dataclass
class Snapshot:
    """A journal after so many steps: its bytes, and what outlier detection knew."""
    bytes: int
    clock: int
    hosts: list[HostState]


@dataclass
class Tail:
    """What a record tells beside its steps, each with its line."""
    links: list[tuple[int, dict]] = field(default_factory=list)
    carried: list[tuple[int, dict]] = field(default_factory=list)


class Journal:
    """A journal that is being checked, step by step."""

    def __init__(self, reader: Reader, findings: Findings, looked_at: set[int], transcript: Transcript | None = None) -> None:
        header = reader.header
        self.reader, self.header, self.findings, self.transcript = reader, header, findings, transcript
        given = header.points
        self.ring = Ring(ketama_points(header.hosts, header.weights) if given is None else {(point, host) for point, host in given})
        self.detector = Detector(header.rules, header.clock, [replace(host) for host in header.opening])
        self.hosts = [Host() for _ in header.hosts]
        self.connections: list[Connection] = []
        self.table = Table()
        self.points: dict[str, int] = {}
        self.tail = Tail()
        self.looked_at = looked_at
        self.snapshots: dict[int, Snapshot] = {}
        self.workers: dict[int, int] = {}
        self.clocks: dict[int, int] = {}
        self.steps = self.next_number = self.bytes = self.open_count = self.line = 0
        self.handlers = {
            "Opened": self.opened, "Arrived": self.arrived, "Finished": self.finished, "Taken": self.taken, "Answered": self.answered,
            "Failed": self.failed, "Swept": self.swept, "Handed": self.handed, "Closed": self.closed,
        }

    def find(self, sentence: str, found: object, wanted: object) -> None:
        """A sentence that doesn't hold at this line."""
        self.findings.add(self.line, sentence, found, wanted)

    def compare(self, sentence: str, what: str, found: object, wanted: object) -> None:
        """Something has to be as it is reckoned here."""
        if found != wanted:
            self.find(sentence, f"{what} {found}", wanted)

    # THE WHOLE FILE

    def run(self) -> None:
        """Checks the file from its first line to its last."""
        self.line = 1
        self.check_opening()
        self.look()
        others = {"link": self.link, "carried": self.carried, "end": self.end}
        for kind, self.line, found in self.reader.records():
            if kind == "step":
                self.step(found)
            else:
                others[kind](found)

    def check_opening(self) -> None:
        """Outlier detection begins afresh, or as an older generation can have left it."""
        header, rules = self.header, self.header.rules
        if header.origin is None:
            self.compare("opening", "state", (header.clock, header.opening), (0, [HostState()] * len(self.hosts)))
        most = rules.most_out(len(self.hosts))
        if self.detector.out_count() > most:
            self.find("ejection_limit", f"{self.detector.out_count()} hosts out at the opening", f"at most {most}")
        for number, host in enumerate(header.opening):
            sound = host.good <= host.results < 2 ** 32 and host.streak <= max(0, rules.consecutive - 1) and not (
                host.out and host.streak) and host.multiplier <= rules.most_multiplier()
            if not sound:
                self.find("opening", f"host {number} with {host}", "counters that results can lead to")

    def look(self) -> None:
        """Keeps a snapshot where another file goes on from here."""
        if self.steps in self.looked_at:
            self.snapshots[self.steps] = Snapshot(self.bytes, *self.detector.snapshot())

    def step(self, step: Step) -> None:
        """Checks a step, whatever its event is."""
        number = step.body["n"]
        if number != self.next_number:
            self.find("numbering", f"step {number}", self.next_number)
        self.next_number = number + 1
        self.steps += 1
        if self.steps == MOST_STEPS + 1:
            self.find("journal_limit", f"{self.steps} steps", f"at most {MOST_STEPS}")
        at, passed = step.body["at"], step.body["pass"]
        if at is not None:
            if at < self.clocks.get(passed, 0):
                self.find("moments", f"at {at} in pass {passed}", f"{self.clocks[passed]} or later")
            self.clocks[passed] = at
        before = self.bytes
        self.handlers[step.event](step)
        if before <= MOST_BYTES < self.bytes:
            self.find("journal_limit", f"{self.bytes} bytes", f"at most {MOST_BYTES}")
        if self.looked_at:
            self.look()

    def check_worker(self, step: Step, worker: int) -> None:
        """The steps of a worker's hosts are all of one pass, which no other worker has; -1 stands for the sweeping thread."""
        passed = step.body["pass"]
        if not self.header.workers or self.workers.get(worker) == passed:
            return
        if worker in self.workers:
            self.find("one_worker", f"pass {passed}", f"pass {self.workers[worker]}, which has this worker's hosts")
        elif passed in self.workers.values():
            self.find("one_worker", f"pass {passed}, which another worker has", "a pass of its own")
        else:
            self.workers[worker] = passed

    def end(self, found: dict) -> None:
        """The last line counts the steps."""
        self.compare("numbering", "count of steps", found["steps"], self.steps)
        self.compare("payload", "count of bytes", found["bytes"], self.bytes)

    # CONNECTIONS

    def connection(self, step: Step) -> Connection | None:
        """The open connection of a step."""
        number = step.body["conn"]
        if number >= len(self.connections):
            self.find("not_open", f"{step.event} of connection {number}", "a connection that was opened")
            return None
        connection = self.connections[number]
        if not connection.is_open:
            self.find("after_close", f"{step.event} of connection {number}", "no step of it after its close")
            return None
        if self.header.workers and step.body["pass"] != connection.passed:
            self.find("one_worker", f"pass {step.body['pass']}", f"pass {connection.passed}, which opened connection {number}")
        return connection

    def opened(self, step: Step) -> None:
        """A client opened a connection."""
        number = len(self.connections)
        self.compare("connection_number", "connection", step.answer["conn"], number)
        if self.open_count >= MOST_CONNECTIONS:
            self.find("connection_limit", f"{self.open_count + 1} open connections", f"at most {MOST_CONNECTIONS}")
        socket = step.body["socket"]
        self.connections.append(Connection(number, step.body["pass"], socket, self.line, step.body["at"]))
        self.open_count += 1
        if socket and socket["from"] is None and (socket["commands"] or leaf_length(socket["rest"])):
            self.find("socket", f"a new socket with {socket['commands']} commands and a rest", "none of either")
        if socket and socket["from"] and socket["from"]["generation"] >= self.header.generation:
            self.find("socket", f"a socket of generation {socket['from']['generation']}", "one of an older generation")

    def finished(self, step: Step) -> None:
        """A client's input ended."""
        connection = self.connection(step)
        if connection and connection.is_finishing:
            self.find("finishing", f"connection {connection.number} finishes again", "once")
        elif connection:
            connection.is_finishing = True

    def closed(self, step: Step) -> None:
        """A connection is closed: those of its parts that wait are sent no more."""
        connection = self.connection(step)
        if not connection:
            return
        connection.is_open, connection.was_cut = False, step.body.get("cut", False)
        self.open_count -= 1
        hosts = {part.host for command in connection.left if command.missing for part in command.parts if part.value is None}
        for number in hosts:
            host = self.hosts[number]
            kept = [part for part in host.waiting if part.conn != connection.number]
            host.waiting.clear()
            host.waiting.extend(kept)

    # COMMANDS

    def arrived(self, step: Step) -> None:
        """A command came: it is planned, and its parts get their hosts."""
        connection = self.connection(step)
        if not connection:
            return
        if connection.is_finishing:
            self.find("finishing", f"a command of connection {connection.number}", "none once it finishes")
        if len(connection.left) >= MOST_UNWRITTEN:
            self.find("command_limit", f"{len(connection.left) + 1} commands that aren't answered", f"at most {MOST_UNWRITTEN}")
        self.compare("index", "command", step.answer["index"], connection.accepted)
        plan = self.plan(step)
        command = Command(connection.accepted, None, None)
        connection.accepted += 1
        connection.left.append(command)
        if self.transcript:
            self.transcript.requests.setdefault(connection.number, []).append(step.body.get("words") or step.body.get("value"))
        self.compare("own_answer", "answer of the proxy's own", step.answer["local"], plan.name if isinstance(plan, Local) else None)
        if isinstance(plan, Local):
            command.own = plan.value
            connection.is_finishing |= plan.finishes
            no_host = busy = count = 0
        else:
            command.how = plan.how
            no_host, busy = self.place(connection, command, plan, step.body.get("points"))
            count = len(plan.parts)
        self.check_points(step, count)
        self.compare("parts", "count of parts", step.answer["parts"], count)
        self.compare("no_host", "count of parts without host", step.answer["no_host"], no_host)
        self.compare("busy", "count of busy parts", step.answer["busy"], busy)

    def plan(self, step: Step) -> Local | Split:
        """What is to be done with a request, whose bytes are counted."""
        body = step.body
        if "broken" in body:
            return BROKEN
        if "value" in body:
            value = body["value"]
            self.bytes += value_length(value)
            self.check_clear(value, False)
            if value[0] == "*" and len(value) == 2 and value[1] and all(it[0] == "$" and len(it) == 2 for it in value[1]):
                self.find("form", "a command as a value", "its words")
            return INVALID
        self.bytes += words_length(body["words"])
        if self.reader.hashed:
            self.check_words(body["words"])
        return self.table.plan(body["words"])

    def check_points(self, step: Step, parts: int) -> None:
        """Where keys are hashed, each part's point stands beside them."""
        points = step.body.get("points", [])
        if self.reader.hashed and len(points) != parts:
            self.find("points", f"{len(points)} points", f"one for each of {parts} parts")

    def point(self, key: str, at: int, points: list[int] | None) -> int:
        """The point of a key: reckoned from its bytes, or told beside its hash."""
        if self.reader.hashed:
            told = points[at] if points and at < len(points) else 0
            if self.points.setdefault(key, told) != told:
                self.find("points", f"point {told} of a key", f"{self.points[key]}, as before")
            return told
        if key not in self.points:
            self.points[key] = key_point(bytes.fromhex(key), self.header.tags)
        return self.points[key]

    def place(self, connection: Connection, command: Command, plan: Split, points: list[int] | None) -> tuple[int, int]:
        """The parts get their hosts. The answer counts those without one, and those for whose host too many wait."""
        no_host = busy = 0
        for at, (key, words) in enumerate(plan.parts):
            number = self.ring.owner(self.point(key, at, points), self.detector.usable)
            part = Part(connection.number, command, words, number)
            command.parts.append(part)
            if number is None:
                part.value = NO_HOST
                no_host += 1
            elif len(self.hosts[number].waiting) >= MOST_WAITING:
                part.value = BUSY
                busy += 1
            else:
                command.missing += 1
                self.hosts[number].waiting.append(part)
        return no_host, busy

    def handed(self, step: Step) -> None:
        """The answer to a connection's oldest command leaves."""
        connection = self.connection(step)
        value = step.answer.get("value")
        if value is None:
            self.find("spelling", "a text that is no value's one spelling", "one that is")
            self.bytes += leaf_length(step.answer["raw"])
        else:
            self.bytes += value_length(value)
        if not connection:
            return
        if self.transcript and value is not None:
            self.transcript.handed.setdefault(connection.number, []).append(value)
        if not connection.left:
            self.find("handed_twice", f"an answer {shown(value)}", "none, as each command is answered")
            return
        command = connection.left.popleft()
        connection.handed += 1
        if value is not None:
            self.check_clear(value, command.how == "Sum")
            self.check_handed(connection, command, value)
        connection.last = value

    def check_handed(self, connection: Connection, command: Command, value: list) -> None:
        """An answer is its command's own outcome."""
        wanted = command.outcome()
        if value == wanted:
            return
        later = any(value == other.outcome() for other in connection.left)
        if wanted is None:
            self.find("command_order", f"{shown(value)} for command {command.index}", "none while a part of it has no value")
        elif later:
            self.find("command_order", f"{shown(value)} for command {command.index}, as is due to a later one", shown(wanted))
        elif value == connection.last:
            self.find("handed_twice", f"{shown(value)} for command {command.index}, as for the one before", shown(wanted))
        else:
            sentence = "own_answer" if command.how is None else "own_reply" if command.how == "Same" else "join"
            self.find(sentence, f"{shown(value)} for command {command.index}", shown(wanted))

    # HOSTS

    def host(self, step: Step) -> Host | None:
        """The host of a step, which its own worker makes."""
        number = step.body["host"]
        if number >= len(self.hosts):
            self.find("no_such_host", f"host {number}", f"one of {len(self.hosts)}")
            return None
        if self.header.workers:
            self.check_worker(step, number % self.header.workers)
        return self.hosts[number]

    def taken(self, step: Step) -> None:
        """A host's oldest waiting part is sent."""
        host, words = self.host(step), step.answer.get("words")
        if words is None:
            self.find("spelling", "a text that is no command's one spelling", "one that is")
            self.bytes += leaf_length(step.answer["raw"])
        else:
            self.bytes += words_length(words)
            if self.reader.hashed:
                self.check_words(words)
        if not host:
            return
        self.compare("epoch", "epoch", step.answer["epoch"], host.epoch)
        if self.transcript and words is not None:
            self.transcript.sent.setdefault((step.body["host"], host.epoch), []).append(words_text(words))
        if not host.waiting or words is not None and words != host.waiting[0].words:
            self.explain_sent(host, words)
            return
        self.compare("place", "place", step.answer["place"], len(host.sent))
        host.sent.append(host.waiting.popleft())
        host.taken_at.append(step.body["at"])

    def explain_sent(self, host: Host, words: list[str] | None) -> None:
        """A part was sent that isn't the host's oldest waiting one: which one it is."""
        wanted = shown(host.waiting[0].words) if host.waiting else "none, as no part waits"
        elsewhere = [number for number, it in enumerate(self.hosts) if it is not host and any(part.words == words for part in it.waiting)]
        if any(part.words == words for part in host.waiting):
            self.find("sending_order", f"{shown(words)}, which came later", wanted)
        elif elsewhere:
            self.find("owner", f"{shown(words)}, which waits for host {elsewhere[0]}", wanted)
        elif any(part.words == words for it in self.hosts for part in it.sent):
            self.find("sent_twice", f"{shown(words)}, which was sent before", wanted)
        else:
            self.find("part_text", shown(words), wanted)

    def answered(self, step: Step) -> None:
        """A reply came: it is for the oldest part that has none."""
        host, body = self.host(step), step.body
        value = body["value"]
        self.bytes += value_length(value)
        if not is_plain(value):
            self.find("plain", f"a line break within {shown(value)}", "none")
        if not host:
            return
        if body["epoch"] != host.epoch:
            self.find("epoch", f"a reply of epoch {body['epoch']}", f"epoch {host.epoch}")
            return
        if not host.flying():
            self.find("unasked", f"{shown(value)}", "no reply, as each part sent has one")
            return
        part = host.sent[host.came]
        host.came += 1
        is_sum = part.words[0] in SUM_NAMES
        self.check_clear(value, is_sum)
        if is_sum and value[0] == ":" and not is_clear(value):
            # (it was found to be hashed, and no sum can be made of it)
            value = [":", "0"]
        if self.connections[part.conn].is_open:
            part.command.gets(part, value)
        if self.transcript:
            self.transcript.came.setdefault((body["host"], host.epoch), []).append(value)
        self.check_trip(step, self.detector.result(body["host"], True, body["t"]))

    def failed(self, step: Step) -> None:
        """A link failed: all that wait or fly are lost."""
        host, body = self.host(step), step.body
        if not host:
            return
        if body["epoch"] != host.epoch:
            self.find("epoch", f"a fault of epoch {body['epoch']}", f"epoch {host.epoch}")
            return
        self.check_late(host, body)
        lost = host.fail()
        self.compare("lost_count", "count of lost parts", step.answer["parts"], len(lost))
        for part in lost:
            if self.connections[part.conn].is_open:
                part.command.gets(part, FAILURE)
        idle = body["kind"] == "Dropped" and not lost
        self.check_trip(step, "None" if idle else self.detector.result(body["host"], False, body["t"]))

    def check_late(self, host: Host, body: dict) -> None:
        """A fault is late where the oldest part without reply was taken long enough ago."""
        if body["kind"] == "Late" and host.flying():
            at = host.taken_at[host.came]
            if at is not None and body["t"] - at < self.header.reply_ms:
                self.find("late", f"a part that was taken {body['t'] - at} ms before", f"{self.header.reply_ms} ms or more")

    def check_trip(self, step: Step, wanted: str) -> None:
        """What a result did to its host."""
        found = step.answer["trip"]
        if (found, wanted) == ("Ejected", "Kept"):
            out, most = self.detector.out_count() + 1, self.header.rules.most_out(len(self.hosts))
            self.find("ejection_limit", f"host {step.body['host']} ejected as number {out}", f"at most {most} out: Kept")
        else:
            self.compare("trip", f"host {step.body['host']}", found, wanted)

    def swept(self, step: Step) -> None:
        """A sweep: hosts return, and outliers are ejected or kept."""
        if self.header.workers:
            self.check_worker(step, -1)
        found, done = step.answer, self.detector.sweep(step.body["t"])
        self.compare("returns", "count of hosts that return", found["returned"], len(done.returned))
        ejected, kept = len(done.ejected), len(done.kept)
        if found["ejected"] > ejected and found["ejected"] + found["kept"] == ejected + kept:
            self.find("ejection_limit", f"{found['ejected']} ejected, {found['kept']} kept", f"{ejected} and {kept}")
        else:
            self.compare("outliers", "ejected and kept", (found["ejected"], found["kept"]), (ejected, kept))

    # WHAT STANDS IN THE CLEAR

    def check_words(self, words: list[str]) -> None:
        """No word but a command's name stands in the clear."""
        if any(":" not in word for word in words[1:]):
            self.find("in_the_clear", "a word in the clear", "its length and hash")

    def check_clear(self, value: list, is_sum: bool) -> None:
        """Where values are hashed, a number stands in the clear where it is counted in a sum, and there alone."""
        if not self.reader.hashed:
            return
        if not may_be_clear(value) or value[0] == ":" and is_clear(value) and not is_sum:
            self.find("in_the_clear", f"{shown(value)} in the clear", "its length and hash")
        if is_sum and value[0] == ":" and not is_clear(value):
            self.find("form", "a number of a sum that is hashed", "its digits")

    # LINES BESIDE STEPS

    def link(self, found: dict) -> None:
        """A link to a host was made: at most one in an epoch."""
        if found["host"] >= len(self.hosts):
            self.find("no_such_host", f"host {found['host']}", f"one of {len(self.hosts)}")
        elif any((it["host"], it["epoch"]) == (found["host"], found["epoch"]) for _, it in self.tail.links):
            self.find("links", f"another link of host {found['host']} in epoch {found['epoch']}", "one")
        else:
            self.tail.links.append((self.line, found))

    def carried(self, found: dict) -> None:
        """A socket goes over: its connection was closed with each command answered, and neither its input nor it had finished."""
        number = found["conn"]
        connection = self.connections[number] if number < len(self.connections) else None
        if connection is None or connection.socket is None or connection.socket["number"] != found["socket"]:
            self.find("carried", f"socket {found['socket']} of connection {number}", "a connection over this socket")
            return
        if connection.is_open or connection.is_finishing or connection.was_cut:
            self.find("carried", f"connection {number}, open, finishing or cut", "one that was closed after a drain")
        if connection.accepted != connection.handed:
            self.find("carried", f"{connection.handed} of {connection.accepted} commands answered", "all")
        self.compare("carried", "count of commands", found["commands"], connection.socket["commands"] + connection.accepted)
        if found.get("to") is not None and found["to"] <= self.header.generation:
            self.find("carried", f"to generation {found['to']}", "a later one")
        self.tail.carried.append((self.line, found))
