"""Compares a capture with records: client by client and host by host."""
import sys
from dataclasses import dataclass, field

from audit.capture import Capture, Stream
from audit.lines import Unreadable
from audit.reader import Reader
from audit.resp import is_plain, shown, value_text
from audit.seams import Audited
from audit.state import Connection
from audit.stream import CLIENT, HOST, all_values

# A worker may see a new socket later than its clock says, which is read once a round.
SLACK_MS = 100


@dataclass
class Counts:
    """How many streams were compared, and how many weren't captured from their beginning."""
    compared: int = 0
    missed: int = 0


@dataclass
class Life:
    """A socket's connections in their order, as far as their records are known."""
    parts: list[tuple[Audited, Connection]] = field(default_factory=list)

    def goes_on(self) -> bool:
        """Whether the socket went over from the last of them."""
        file, last = self.parts[-1]
        return any(it["conn"] == last.number for _, it in file.journal.tail.carried)


def check_comparable(readers: list[Reader]) -> None:
    """Each record has payloads in the clear, and the address for clients."""
    for reader in readers:
        if not reader.header.values or reader.header.listen is None:
            raise Unreadable("pcap", 1, 1, f"{reader.path} has no payloads or no address to compare")


def check_wire(path: str, files: list[Audited]) -> None:
    """Compares all sockets and links of these files with a capture."""
    capture, clients, hosts = Capture(path), Counts(), Counts()
    for life in lives(files):
        check_client(capture, life, clients)
    for file in files:
        check_hosts(capture, file, hosts)
    print(f"{path}: {clients.compared} clients and {hosts.compared} links compared, "
          f"{clients.missed} and {hosts.missed} not captured from their beginning", file=sys.stderr)


def lives(files: list[Audited]) -> list[Life]:
    """The sockets whose first connection is in one of these files."""
    found: dict[tuple[int, int], Life] = {}
    for file in sorted(files, key=lambda it: it.generation):
        for connection in file.journal.connections:
            socket = connection.socket
            if socket is None:
                continue
            key = file.journal.header.line, socket["number"]
            if socket["from"] is None:
                found[key] = Life()
            if key in found and is_next(found[key], socket):
                found[key].parts.append((file, connection))
    return [life for life in found.values() if life.parts]


def is_next(life: Life, socket: dict) -> bool:
    """Whether this connection is the one after those that are known."""
    if not life.parts:
        return True
    file, last = life.parts[-1]
    return socket["from"] == {"generation": file.generation, "conn": last.number}


def moment(file: Audited, at: int | None) -> int | None:
    """A moment of a record in milliseconds since 1970."""
    header = file.journal.header
    return None if at is None else header.start + at - header.start_t + SLACK_MS


def check_client(capture: Capture, life: Life, counts: Counts) -> None:
    """A client's bytes ask what was accepted, and what went to it was handed out."""
    file, connection = life.parts[0]
    client, listen = connection.socket["client"], file.journal.header.listen
    at = moment(file, connection.at)
    asked, told = capture.stream(client, listen, at), capture.stream(listen, client, at)
    if asked is None or told is None:
        counts.missed += 1
        return
    counts.compared += 1
    requests, handed = [], []
    for file, one in life.parts:
        transcript = file.journal.transcript
        requests += transcript.requests.get(one.number, [])
        handed += [value_text(it) for it in transcript.handed.get(one.number, []) if is_plain(it)]
    check_asked(life, asked, requests)
    check_told(life, asked, told, b"".join(handed))


def check_asked(life: Life, asked: Stream, requests: list) -> None:
    """The requests accepted are the first that a client's bytes ask."""
    file, connection = life.parts[0]
    data, is_whole = asked.bytes()
    values, is_broken = all_values(data, CLIENT)
    wanted = [form(value) for value in values] + [None] * is_broken
    for at, request in enumerate(requests):
        if at >= len(wanted):
            if is_whole:
                file.findings.add(connection.line, "wire_asked", f"{len(requests)} requests accepted", f"at most {len(wanted)}, as asked")
            break
        if request != wanted[at]:
            file.findings.add(connection.line, "wire_asked", f"request {at}: {shown(request)}", shown(wanted[at]))
            break
    if not is_whole:
        file.findings.add(connection.line, "wire_whole", f"{len(data)} bytes of a client up to a gap", "all")


def form(value: list) -> list:
    """A request as a record has it: a command's words, or the value."""
    members = value[1] if value[0] == "*" and len(value) == 2 else []
    if members and all(it[0] == "$" and len(it) == 2 for it in members):
        return [it[1] for it in members]
    return value


def check_told(life: Life, asked: Stream, told: Stream, handed: bytes) -> None:
    """What went to a client is a beginning of what was handed out, or all of it."""
    file, connection = life.parts[0]
    data, is_whole = told.bytes()
    if life.goes_on():
        data = data[:len(handed)]
    if not handed.startswith(data):
        found, wanted = difference(data, handed)
        file.findings.add(connection.line, "wire_answers", found, wanted)
    elif is_whole and len(data) < len(handed) and is_orderly(life, asked, told):
        file.findings.add(connection.line, "wire_answers", f"{len(data)} bytes", f"{len(handed)}, which were handed out")
    if not is_whole:
        file.findings.add(connection.line, "wire_whole", f"{len(data)} bytes to a client up to a gap", "all")


def is_orderly(life: Life, asked: Stream, told: Stream) -> bool:
    """Whether all that was handed out has to be on the wire: the socket went over, or was closed in order."""
    _, last = life.parts[-1]
    if life.goes_on():
        return True
    ended = last.is_finishing and not last.is_open and not last.was_cut and last.accepted == last.handed
    return ended and told.end is not None and not told.is_reset and not asked.is_reset


def check_hosts(capture: Capture, file: Audited, counts: Counts) -> None:
    """Each link's bytes are those that were sent in its epoch, and its replies those that came."""
    transcript, header = file.journal.transcript, file.journal.header
    for line, link in file.journal.tail.links:
        host, key = header.hosts[link["host"]], (link["host"], link["epoch"])
        at = moment(file, link["at"])
        sent, came = capture.stream(link["local"], host, at), capture.stream(host, link["local"], at)
        if sent is None or came is None:
            counts.missed += 1
            continue
        counts.compared += 1
        texts, replies = transcript.sent.get(key, []), transcript.came.get(key, [])
        check_sent(file, line, sent, texts, len(replies))
        check_replies(file, line, came, replies)


def check_sent(file: Audited, line: int, sent: Stream, texts: list[bytes], answered: int) -> None:
    """What went to a host is a beginning of what was sent, with each part that was answered."""
    data, is_whole = sent.bytes()
    wanted, least = b"".join(texts), sum(map(len, texts[:answered]))
    if not wanted.startswith(data):
        file.findings.add(line, "wire_sent", *difference(data, wanted))
    elif len(data) < least and is_whole:
        file.findings.add(line, "wire_sent", f"{len(data)} bytes", f"at least {least}, whose parts were answered")
    if not is_whole:
        file.findings.add(line, "wire_whole", f"{len(data)} bytes to a host up to a gap", "all")


def check_replies(file: Audited, line: int, came: Stream, replies: list) -> None:
    """The replies are the first values that a host's bytes hold."""
    data, is_whole = came.bytes()
    values, _ = all_values(data, HOST)
    for at, reply in enumerate(replies):
        if at >= len(values):
            if is_whole:
                file.findings.add(line, "wire_replies", f"{len(replies)} replies", f"at most {len(values)}, which came")
            break
        if reply != values[at]:
            file.findings.add(line, "wire_replies", f"reply {at}: {shown(reply)}", shown(values[at]))
            break
    if not is_whole:
        file.findings.add(line, "wire_whole", f"{len(data)} bytes of a host up to a gap", "all")


def difference(found: bytes, wanted: bytes) -> tuple[str, str]:
    """Where bytes first differ, and what stands there."""
    at = next((at for at, pair in enumerate(zip(found, wanted)) if pair[0] != pair[1]), min(len(found), len(wanted)))
    return f"{found[at:at + 40]!r} at byte {at}", f"{wanted[at:at + 40]!r}"
