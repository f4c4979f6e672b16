"""Checks where one generation of a line goes on from an older one."""
from dataclasses import dataclass

from audit.findings import Findings
from audit.journal import Journal
from audit.resp import leaf_length
from audit.state import Connection


@dataclass
class Audited:
    """A file whose journal was checked."""
    journal: Journal
    findings: Findings

    @property
    def generation(self) -> int:
        """The number of its generation."""
        return self.journal.header.generation


def check_seams(files: list[Audited]) -> None:
    """Checks all files of one line against each other."""
    files = sorted(files, key=lambda it: it.generation)
    by_generation: dict[int, Audited] = {}
    for file in files:
        if file.generation in by_generation:
            file.findings.add(1, "seam_twice", f"generation {file.generation} again", "one record of each generation")
            continue
        by_generation[file.generation] = file
        if file.journal.header.settings() != files[0].journal.header.settings():
            file.findings.add(1, "seam_settings", f"other settings than in generation {files[0].generation}", "the same")
    for file in by_generation.values():
        check_detection(file, by_generation)
        check_arrivals(file, by_generation)
        check_departures(file, [it for it in by_generation.values() if it.generation > file.generation])


def check_detection(file: Audited, by_generation: dict[int, Audited]) -> None:
    """Outlier detection goes on from the state of the older journal after as many steps as the first line says."""
    origin = file.journal.header.origin
    before = by_generation.get(origin.generation) if origin else None
    if before is None:
        return
    snapshot = before.journal.snapshots.get(origin.steps)
    if snapshot is None:
        file.findings.add(1, "seam_steps", f"a journal of {origin.steps} steps", f"at most {before.journal.steps}, which it has")
        return
    if snapshot.bytes != origin.bytes:
        file.findings.add(1, "seam_steps", f"{origin.bytes} bytes after {origin.steps} steps", snapshot.bytes)
    opening = file.journal.header.opening
    if (file.journal.header.clock, opening) != (snapshot.clock, snapshot.hosts):
        different = [number for number, pair in enumerate(zip(opening, snapshot.hosts)) if pair[0] != pair[1]]
        found = ", ".join(f"host {number}: {opening[number]}" for number in different) or f"clock {file.journal.header.clock}"
        wanted = ", ".join(str(snapshot.hosts[number]) for number in different) or str(snapshot.clock)
        file.findings.add(1, "seam_detection", found, wanted)


def check_arrivals(file: Audited, by_generation: dict[int, Audited]) -> None:
    """Each socket that came from an older generation went over there, and brings what it had there."""
    for connection in file.journal.connections:
        origin = connection.socket and connection.socket["from"]
        before = by_generation.get(origin["generation"]) if origin else None
        if before is None or before is file:
            continue
        gone = [it for _, it in before.journal.tail.carried if it["conn"] == origin["conn"]]
        if not gone:
            found = f"a socket of connection {origin['conn']} of generation {origin['generation']}"
            file.findings.add(connection.line, "seam_twice", found, "one that went over")
            continue
        check_socket(file.findings, connection.line, connection.socket, gone[0])
        check_rest(file, before, connection, gone[0]["rest"])


def check_rest(file: Audited, before: Audited, connection: Connection, wanted: str) -> None:
    """A socket brings the bytes that were read before: where two files hash by different keys, as many."""
    now, old = file.journal.header, before.journal.header
    found = connection.socket["rest"]
    alike = now.values == old.values and (now.values or now.hash_key is not None and now.hash_key == old.hash_key)
    if found != wanted if alike else leaf_length(found) != leaf_length(wanted):
        file.findings.add(connection.line, "seam_rest", f"a rest {found[:60]!r}", repr(wanted[:60]))


def check_socket(findings: Findings, line: int, now: dict, before: dict) -> None:
    """A socket comes as it went."""
    if now["number"] != before["socket"]:
        findings.add(line, "seam_socket", f"socket {now['number']}", before["socket"])
    if now["commands"] != before["commands"]:
        sentence = "seam_twice" if now["commands"] < before["commands"] else "seam_lost"
        findings.add(line, sentence, f"{now['commands']} commands before", before["commands"])


def check_departures(file: Audited, later: list[Audited]) -> None:
    """Each socket that went over came to the generation that its line tells, once, and to no other."""
    came: dict[int, list[tuple[Audited, int]]] = {}
    for other in later:
        for connection in other.journal.connections:
            origin = connection.socket and connection.socket["from"]
            if origin and origin["generation"] == file.generation:
                came.setdefault(origin["conn"], []).append((other, connection.line))
    given = {other.generation for other in later}
    for line, gone in file.journal.tail.carried:
        found, arrivals = f"socket {gone['socket']} of connection {gone['conn']}", came.get(gone["conn"], [])
        target = gone.get("to")
        if target in given and not any(other.generation == target for other, _ in arrivals):
            file.findings.add(line, "seam_lost", f"{found} not in generation {target}", "there")
        for number, (other, again) in enumerate(arrivals):
            if number or "to" in gone and other.generation != target:
                other.findings.add(again, "seam_twice", f"{found} in generation {other.generation}", f"once, in {target}")
