"""The command line of the auditor."""
import argparse
import gc
import sys

from audit.findings import Finding, Findings
from audit.journal import Journal
from audit.lines import Unreadable
from audit.reader import Reader
from audit.seams import Audited, check_seams
from audit.sentences import SENTENCES
from audit.state import Transcript
from audit.wire import check_comparable, check_wire

GOOD, FOUND, UNREADABLE = 0, 1, 2


def audit_files(paths: list[str], capture: str | None = None) -> list[Finding]:
    """All that is found in these files, and at their seams; an `Unreadable` carries the file's path as `path`."""
    readers = [opened(path) for path in paths]
    if capture:
        with_path(capture, lambda: check_comparable(readers))
    files = []
    for reader in readers:
        header = reader.header
        looked_at = {
            other.header.origin.steps for other in readers
            if other.header.origin and (other.header.line, other.header.origin.generation) == (header.line, header.generation)
        }
        findings = Findings(reader.path)
        journal = Journal(reader, findings, looked_at, Transcript() if capture else None)
        with_path(reader.path, journal.run)
        files.append(Audited(journal, findings))
    for line in {file.journal.header.line for file in files}:
        check_seams([file for file in files if file.journal.header.line == line])
    if capture:
        with_path(capture, lambda: check_wire(capture, files))
    return [finding for file in files for finding in file.findings.kept]


def with_path(path: str, work: object) -> object:
    """Does some work on a file, and tells the file where it can't be read."""
    try:
        return work()
    except Unreadable as error:
        error.path = path
        raise
    except OSError as error:
        unreadable = Unreadable("file", 1, 1, error.strerror or str(error))
        unreadable.path = path
        raise unreadable from error


def opened(path: str) -> Reader:
    """A reader of a file, whose first line is read."""
    return with_path(path, lambda: Reader(path))


def main(arguments: list[str]) -> int:
    """Prints what is found, and answers the status."""
    parser = argparse.ArgumentParser(prog="audit.py", description="Checks records of journals (tools/audit/RECORD.md).")
    parser.add_argument("--wire", metavar="PCAP", help="a capture of the same time, whose bytes are compared")
    parser.add_argument("--sentences", action="store_true", help="lists what is checked")
    parser.add_argument("files", nargs="*", metavar="FILE")
    options = parser.parse_args(arguments)
    if options.sentences:
        print("\n".join(f"{name}: {text}" for name, text in SENTENCES.items()))
        return GOOD
    if not options.files:
        parser.error("no FILE is given")
    # What a journal keeps lives to its end, so that looking for garbage only takes time.
    gc.disable()
    try:
        found = audit_files(options.files, options.wire)
    except Unreadable as error:
        print(f"{error.path}:{error.line}:{error.column}: {error.name}: {error}", file=sys.stderr)
        return UNREADABLE
    for finding in found:
        print(finding)
    return FOUND if found else GOOD
