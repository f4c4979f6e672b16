"""Reads a record line by line. What can't be read is told by an `Unreadable`."""
import json
from collections.abc import Iterator
from dataclasses import dataclass, field
from pathlib import Path

from audit.detection import HostState, Rules
from audit.lines import (
    ANSWER_ONE_OF, FIRST_FIELDS, FORMAT, FREE, MOST_HOSTS, MOST_NUMBER, ONE_OF, POINT, STEP_FIELDS, Header, Origin, Step, Test, Unreadable,
    answer_fields, event_fields, is_known, is_number, other_fields)


PARSER = json.JSONDecoder()
AS_THEY_ARE = ("program", "line", "generation", "start", "start_t", "values", "hash_key", "listen", "hosts", "weights", "tags", "workers",
               "reply_ms")


class Source:
    """The line of a file that is being read, for the places of faults."""

    def __init__(self) -> None:
        self.number = 0
        self.text = ""

    def fault(self, name: str, field: str, text: str) -> Unreadable:
        """A fault at a field of the line, or at the line's beginning where it has no such field."""
        return Unreadable(name, self.number, self.text.find(f'"{field}"') + 1 or 1, text)

    def parse(self) -> dict:
        """The JSON object of the line."""
        try:
            parsed, end = PARSER.scan_once(self.text, 0)
            if type(parsed) is dict and self.text[end:] == "\n":
                return parsed
        except (ValueError, StopIteration, RecursionError):
            # (`decode` says what is wrong, and takes longer where nothing is)
            pass
        try:
            parsed = PARSER.decode(self.text.rstrip("\n"))
        except json.JSONDecodeError as error:
            raise Unreadable("json", self.number, error.colno, error.msg) from error
        except (ValueError, RecursionError) as error:
            raise Unreadable("json", self.number, 1, str(error)) from error
        if not isinstance(parsed, dict):
            raise Unreadable("json", self.number, 1, "the line is no JSON object")
        return parsed

    def check(self, found: dict, shape: "Shape") -> None:
        """The object has the fields of this shape, and no others."""
        numbers, others = shape.known.get(tuple(found)) or self.learn(found, shape)
        for name in numbers:
            value = found[name]
            if type(value) is not int or not 0 <= value <= MOST_NUMBER:
                raise self.wrong(name, value)
        for name, test in others:
            if not test(found[name]):
                raise self.wrong(name, found[name])

    def wrong(self, name: str, value: object) -> Unreadable:
        """A field has a value that it can't have."""
        return self.fault("field", name, f"{name!r} is {json.dumps(value)[:60]}")

    def learn(self, found: dict, shape: "Shape") -> "Known":
        """How an object with these fields is tested."""
        for name in found:
            if name not in shape.fields:
                raise self.fault("unknown field", name, f"the field {name!r} isn't known")
        for name in shape.fields:
            if name not in found and name not in shape.free and name not in shape.one_of:
                raise self.fault("missing field", name, f"there is no {name!r}")
        count = sum(name in found for name in shape.one_of)
        if shape.one_of and count != 1:
            raise self.fault("field", shape.one_of[0], f"{count} of the fields {', '.join(shape.one_of)}; wanted: 1")
        numbers = [name for name in found if shape.fields[name] is is_number]
        others = [(name, shape.fields[name]) for name in found if name not in numbers and shape.fields[name] is not is_known]
        shape.known[tuple(found)] = numbers, others
        return numbers, others


# The fields that are whole numbers, and the tests of the others.
Known = tuple[list[str], list[tuple[str, Test]]]


@dataclass
class Shape:
    """The fields of an object, those that it may lack, and those of which it has one. Lists of fields met before are known."""
    fields: dict[str, Test]
    free: frozenset[str] = frozenset()
    one_of: tuple[str, ...] = ()
    known: dict[tuple[str, ...], Known] = field(default_factory=dict)


class Reader:
    """A record that is being read."""

    def __init__(self, path: str) -> None:
        self.path = path
        self.lines = self.sources()
        self.first = next(self.lines, None)
        if self.first is None:
            raise Unreadable("empty", 1, 1, "the file is empty")
        self.header = read_header(self.first)
        self.hashed = not self.header.values
        self.events = {
            name: Shape({**STEP_FIELDS, **fields}, FREE.get(name, frozenset()), ONE_OF.get(name, ()))
            for name, fields in event_fields(self.hashed).items()
        }
        self.answers = {name: Shape(fields, one_of=ANSWER_ONE_OF.get(name, ())) for name, fields in answer_fields(self.hashed).items()}
        self.others = {name: Shape(fields, FREE.get(name, frozenset())) for name, fields in other_fields(self.hashed).items()}

    def sources(self) -> Iterator[Source]:
        """The file's lines, one after the other. The last one ends in a line break too, where the file is whole."""
        source = Source()
        with Path(self.path).open("rb") as file:
            for source.number, line in enumerate(file, 1):
                try:
                    source.text = text = line.decode("utf-8")
                except UnicodeDecodeError as error:
                    column = len(line[:error.start].decode("utf-8", "replace")) + 1
                    raise Unreadable("utf-8", source.number, column, "a byte that is no UTF-8") from error
                if text[-1] != "\n":
                    raise Unreadable("incomplete", source.number, len(text) + 1, "the file ends within a line")
                yield source

    def records(self) -> Iterator[tuple[str, int, Step | dict]]:
        """The steps and other lines in their order: `step`, `link`, `carried` or `end`, with the line's number."""
        source, ended = self.first, False
        for source in self.lines:
            if ended:
                raise Unreadable("behind the end", source.number, 1, "a line stands behind the last one")
            found = source.parse()
            if "event" in found:
                yield "step", source.number, self.step(source, found)
                continue
            kind = self.other(source, found)
            ended = kind == "end"
            yield kind, source.number, found[kind]
        if not ended:
            raise Unreadable("incomplete", source.number + 1, 1, "the file ends without the line `end`")

    def step(self, source: Source, found: dict) -> Step:
        """A step, once its fields are checked."""
        event = found["event"]
        shape = self.events.get(event) if isinstance(event, str) else None
        if shape is None:
            raise source.fault("field", "event", f"there is no event {json.dumps(event)[:60]}")
        source.check(found, shape)
        answer = found["answer"]
        source.check(answer, self.answers[event])
        if event in ("Arrived", "Taken"):
            self.check_request(source, found)
        return Step(source.number, found, event, answer)

    def check_request(self, source: Source, found: dict) -> None:
        """A command's name is in the clear, and points stand only where keys are hashed."""
        if "points" in found and not self.hashed:
            raise source.fault("field", "points", "points stand beside keys in the clear")
        words = found.get("words") or found["answer"].get("words")
        if words and ":" in words[0]:
            raise source.fault("field", "words", "the command's name isn't in the clear")

    def other(self, source: Source, found: dict) -> str:
        """The kind of a line that is no step, once its fields are checked."""
        kind = next((name for name in self.others if name in found), None)
        if kind is None or not isinstance(found[kind], dict):
            raise Unreadable("line", source.number, 1, "the line is neither a step nor one of: " + ", ".join(self.others))
        source.check(found, Shape({kind: lambda _: True}))
        source.check(found[kind], self.others[kind])
        return kind


def read_header(source: Source) -> Header:
    """The first line, once its fields are checked."""
    found = source.parse()
    version = found.get("format")
    if type(version) is int and version > FORMAT:
        raise source.fault("version", "format", f"format {version} is later than {FORMAT}, which is the last one known")
    source.check(found, Shape({**FIRST_FIELDS, "points": lambda it: isinstance(it, list)}, frozenset({"points"})))
    if version != FORMAT:
        raise source.fault("version", "format", f"there is no format {version}")
    check_hosts(source, found)
    origin = found["from"] and Origin(**found["from"])
    if origin and origin.generation >= found["generation"]:
        raise source.fault("field", "from", "it goes on from a generation that isn't older")
    if found["values"] and found["hash_key"] is not None:
        raise source.fault("field", "hash_key", "nothing is hashed where values stand in the clear")
    return Header(
        **{name: found[name] for name in AS_THEY_ARE}, points=found.get("points"), rules=Rules(**found["detection"]), origin=origin,
        clock=found["opening"]["clock"], opening=[HostState(**host) for host in found["opening"]["hosts"]])


def check_hosts(source: Source, found: dict) -> None:
    """The lists that have a member for each host fit each other."""
    count = len(found["hosts"])
    if not 1 <= count <= MOST_HOSTS or len(set(found["hosts"])) != count:
        raise source.fault("field", "hosts", f"{count} hosts, or two of one name; wanted: 1 to {MOST_HOSTS} names")
    if len(found["weights"]) != count:
        raise source.fault("field", "weights", f"{len(found['weights'])} weights of {count} hosts")
    if len(found["opening"]["hosts"]) != count:
        raise source.fault("field", "opening", f"the opening state of {len(found['opening']['hosts'])} of {count} hosts")
    detection = found["detection"]
    if detection["max_ms"] < detection["base_ms"]:
        raise source.fault("field", "max_ms", "max_ms is less than base_ms")
    for pair in found.get("points") or ():
        if not POINT(pair) or len(pair) != 2 or pair[1] >= count or pair[0] >= 2 ** 32:
            raise source.fault("field", "points", f"{json.dumps(pair)[:60]} is no pair of a point and a host")
