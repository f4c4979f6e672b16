"""What the lines of a record hold: the fields of each, and what each field may be."""
import re
from collections.abc import Callable
from dataclasses import dataclass

from audit.detection import HostState, Rules
from audit.resp import are_words, is_leaf, is_value

FORMAT = 1
MOST_HOSTS = 64
MOST_WORKERS = 64
MOST_WEIGHT = 100
MOST_NUMBER = 2 ** 64 - 1
KINDS = ("Refused", "Dropped", "Late", "Garbled")
TRIPS = ("None", "Ejected", "Kept")
LOCALS = ("Pong", "Echoed", "Bye", "Invalid", "Unsupported", "WrongNumber", "Broken")
ADDRESS = re.compile(r"(?:[0-9]{1,3}(?:\.[0-9]{1,3}){3}|\[[0-9a-f:.]+(?:%[0-9]+)?\]):[0-9]{1,5}")
NAME = re.compile(r"[\x21-\x7e]{1,255}")
HASH_KEY = re.compile(r"[0-9a-f]{32}")

Test = Callable[[object], bool]


class Unreadable(Exception):
    """A file that can't be read: the error's name, its line and column from 1 on, and what is wrong."""

    def __init__(self, name: str, line: int, column: int, text: str) -> None:
        super().__init__(text)
        self.name = name
        self.line = line
        self.column = column


@dataclass(slots=True)
class Step:
    """A step of a journal: its line in the file, and its fields."""
    line: int
    body: dict
    event: str
    answer: dict


@dataclass(frozen=True)
class Origin:
    """The older generation that outlier detection goes on from, and how long its journal was then."""
    generation: int
    steps: int
    bytes: int


@dataclass(frozen=True)
class Header:
    """The first line of a record."""
    program: str
    line: int
    generation: int
    start: int
    start_t: int
    values: bool
    hash_key: str | None
    listen: str | None
    hosts: list[str]
    weights: list[int]
    points: list | None
    tags: bool
    workers: int | None
    reply_ms: int
    rules: Rules
    origin: Origin | None
    clock: int
    opening: list[HostState]

    def settings(self) -> tuple:
        """What generations of one line have in common."""
        return (self.listen, self.hosts, self.weights, self.points, self.tags, self.workers, self.reply_ms, self.rules)


def is_number(value: object) -> bool:
    """A whole number from 0 on, of 64 bits."""
    return type(value) is int and 0 <= value <= MOST_NUMBER


def is_number_or_null(value: object) -> bool:
    """A whole number, or null."""
    return value is None or type(value) is int and 0 <= value <= MOST_NUMBER


def is_known(_: object) -> bool:
    """A field that was looked at before its tests."""
    return True


def within(least: int, most: int) -> Test:
    """A whole number in a range."""
    return lambda value: type(value) is int and least <= value <= most


def is_bool(value: object) -> bool:
    """True or false."""
    return type(value) is bool


def is_text(value: object) -> bool:
    """A text."""
    return isinstance(value, str)


def is_address(value: object) -> bool:
    """An address and a port."""
    return isinstance(value, str) and bool(ADDRESS.fullmatch(value))


def optional(test: Test) -> Test:
    """Null, or what the test says."""
    return lambda value: value is None or test(value)


def one_of(*names: str) -> Test:
    """One of these names."""
    return lambda value: value in names


def list_of(test: Test) -> Test:
    """A list of such values."""
    return lambda value: isinstance(value, list) and all(map(test, value))


def record_of(fields: dict[str, Test]) -> Test:
    """An object with these fields and no others."""
    return lambda value: isinstance(value, dict) and value.keys() == fields.keys() and all(
        test(value[name]) for name, test in fields.items())


HOST_FIELDS = {"out": is_bool, **dict.fromkeys(("start", "streak", "good", "results", "multiplier"), is_number)}
DETECTION_FIELDS = {
    "interval_ms": within(1, 3_600_000), "base_ms": within(1, 3_600_000), "max_ms": within(1, 86_400_000),
    "max_percent": within(0, 100), "consecutive": within(0, 1_000_000), "success_hosts": within(1, 65),
    "request_volume": within(1, 1_000_000), "factor": within(0, 100_000), "panic_percent": within(0, 100),
}
FIRST_FIELDS = {
    "format": is_number, "program": is_text, "line": is_number, "generation": is_number, "start": is_number, "start_t": is_number,
    "values": is_bool, "hash_key": optional(lambda it: isinstance(it, str) and bool(HASH_KEY.fullmatch(it))),
    "listen": optional(is_address),
    "hosts": list_of(lambda it: isinstance(it, str) and bool(NAME.fullmatch(it))), "weights": list_of(within(1, MOST_WEIGHT)),
    "tags": is_bool, "workers": optional(within(1, MOST_WORKERS)), "reply_ms": within(1, 600_000),
    "detection": record_of(DETECTION_FIELDS),
    "from": optional(record_of({"generation": is_number, "steps": is_number, "bytes": is_number})),
    "opening": record_of({"clock": is_number, "hosts": list_of(record_of(HOST_FIELDS))}),
}
POINT = list_of(is_number)
ADDRESSED_SOCKET = {
    "number": is_number, "client": is_address, "from": optional(record_of({"generation": is_number, "conn": is_number})),
    "commands": is_number,
}


def other_fields(hashed: bool) -> dict[str, dict[str, Test]]:
    """The fields of lines that are no steps."""
    return {
        "link": {"host": is_number, "epoch": is_number, "local": is_address, "at": is_number_or_null},
        "carried": {
            "conn": is_number, "socket": is_number, "commands": is_number, "rest": lambda it: is_leaf(it, hashed), "to": is_number_or_null,
        },
        "end": {"steps": is_number, "bytes": is_number},
    }


def event_fields(hashed: bool) -> dict[str, dict[str, Test]]:
    """The fields of each event."""
    conn, host = {"conn": is_number}, {"host": is_number}
    request = {
        "words": lambda it: are_words(it, hashed),
        "value": lambda it: is_value(it, hashed), "broken": lambda it: it is True, "points": list_of(within(0, 2 ** 32 - 1)),
    }
    return {
        "Opened": {"socket": optional(record_of({**ADDRESSED_SOCKET, "rest": lambda it: is_leaf(it, hashed)}))},
        "Arrived": {**conn, **request},
        "Finished": conn,
        "Taken": host,
        "Answered": {**host, "epoch": is_number, "t": is_number, "value": lambda it: is_value(it, hashed)},
        "Failed": {**host, "epoch": is_number, "kind": one_of(*KINDS), "t": is_number},
        "Swept": {"t": is_number},
        "Handed": conn,
        "Closed": {**conn, "cut": is_bool},
    }


def answer_fields(hashed: bool) -> dict[str, dict[str, Test]]:
    """The fields of the answer to each event."""
    counts = dict.fromkeys(("parts", "no_host", "busy"), is_number)
    raw = {"raw": lambda it: is_leaf(it, hashed)}
    trip = {"trip": one_of(*TRIPS)}
    words = {"words": lambda it: are_words(it, hashed)}
    return {
        "Opened": {"conn": is_number},
        "Arrived": {"index": is_number, "local": optional(one_of(*LOCALS)), **counts},
        "Finished": {},
        "Taken": {"epoch": is_number, "place": is_number, **words, **raw},
        "Answered": trip,
        "Failed": {"parts": is_number, **trip},
        "Swept": dict.fromkeys(("returned", "ejected", "kept"), is_number),
        "Handed": {"value": lambda it: is_value(it, hashed), **raw},
        "Closed": {},
    }


# Fields of which a step has any, or one of several.
FREE = {"Closed": frozenset({"cut"}), "Arrived": frozenset({"points"}), "carried": frozenset({"to"})}
ONE_OF = {"Arrived": ("words", "value", "broken")}
ANSWER_ONE_OF = {"Taken": ("words", "raw"), "Handed": ("value", "raw")}
STEP_FIELDS = {"n": is_number, "at": is_number_or_null, "pass": is_number, "event": is_known, "answer": lambda it: isinstance(it, dict)}
