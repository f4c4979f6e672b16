"""What follows from the steps of a journal so far: connections, their commands, and the parts of each host."""
from collections import deque
from dataclasses import dataclass, field

from audit.commands import join


@dataclass(slots=True)
class Part:
    """A part of a command: its place, its words, and the value that it has got, if any."""
    conn: int
    command: "Command"
    words: list[str]
    host: int | None
    value: list | None = None


@dataclass(slots=True)
class Command:
    """An accepted command: the proxy's own answer, or parts and how they are joined."""
    index: int
    how: str | None
    own: list | None
    parts: list[Part] = field(default_factory=list)
    missing: int = 0

    def outcome(self) -> list | None:
        """The command's answer, once it is known."""
        if self.own is not None:
            return self.own
        return None if self.missing else join(self.how, [part.value for part in self.parts])

    def gets(self, part: Part, value: list) -> None:
        """A part of the command gets its value."""
        part.value = value
        self.missing -= 1


@dataclass(slots=True)
class Connection:
    """A connection of a client."""
    number: int
    passed: int
    socket: dict | None
    line: int
    at: int | None
    is_open: bool = True
    is_finishing: bool = False
    was_cut: bool = False
    accepted: int = 0
    handed: int = 0
    last: list | None = None
    left: deque[Command] = field(default_factory=deque)


@dataclass(slots=True)
class Host:
    """A host: its faults so far, the parts that wait, those sent since its last fault, and how many of these were answered."""
    epoch: int = 0
    waiting: deque[Part] = field(default_factory=deque)
    sent: list[Part] = field(default_factory=list)
    taken_at: list[int | None] = field(default_factory=list)
    came: int = 0

    def flying(self) -> int:
        """How many parts were sent and have no reply."""
        return len(self.sent) - self.came

    def fail(self) -> list[Part]:
        """The link fails: the parts that are lost."""
        lost = self.sent[self.came:] + list(self.waiting)
        self.epoch += 1
        self.came = 0
        self.sent, self.taken_at = [], []
        self.waiting.clear()
        return lost


@dataclass
class Transcript:
    """What goes over sockets by a journal: kept where a capture is compared with it."""
    requests: dict[int, list] = field(default_factory=dict)
    handed: dict[int, list] = field(default_factory=dict)
    sent: dict[tuple[int, int], list] = field(default_factory=dict)
    came: dict[tuple[int, int], list] = field(default_factory=dict)
