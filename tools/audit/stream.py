"""Reads RESP2 from bytes, as it came over a socket."""
from audit.resp import GREATEST, LEAST, MOST_BULK, MOST_DEPTH, MOST_LINE, MOST_TEXT

CLIENT, HOST = 1_024, 65_536


class Broken(Exception):
    """The bytes are no RESP2."""


class Unfinished(Exception):
    """The bytes end within a value."""


class Values:
    """The values of a stream's bytes, one after the other."""

    def __init__(self, data: bytes, members: int) -> None:
        self.data, self.members, self.at = data, members, 0

    def next(self) -> list:
        """The next value."""
        begin = self.at
        try:
            value = self.value(0)
        except Unfinished:
            if len(self.data) - begin > MOST_TEXT:
                raise Broken from None
            raise
        if self.at - begin > MOST_TEXT:
            raise Broken
        return value

    def value(self, depth: int) -> list:
        """The value at this place."""
        kind = self.data[self.at:self.at + 1]
        if not kind:
            raise Unfinished
        if kind not in b"+-:$*":
            raise Broken
        if kind == b"*" and depth == MOST_DEPTH:
            raise Broken
        self.at += 1
        line = self.line(MOST_LINE if kind in b"+-:" else 10)
        if kind in b"+-":
            if b"\n" in line:
                raise Broken
            return [kind.decode(), line.hex()]
        if kind == b":":
            return [":", str(number(line))]
        if line == b"-1":
            return [kind.decode()]
        length = self.length(line, MOST_BULK if kind == b"$" else self.members)
        if kind == b"*":
            return ["*", [self.value(depth + 1) for _ in range(length)]]
        return ["$", self.payload(length).hex()]

    def line(self, most: int) -> bytes:
        """The bytes up to a line's end."""
        end = self.data.find(b"\r", self.at, self.at + most + 1)
        if end < 0:
            if len(self.data) - self.at > most:
                raise Broken
            raise Unfinished
        if len(self.data) < end + 2:
            raise Unfinished
        if self.data[end + 1] != 0x0A:
            raise Broken
        line, self.at = self.data[self.at:end], end + 2
        return line

    def length(self, line: bytes, most: int) -> int:
        """A length."""
        if not line.isdigit() or int(line) > most:
            raise Broken
        return int(line)

    def payload(self, length: int) -> bytes:
        """The bytes of a bulk string."""
        end = self.at + length
        if self.data[end:end + 2] != b"\r\n":
            if len(self.data) < end + 2 and b"\r\n".startswith(self.data[end:end + 2]):
                raise Unfinished
            raise Broken
        payload, self.at = self.data[self.at:end], end + 2
        return payload


def number(line: bytes) -> int:
    """An integer."""
    digits = line[1:] if line[:1] in (b"+", b"-") else line
    if not digits.isdigit():
        raise Broken
    found = int(line) if len(line) < 4_000 else int(digits.lstrip(b"0")[:25] or b"0") * (-1 if line[:1] == b"-" else 1)
    if not LEAST <= found <= GREATEST:
        raise Broken
    return found


def all_values(data: bytes, members: int) -> tuple[list[list], bool]:
    """The whole values of some bytes, and whether what follows them is no RESP2."""
    values, reader = [], Values(data, members)
    while True:
        try:
            values.append(reader.next())
        except Unfinished:
            return values, False
        except Broken:
            return values, True
