"""Reads captures in pcap format, and puts the streams of TCP together."""
import ipaddress
import struct
from collections.abc import Iterator
from dataclasses import dataclass, field
from pathlib import Path

from audit.lines import Unreadable

# Bytes of a file's first number, by which its byte order and the unit of its moments are known.
ORDERS = {b"\xd4\xc3\xb2\xa1": ("<", 1_000), b"\xa1\xb2\xc3\xd4": (">", 1_000), b"\x4d\x3c\xb2\xa1": ("<", 1_000_000),
          b"\xa1\xb2\x3c\x4d": (">", 1_000_000)}
NULL, ETHERNET, RAW, LOOP, COOKED, COOKED_2 = 0, 1, 101, 108, 113, 276
IPV4, IPV6 = 0x0800, 0x86DD
VLAN = 0x8100
TCP = 6
SYN, RST, FIN = 2, 4, 1
HALF, WHOLE = 2 ** 31, 2 ** 32


@dataclass
class Segment:
    """What one packet says of a stream."""
    at: int
    source: str
    target: str
    sequence: int
    flags: int
    data: bytes
    is_cut: bool


@dataclass
class Stream:
    """The bytes that one end sent to the other, from its first packet on. Moments are milliseconds since 1970."""
    at: int
    first: int
    pieces: dict[int, bytes] = field(default_factory=dict)
    is_reset: bool = False
    end: int | None = None
    is_cut: bool = False
    near: int = 0

    def add(self, segment: Segment) -> None:
        """Takes in a packet."""
        # Sequence numbers wrap: the place is the one nearest to the bytes that came before.
        place = (segment.sequence - self.first - 1) % WHOLE
        place += (self.near - place + HALF) // WHOLE * WHOLE
        self.near = max(self.near, place)
        self.is_reset |= bool(segment.flags & RST)
        self.is_cut |= segment.is_cut
        if segment.data and len(self.pieces.get(place, b"")) < len(segment.data):
            self.pieces[place] = segment.data
        if segment.flags & FIN:
            self.end = place + len(segment.data)

    def bytes(self) -> tuple[bytes, bool]:
        """The bytes up to the first gap, and whether there is none."""
        parts, length = [], 0
        for place, data in sorted(self.pieces.items()):
            if place > length:
                return b"".join(parts), False
            if place + len(data) > length:
                parts.append(data[length - place:])
                length = place + len(data)
        return b"".join(parts), not self.is_cut and (self.end is None or self.end <= length)


def packets(path: str) -> Iterator[tuple[int, int, bytes, bool]]:
    """The link type, the moment, the bytes of each packet, and whether it was cut off."""
    with Path(path).open("rb") as file:
        head = file.read(24)
        if head[:4] not in ORDERS or len(head) < 24:
            raise Unreadable("pcap", 1, 1, "the file isn't in pcap format")
        order, unit = ORDERS[head[:4]]
        link = struct.unpack(order + "I", head[20:24])[0] & 0xFFFF
        while record := file.read(16):
            if len(record) < 16:
                raise Unreadable("pcap", 1, file.tell(), "the file ends within a packet's head")
            seconds, fraction, kept, whole = struct.unpack(order + "IIII", record)
            data = file.read(kept)
            if len(data) < kept:
                raise Unreadable("pcap", 1, file.tell(), "the file ends within a packet")
            yield link, seconds * 1_000 + fraction // unit, data, kept < whole


def network(link: int, data: bytes) -> tuple[int, bytes]:
    """The kind and the bytes of a packet behind its device's head."""
    if link == ETHERNET:
        kind, at = struct.unpack(">H", data[12:14])[0], 14
        if kind == VLAN:
            kind, at = struct.unpack(">H", data[16:18])[0], 18
        return kind, data[at:]
    if link == COOKED:
        return struct.unpack(">H", data[14:16])[0], data[16:]
    if link == COOKED_2:
        return struct.unpack(">H", data[:2])[0], data[20:]
    if link in (NULL, LOOP):
        data = data[4:]
    elif link != RAW:
        raise Unreadable("pcap", 1, 1, f"link type {link} isn't known")
    return IPV6 if data and data[0] >> 4 == 6 else IPV4, data


def transport(kind: int, data: bytes) -> tuple[str, str, bytes] | None:
    """The two addresses and the bytes of a packet of TCP, none where it is another."""
    if kind == IPV4 and len(data) >= 20 and data[9] == TCP:
        head, whole = (data[0] & 15) * 4, struct.unpack(">H", data[2:4])[0]
        # A packet that the system hands over in one large piece may tell no length.
        return str(ipaddress.IPv4Address(data[12:16])), str(ipaddress.IPv4Address(data[16:20])), data[head:whole or len(data)]
    if kind == IPV6 and len(data) >= 40 and data[6] == TCP:
        whole = struct.unpack(">H", data[4:6])[0]
        source, target = (f"[{ipaddress.IPv6Address(data[at:at + 16])}]" for at in (8, 24))
        return source, target, data[40:40 + whole if whole else len(data)]
    return None


def segments(path: str) -> Iterator[Segment]:
    """The packets of TCP in a capture."""
    for link, at, data, is_cut in packets(path):
        try:
            found = transport(*network(link, data))
            if found is None:
                continue
            source, target, body = found
            ports = struct.unpack(">HH", body[:4])
            sequence = struct.unpack(">I", body[4:8])[0]
            yield Segment(at, f"{source}:{ports[0]}", f"{target}:{ports[1]}", sequence, body[13], body[(body[12] >> 4) * 4:], is_cut)
        except (struct.error, IndexError) as error:
            raise Unreadable("pcap", 1, 1, "a packet is shorter than its head") from error


class Capture:
    """All streams of a capture whose beginning was captured, by the addresses of their two ends."""

    def __init__(self, path: str) -> None:
        self.streams: dict[tuple[str, str], list[Stream]] = {}
        for segment in segments(path):
            known = self.streams.setdefault((segment.source, segment.target), [])
            if segment.flags & SYN and not (known and known[-1].first == segment.sequence):
                known.append(Stream(segment.at, segment.sequence))
            elif known and not segment.flags & SYN:
                known[-1].add(segment)

    def stream(self, source: str, target: str, at: int | None) -> Stream | None:
        """The stream between two ends that began last before a moment, or the first one."""
        known = self.streams.get((source, target), [])
        before = [stream for stream in known if at is None or stream.at <= at]
        return before[-1] if before and at is not None else known[0] if known else None
