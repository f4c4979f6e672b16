"""Writes captures of what a simulated run sent over its sockets, for tests/audit."""
import ipaddress
import struct

from record_simulator import UNIX, ZERO_T, text_of

ETHERNET, COOKED, NULL = 1, 113, 0
SYN, FIN, ACK = 2, 1, 16


def ends(address):
    host, _, port = address.rpartition(":")
    return ipaddress.ip_address(host.strip("[]")), int(port)


def packet(source, target, sequence, flags, data=b"", link=ETHERNET):
    """A packet of TCP behind the head of its device."""
    (from_host, from_port), (to_host, to_port) = ends(source), ends(target)
    body = struct.pack(">HHIIBBHHH", from_port, to_port, sequence % 2 ** 32, 0, 5 << 4, flags, 65_535, 0, 0) + data
    if from_host.version == 4:
        kind = 0x0800
        body = struct.pack(">BBHHHBBH", 0x45, 0, 20 + len(body), 0, 0, 64, 6, 0) + from_host.packed + to_host.packed + body
    else:
        kind = 0x86DD
        body = struct.pack(">IHBB", 6 << 28, len(body), 6, 64) + from_host.packed + to_host.packed + body
    head = {ETHERNET: bytes(12) + struct.pack(">H", kind), COOKED: bytes(14) + struct.pack(">H", kind), NULL: struct.pack("<I", 2)}[link]
    return head + body


class Wire:
    """Streams with their bytes by moments, as (moment, bytes)."""

    def __init__(self, world, link=ETHERNET, piece=1_000):
        self.world, self.link, self.piece, self.packets = world, link, piece, []

    def stream(self, source, target, at, chunks, first, is_ended):
        """One direction of a connection: in pieces, each third twice, and two in the wrong order."""
        self.put(at, packet(source, target, first, SYN, link=self.link))
        place, sent = first + 1, []
        for moment, data in chunks:
            for start in range(0, len(data), self.piece):
                piece = data[start:start + self.piece]
                sent.append((moment, packet(source, target, place, ACK, piece, self.link)))
                place += len(piece)
        sent[1:3] = reversed(sent[1:3])
        for number, (moment, one) in enumerate(sent):
            for _ in range(1 + (number % 3 == 0)):
                self.put(moment, one)
        if is_ended:
            self.put(self.world.now + 1, packet(source, target, place, FIN | ACK, link=self.link))

    def put(self, at, data):
        self.packets.append((at, data))

    def dump(self):
        """The capture's bytes."""
        parts = [struct.pack("<IHHiIII", 0xA1B2C3D4, 2, 4, 0, 0, 262_144, self.link)]
        for at, data in sorted(self.packets, key=lambda it: it[0]):
            unix = UNIX + at - ZERO_T
            parts.append(struct.pack("<IIII", unix // 1_000, unix % 1_000 * 1_000, len(data), len(data)) + data)
        return b"".join(parts)


def captured(made, world, change=None, **options):
    """The capture of a run. `change` gets each direction's name and chunks, and gives the chunks that are captured."""
    wire = Wire(world, **options)
    change = change or (lambda _, chunks: chunks)
    for socket in world.all_sockets:
        asked = list(socket.input)
        if socket.next is not None:
            asked.append((world.now, text_of(socket.next)[:len(socket.rest)]))
        # (the first number is so high that the bytes' numbers wrap)
        wire.stream(socket.client, world.listen, socket.made, change("asked", asked), 2 ** 32 - 20, True)
        wire.stream(world.listen, socket.client, socket.made, change("answers", socket.output), 7, True)
    for generation in made:
        for (host, _), link in generation.links.items():
            name = world.names[host]
            wire.stream(link["local"], name, link["at"], change("sent", link["sent"]), 2 ** 32 - 5, False)
            wire.stream(name, link["local"], link["at"], change("replies", link["came"]), 99, False)
    return wire.dump()
