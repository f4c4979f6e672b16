"""The ring: which host owns a key."""
import bisect
import hashlib

DIGESTS = 40


def digest_points(text: bytes) -> list[int]:
    """The four points of a text's MD5, each of four bytes, the least significant first."""
    digest = hashlib.md5(text).digest()
    return [int.from_bytes(digest[4 * j:4 * j + 4], "little") for j in range(4)]


def ketama_points(names: list[str], weights: list[int]) -> set[tuple[int, int]]:
    """The pairs of a point and a host of libketama's ring by these weights."""
    total = sum(weights)
    return {
        (point, host)
        for host, (name, weight) in enumerate(zip(names, weights))
        for k in range(DIGESTS * len(names) * weight // total)
        for point in digest_points(f"{name}-{k}".encode())
    }


def hashed_part(key: bytes, tags: bool) -> bytes:
    """What of a key is hashed: its tag, where tags count and it has one that isn't empty."""
    opening = key.find(b"{") if tags else -1
    if opening < 0:
        return key
    closing = key.find(b"}", opening + 1)
    return key[opening + 1:closing] if closing > opening + 1 else key


def key_point(key: bytes, tags: bool) -> int:
    """The point of a key."""
    return digest_points(hashed_part(key, tags))[0]


class Ring:
    """Pairs of a point and a host. An owner has the least usable pair at or above the key's point, else the least of all usable."""

    def __init__(self, pairs: set[tuple[int, int]]) -> None:
        self.pairs = sorted(pairs)
        self.by_usable: dict[tuple[bool, ...], tuple[list[int], list[int]]] = {}

    def owner(self, point: int, usable: tuple[bool, ...]) -> int | None:
        """The usable host that owns a point, or none where no usable host has a point."""
        if usable not in self.by_usable:
            left = [pair for pair in self.pairs if usable[pair[1]]]
            self.by_usable[usable] = ([point for point, _ in left], [host for _, host in left])
        points, hosts = self.by_usable[usable]
        if not points:
            return None
        return hosts[bisect.bisect_left(points, point) % len(points)]
