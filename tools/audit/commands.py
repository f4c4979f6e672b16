"""Commands: which are answered by the proxy itself, and how the others are split and joined."""
from dataclasses import dataclass

from audit.resp import GREATEST, LEAST, fault, simple

ONE_KEY = """
dump expire expireat persist pexpire pexpireat pttl restore ttl type
append bitcount bitfield bitpos decr decrby get getbit getrange getset incr incrby incrbyfloat psetex set setbit setex setnx setrange
strlen
hdel hexists hget hgetall hincrby hincrbyfloat hkeys hlen hmget hmset hscan hset hsetnx hstrlen hvals
lindex linsert llen lpop lpush lpushx lrange lrem lset ltrim rpop rpush rpushx
sadd scard sismember smembers spop srandmember srem sscan
zadd zcard zcount zincrby zlexcount zpopmax zpopmin zrange zrangebylex zrangebyscore zrank zrem zremrangebylex zremrangebyrank
zremrangebyscore zrevrange zrevrangebylex zrevrangebyscore zrevrank zscan zscore
xack xadd xautoclaim xclaim xdel xlen xpending xrange xrevrange xtrim
geoadd geodist geohash geopos getdel getex hrandfield lpos pfadd pfcount smismember zmscore zrandmember
""".split()
SUMS = ("del", "exists", "touch", "unlink")
SHOWN = 64

Words = list[str]


@dataclass(frozen=True)
class Local:
    """An answer of the proxy's own."""
    name: str
    value: list
    finishes: bool = False


@dataclass(frozen=True)
class Split:
    """Parts, each with its key and its words, and how their values are joined: Same, Get, Set or Sum."""
    how: str
    parts: list[tuple[str, Words]]


class Table:
    """Plans of requests, with what was found of each name kept."""

    def __init__(self) -> None:
        self.known = {name: ("one", 1, 2) for name in ONE_KEY}
        self.known.update({name: ("one", 3, 4) for name in ("eval", "evalsha")})
        self.known.update({name: ("sum", 1, 2) for name in SUMS})
        self.known.update({"mget": ("get", 1, 2), "mset": ("set", 1, 3)})
        self.known.update({"ping": ("own", 0, 1), "echo": ("own", 0, 2), "quit": ("own", 0, 1)})
        self.names: dict[str, str | None] = {}

    def name_of(self, word: str) -> str | None:
        """The name of a command in the table, by its first word, in lower case."""
        if word not in self.names:
            name = bytes.fromhex(word).lower().decode("latin-1")
            self.names[word] = name if name in self.known else None
        return self.names[word]

    def plan(self, words: Words) -> Local | Split:
        """What is to be done with a command."""
        name = self.name_of(words[0])
        if name is None:
            return Local("Unsupported", fault(f"unsupported command '{shown_name(words[0])}'"))
        kind, key_at, least = self.known[name]
        if not has_right_number(name, kind, len(words), least):
            return Local("WrongNumber", fault(f"wrong number of arguments for '{name}' command"))
        if kind == "own":
            return own_plan(name, words)
        if kind == "one":
            return Split("Same", [(words[key_at], words)])
        return split_plan(name, kind, words)


def has_right_number(name: str, kind: str, count: int, least: int) -> bool:
    """Whether a command has as many words as it may."""
    if name in ("ping", "echo"):
        return count == least
    return count >= least and (kind != "set" or count % 2 == 1)


def shown_name(word: str) -> str:
    """An unknown name as its error shows it."""
    return "".join(chr(byte) if 0x20 <= byte <= 0x7E else "?" for byte in bytes.fromhex(word)[:SHOWN])


def own_plan(name: str, words: Words) -> Local:
    """What PING, ECHO and QUIT are answered."""
    if name == "ping":
        return Local("Pong", simple("PONG"))
    if name == "echo":
        return Local("Echoed", ["$", words[1]])
    return Local("Bye", simple("OK"), finishes=True)


def split_plan(name: str, kind: str, words: Words) -> Split:
    """The parts of a command with several keys."""
    if kind == "set":
        return Split("Set", [(key, [b"SET".hex(), key, value]) for key, value in zip(words[1::2], words[2::2])])
    part_name = (b"GET" if kind == "get" else name.upper().encode()).hex()
    return Split("Get" if kind == "get" else "Sum", [(key, [part_name, key]) for key in words[1:]])


INVALID = Local("Invalid", fault("invalid request"))
BROKEN = Local("Broken", fault("downstream protocol error"), finishes=True)
NO_HOST = fault("no upstream host")
BUSY = fault("proxy busy")
FAILURE = fault("upstream failure")
NO_SUCH_REPLY = fault("upstream protocol error")
SUM_NAMES = {name.upper().encode().hex() for name in SUMS}


def join(how: str, values: list[list]) -> list:
    """The value that the parts' values become."""
    if how == "Same":
        return values[0]
    if how == "Get":
        return ["*", [value if value[0] in ("$", "-") else NO_SUCH_REPLY for value in values]]
    if how == "Set":
        others = sum(value != simple("OK") for value in values)
        return fault(f"finished with {others} error(s)") if others else simple("OK")
    others = sum(value[0] != ":" for value in values)
    if others:
        return fault(f"finished with {others} error(s)")
    total = sum(int(value[1]) for value in values)
    return [":", str(total)] if LEAST <= total <= GREATEST else NO_SUCH_REPLY
