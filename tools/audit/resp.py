"""Values of RESP2: as a record has them, and as bytes.

A value is a list, its type's character first: `["+", leaf]`, `["-", leaf]`, `[":", digits]`, `["$", leaf]`, `["*", [value, ..]]`, and
`["$"]` and `["*"]` for the null ones. A leaf has bytes as hexadecimal digits, or `length:hash` in place of bytes.
"""
import re

HEX = re.compile(r"(?:[0-9a-f]{2})*")
HEX_OR_HASHED = re.compile(r"(?:[0-9a-f]{2})*|(?:0|[1-9][0-9]{0,9}):[0-9a-f]{32}")
HASHED = re.compile(r"(?:0|[1-9][0-9]{0,9}):[0-9a-f]{32}")
NUMBER = re.compile(r"0|-?[1-9][0-9]{0,18}")
LEAST, GREATEST = -2 ** 63, 2 ** 63 - 1
MOST_DEPTH = 8
MOST_TEXT = 8_388_608
MOST_BULK = 1_048_576
MOST_LINE = 65_536
# What a simple string or an error may be and still stand in the clear where values are hashed: texts of the proxy's own.
OWN_TEXTS = {
    text.encode().hex() for text in (
        "PONG", "OK", "invalid request", "no upstream host", "upstream failure", "upstream protocol error", "proxy busy",
        "downstream protocol error")
}
OWN_BEGINNINGS = tuple(
    text.encode().hex() for text in ("unsupported command '", "wrong number of arguments for '", "finished with "))


def is_leaf(leaf: object, hashed: bool) -> bool:
    """Whether this is a leaf: hexadecimal digits, or where values are hashed also a length and a hash."""
    return type(leaf) is str and (HEX_OR_HASHED if hashed else HEX).fullmatch(leaf) is not None


def are_words(words: object, hashed: bool) -> bool:
    """Whether these are the words of a command: one leaf or more."""
    if type(words) is not list or not words:
        return False
    form = (HEX_OR_HASHED if hashed else HEX).fullmatch
    for word in words:
        if type(word) is not str or not form(word):
            return False
    return True


def is_number(leaf: object, hashed: bool) -> bool:
    """Whether this is a number in its range, or the length and hash of one's digits."""
    if not isinstance(leaf, str):
        return False
    if NUMBER.fullmatch(leaf):
        return LEAST <= int(leaf) <= GREATEST
    return hashed and bool(HASHED.fullmatch(leaf))


def is_value(value: object, hashed: bool, depth: int = 0) -> bool:
    """Whether this is a value."""
    if type(value) is not list or not value or len(value) > 2:
        return False
    kind = value[0]
    if kind == "$":
        return len(value) == 1 or is_leaf(value[1], hashed)
    if kind == "*":
        members = value[1] if len(value) == 2 else []
        return depth < MOST_DEPTH and isinstance(members, list) and all(is_value(it, hashed, depth + 1) for it in members)
    if len(value) == 1:
        return False
    return is_number(value[1], hashed) if kind == ":" else kind in ("+", "-") and is_leaf(value[1], hashed)


def leaf_length(leaf: str) -> int:
    """How many bytes a leaf stands for."""
    at = leaf.find(":")
    return len(leaf) // 2 if at < 0 else int(leaf[:at])


def words_length(words: list[str]) -> int:
    """How many bytes the text of a command has."""
    length = 3 + len(str(len(words)))
    for word in words:
        payload = int(word.partition(":")[0]) if ":" in word else len(word) // 2
        length += payload + (6 if payload < 10 else 7 if payload < 100 else 5 + len(str(payload)))
    return length


def value_length(value: list) -> int:
    """How many bytes the text of a value has."""
    kind = value[0]
    if len(value) == 1:
        return 5
    if kind == "*":
        return 3 + len(str(len(value[1]))) + sum(map(value_length, value[1]))
    if kind == ":":
        return 3 + (int(value[1].split(":")[0]) if ":" in value[1] else len(value[1]))
    payload = leaf_length(value[1])
    return 5 + len(str(payload)) + payload if kind == "$" else 3 + payload


def words_text(words: list[str]) -> bytes:
    """The text of a command whose words are bytes."""
    parts = [b"*%d\r\n" % len(words)]
    for word in words:
        payload = bytes.fromhex(word)
        parts.append(b"$%d\r\n%s\r\n" % (len(payload), payload))
    return b"".join(parts)


def value_text(value: list) -> bytes:
    """The text of a value whose leaves are bytes, in the one spelling."""
    kind = value[0].encode()
    if len(value) == 1:
        return kind + b"-1\r\n"
    if kind == b"*":
        return b"*%d\r\n" % len(value[1]) + b"".join(map(value_text, value[1]))
    if kind == b":":
        return b":%s\r\n" % value[1].encode()
    payload = bytes.fromhex(value[1])
    return b"$%d\r\n%s\r\n" % (len(payload), payload) if kind == b"$" else kind + payload + b"\r\n"


def is_plain(value: list) -> bool:
    """Whether no simple string and no error in it has a CR or an LF, as far as its bytes are known."""
    if value[0] in "+-" and ":" not in value[1]:
        payload = bytes.fromhex(value[1])
        return b"\r" not in payload and b"\n" not in payload
    return value[0] != "*" or len(value) == 1 or all(map(is_plain, value[1]))


def may_be_clear(value: list) -> bool:
    """Whether all that stands in the clear in this value may, where values are hashed; numbers aside."""
    kind = value[0]
    if len(value) == 1:
        return True
    if kind == "*":
        return all(may_be_clear(it) and not (it[0] == ":" and is_clear(it)) for it in value[1])
    if kind == ":" or ":" in value[1]:
        return True
    return kind in "+-" and (value[1] in OWN_TEXTS or value[1].startswith(OWN_BEGINNINGS))


def is_clear(value: list) -> bool:
    """Whether a value's own leaf is in the clear."""
    return len(value) == 2 and ":" not in value[1]


def simple(text: str) -> list:
    """A simple string."""
    return ["+", text.encode().hex()]


def fault(text: str) -> list:
    """An error."""
    return ["-", text.encode().hex()]


def shown(value: object) -> str:
    """A value, or words, as a finding shows it: bytes as text, at most 120 characters of it."""
    if isinstance(value, list) and value and value[0] in ("+", "-", ":", "$", "*"):
        text = value[0] + ("-1" if len(value) == 1 else shown_list(value[1]) if value[0] == "*" else shown_leaf(value))
    elif isinstance(value, list):
        text = " ".join(shown_leaf(["$", word]) for word in value)
    else:
        text = str(value)
    return text if len(text) <= 120 else text[:117] + "..."


def shown_list(values: list) -> str:
    """The members of a list, as a finding shows them."""
    return "[" + ", ".join(map(shown, values[:20])) + (", ..]" if len(values) > 20 else "]")


def shown_leaf(value: list) -> str:
    """A leaf as a finding shows it."""
    leaf = value[1]
    if value[0] == ":" or ":" in leaf:
        return leaf
    return repr(bytes.fromhex(leaf[:240]).decode("latin-1"))[1:-1]
