"""The values that a checking client of a soak sets at its own keys, and the values that may come back."""

# The proxy's own errors for a key while hosts fail.
ERRORS = ("upstream failure", "proxy busy", "no upstream host")


def is_lie(reply):
    """Whether a reply has the mark of the host that lies."""
    if isinstance(reply, list):
        return any(is_lie(one) for one in reply)
    return isinstance(reply, bytes) and reply.startswith(b"lie ")


class Values:
    """A value names its key and its version. While hosts fail, a host may have an older version or none. Once they are well, it has
    the last one."""

    def __init__(self):
        """No value is set."""
        self.version, self.known = 0, {}

    def new(self, key, size):
        """The next value for a key, with some bytes behind its name."""
        self.version += 1
        return b"%s|%d|" % (key, self.version) + b"x" * size

    def look_at(self, key, value, is_well):
        """A value came for a key; None stands for no value."""
        if is_well and key in self.known:
            assert value == self.known[key], f"{key} has {value!r:.80} in place of {self.known[key]!r:.80}"
        elif value is not None:
            of, _, rest = value.partition(b"|")
            assert of == key and int(rest.partition(b"|")[0]) <= self.version, f"{key} has {value!r:.80}"

    def was_set(self, key, value, is_well):
        """A SET is answered."""
        if is_well:
            self.known[key] = value

    def was_deleted(self, key, count, is_well):
        """A DEL of one key is answered with the number of values that it found."""
        wanted = (0, 1)
        if is_well and key in self.known:
            wanted = (int(self.known[key] is not None),)
        assert count in wanted, f"DEL {key} is answered {count!r} in place of {wanted}"
        self.was_set(key, None, is_well)
