"""What the applications' scripts in Python share: a line for each feature.

A script is told the port of what stands for one Redis server, and behind it those of the hosts. 'pass FEATURE' is a feature that gave
the right value. 'fail FEATURE: ERROR' is one that didn't, as its user sees it; 'half FEATURE: ERROR' one of which something was
carried out all the same.
"""
import os
import subprocess
import sys
import tempfile
import time

import redis

PORT, HOSTS = int(sys.argv[1]), [int(word) for word in sys.argv[2:]]
# No feature takes longer, in seconds.
PATIENCE = 20


def feature(name, work, wanted, left=lambda: False):
    """Does some work and compares what it gives. `left` says whether something of it is there, though it failed."""
    try:
        found = work()
        error = None if found == wanted else f"{found!r} is not {wanted!r}"
    except Exception as problem:  # pylint: disable=broad-except
        error = f"{type(problem).__name__}: {problem}"
    tell(name, error, left)


def tell(name, error, left=lambda: False):
    """The line of a feature, whose error is None if it passed."""
    if error is None:
        print(f"pass {name}", flush=True)
    else:
        print(f"{'half' if left() else 'fail'} {name}: {' '.join(error.split())}", flush=True)


def plain():
    """A client of its own."""
    return redis.Redis(port=PORT)


def load(*scripts):
    """Loads scripts at each host, as its operator does once after each of its starts."""
    for host in HOSTS:
        for script in scripts:
            redis.Redis(port=host).script_load(script)


def awaited(work, wanted, seconds=PATIENCE):
    """What some work gives once that is wanted, or in the end."""
    limit = time.monotonic() + seconds
    while True:
        found = work()
        if found == wanted or time.monotonic() > limit:
            return found
        time.sleep(0.05)


class Program:
    """A program that runs meanwhile."""

    def __init__(self, *words, **rest):
        self.words, self.rest = words, rest

    def __enter__(self):
        self.out = tempfile.TemporaryFile()
        self.process = subprocess.Popen(self.words, stdin=subprocess.DEVNULL, stdout=self.out, stderr=subprocess.STDOUT, **self.rest)
        return self

    def __exit__(self, *_):
        self.process.kill()
        self.process.wait()
        self.out.close()

    def said(self):
        """All that it said so far."""
        return os.pread(self.out.fileno(), 1 << 20, 0).decode()

    def has_ended(self):
        """Whether it ended by itself."""
        return self.process.poll() is not None
