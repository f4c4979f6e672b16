"""A load of sockets that compare each reply with the one that is due: tests/lib/asker.c, beside a test."""
import os
import shutil
import signal
import struct
import subprocess
import tempfile

from harness import TOP, Late, compiler, start

# No wait for generations or for all answers takes longer, in seconds.
LONG = 180
ASKER = os.path.join(tempfile.gettempdir(), f"redproxy-asker-{os.getpid()}", "asker")


def build_asker():
    """Compiles the program into a folder of its own."""
    os.makedirs(os.path.dirname(ASKER))
    subprocess.run([compiler(), "-O2", "-pthread", "-o", ASKER, os.path.join(TOP, "tests", "lib", "asker.c")], check=True)


def leave_asker():
    """Removes that folder."""
    shutil.rmtree(os.path.dirname(ASKER))


def bulk(value):
    """The bulk string of a value."""
    return b"$%d\r\n%s\r\n" % (len(value), value)


class Load:
    """Sockets of tests/lib/asker.c, which compare each reply. It goes on until it is ended, or for a number of rounds."""

    def __init__(self, proxy, sockets, commands, rounds=0):
        """Each command has its reply beside it."""
        self.sockets, self.room, self.line = sockets, tempfile.mkdtemp(prefix="redproxy-"), ""
        self.files = [os.path.join(self.room, name) for name in ("asked", "wanted", "counts")]
        for name, content in zip(self.files, (b"".join(asked for asked, _ in commands),
                                              b"".join(wanted for _, wanted in commands), bytes(32))):
            with open(name, "wb") as out:
                out.write(content)
        words = [ASKER, proxy.port, sockets, rounds, *self.files]
        self.process = start(list(map(str, words)), stdout=subprocess.PIPE, stderr=subprocess.PIPE, text=True)

    def counts(self):
        """Replies, named errors among them, closed sockets, and commands that these left unanswered."""
        with open(self.files[2], "rb") as file:
            return struct.unpack("=4Q", file.read())

    def assert_open(self):
        """No socket was closed."""
        _, _, closed, unanswered = self.counts()
        assert closed == 0, f"{closed} of {self.sockets} sockets were closed, {unanswered} commands were unanswered"

    def assert_goes(self):
        """No socket was closed, and the load goes on."""
        self.assert_open()
        if self.process.poll() is not None:
            raise AssertionError(f"a load ended after {self.counts()[0]} replies: {self.process.communicate()[1]}")

    def end(self, named=0, is_told=True):
        """Ends well: no reply was wrong, no socket was closed, nothing is unanswered. Gives the numbers of replies and of named
        errors among them, of which there may be `named`."""
        if is_told:
            self.process.send_signal(signal.SIGTERM)
        replies, errors, _, _ = self.ended()
        self.assert_open()
        assert errors <= named, f"{errors} of {replies} replies were errors"
        return replies, errors

    def ended(self):
        """Its counts once it has ended by itself. No reply was wrong."""
        try:
            self.line, errors = self.process.communicate(timeout=LONG)
        except subprocess.TimeoutExpired:
            raise Late(f"a load doesn't end: {self.counts()}") from None
        assert self.process.returncode == 0, f"a load ended with status {self.process.returncode}: {errors}"
        return self.counts()

    def leave(self):
        """Ends at once, at any moment."""
        if self.process.poll() is None:
            self.process.kill()
            self.process.communicate()
        shutil.rmtree(self.room, ignore_errors=True)
