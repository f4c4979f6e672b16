"""How long commands take that are sent at fixed moments (bench/open_loop.c), and how long around changes of generation."""
import array
import bisect
import collections
import contextlib
import http.client
import re
import threading
import time

# Nanoseconds of a second, and of a millisecond.
SECOND, MS = 1_000_000_000, 1_000_000
# The length of a window, and how far from any change those without one are.
WINDOW, APART = 80 * MS, 150 * MS
# Seconds between two looks at a proxy's page.
PAUSE = 0.02
# Milliseconds that are long, and very long.
LONG, VERY_LONG = 2, 5

# The longest time of a window, how many were longer than LONG and VERY_LONG, and of how many.
Window = collections.namedtuple("Window", "worst long very_long count")


def sorted_share(ordered, share):
    """The number of a sorted list below which so great a share lies."""
    return ordered[min(len(ordered) - 1, int(len(ordered) * share))]


class Times:
    """The moments at which commands were due, their times, and how late they were begun, without those of the first seconds.
    Moments are in nanoseconds, the others in milliseconds."""

    def __init__(self, file, skipped):
        numbers = array.array("Q")
        with open(file, "rb") as content:
            numbers.frombytes(content.read())
        first = bisect.bisect_left(numbers[::3], numbers[0] + skipped * SECOND)
        self.due = numbers[3 * first::3]
        self.took = [(done - due) / MS for due, done in zip(self.due, numbers[3 * first + 2::3])]
        self.ordered = sorted(self.took)
        self.late = sorted((begun - due) / MS for due, begun in zip(self.due, numbers[3 * first + 1::3]))

    def window(self, middle):
        """The window around a moment."""
        begin, end = (bisect.bisect_left(self.due, moment) for moment in (middle - WINDOW // 2, middle + WINDOW // 2))
        took = self.took[begin:end]
        return Window(max(took, default=0), sum(ms > LONG for ms in took), sum(ms > VERY_LONG for ms in took), len(took))

    def middles(self):
        """The middles of the windows that lie side by side in the whole time."""
        return range(self.due[0] + WINDOW // 2, self.due[-1] - WINDOW // 2, WINDOW)

    def windows(self, changes):
        """The windows around these changes, and those far from all."""
        inside = range(self.due[0] + WINDOW // 2, self.due[-1] - WINDOW // 2)
        quiet = [middle for middle in self.middles() if all(abs(middle - change) >= APART for change in changes)]
        return [self.window(change) for change in changes if change in inside], [self.window(middle) for middle in quiet]


class Watch(threading.Thread):
    """Looks at the page of a proxy. A change of generation is in the middle between two looks that differ."""

    def __init__(self, port):
        super().__init__(daemon=True)
        self.page = http.client.HTTPConnection("127.0.0.1", port, timeout=5)
        self.ended, self.changes = threading.Event(), []

    def generations(self):
        self.page.request("GET", "/metrics")
        return int(re.search(rb"^redproxy_generations_total (\d+)$", self.page.getresponse().read(), re.M)[1])

    def run(self):
        before, count = time.monotonic_ns(), self.generations()
        while not self.ended.wait(PAUSE):
            known, count = count, self.generations()
            moment = time.monotonic_ns()
            if count != known:
                self.changes.append((before + moment) // 2)
            before = moment
        self.page.close()


@contextlib.contextmanager
def watched(port):
    """The changes of generation meanwhile of the proxy whose page is at this port; of none without one."""
    if port is None:
        yield []
        return
    watch = Watch(port)
    watch.start()
    try:
        yield watch.changes
    finally:
        watch.ended.set()
        watch.join()
