"""A soak's eyes on the proxy: its page of numbers each 100 ms, its lines, its memory, threads and files, and its last line."""
import http.client
import os
import threading
import time
import traceback
from collections import Counter

from harness import BUILT, PATIENCE, Proxy, counts_in, free_port, resident_mib, thread_count

# Seconds between two reads of the page, and the reads between two looks at the memory.
PAUSE, READS = 0.1, 10
# Seconds by which a sweep, and its line, may be late on a busy machine.
SLACK = 3
# The settings of redproxy.json that limit an ejection.
DEFAULTS = {"interval_ms": 10_000, "base_ms": 30_000, "max_ms": 300_000}
# The counts of the last line that a soak compares.
SUMS = ("accepted", "handed", "sent", "answered", "lost")


class Watched(Proxy):
    """The proxy with its page of numbers, and with lines of generations. It drains at signals and orders, and may have only some of
    the processors."""

    def __init__(self, names, processors, lines=1, **settings):
        """Starts it; 0 processors are all."""
        self.admin = free_port()
        some = ",".join(map(str, sorted(os.sched_getaffinity(0))[:processors]))
        before = [*(["taskset", "--cpu-list", some] if processors else []), "env", "--block-signal=TERM,INT"]
        after = ("--metrics", f"127.0.0.1:{self.admin}", "--lines", str(lines))
        # (the C library gives large pieces back at once, so that the process has what the program holds)
        gives_back = {"MALLOC_MMAP_THRESHOLD_": "131072"}
        super().__init__((), program=BUILT, before=before, after=after, hosts=names, environment=gives_back, **settings)

    def asked(self, path, method="GET"):
        """The text of one of its pages, or its answer to an order."""
        visitor = http.client.HTTPConnection("127.0.0.1", self.admin, timeout=PATIENCE)
        try:
            visitor.request(method, path)
            answer = visitor.getresponse()
            page = answer.read().decode()
            assert answer.status == 200, f"{method} {path} is answered {answer.status} {page!r:.200}"
            return page
        finally:
            visitor.close()

    def numbers(self):
        """Each number of the page, by its name with its labels."""
        lines = [line.rsplit(" ", 1) for line in self.asked("/metrics").splitlines() if not line.startswith("#")]
        assert len(lines) == len(dict(lines)), "a name stands twice"
        return {name: float(number) for name, number in lines}

    def sums(self):
        """The counts of the last line, from the page."""
        found = self.numbers()

        def of_hosts(name):
            return sum(int(found[f'redproxy_host_{name}_total{{host="{host}"}}']) for host in self.names)

        return {"accepted": int(found["redproxy_commands_accepted_total"]), "handed": int(found["redproxy_replies_handed_total"]),
                "sent": of_hosts("parts_sent"), "answered": of_hosts("replies"), "lost": of_hosts("parts_lost")}

    def settled(self):
        """These counts, once they don't change any more."""
        limit, before = time.monotonic() + PATIENCE, None
        while (found := self.sums()) != before:
            assert time.monotonic() < limit, f"the counts don't rest: {before}, {found}"
            before = found
            time.sleep(0.3)
        return found

    def open_files(self):
        """The number of its open files."""
        return len(os.listdir(f"/proc/{self.process.pid}/fd"))


class Ejections:
    """The hosts that are ejected, by the proxy's lines and numbers, and the rule by which they return.

    An ejection lasts `base_ms` times a multiplier, which isn't greater than the number of the host's ejections, and it ends at a
    sweep. A host that still fails is ejected anew, so its time counts from the end of its fault. Numbers tell too, since a
    host may come and go between two looks.
    """

    def __init__(self, proxy, troubles, settings):
        """The troubles have the hosts' order, and know when a host is well."""
        self.names, self.troubles = proxy.names, troubles
        self.base, self.most, self.interval = [
            settings.get(name, DEFAULTS[name]) / 1_000 for name in ("base_ms", "max_ms", "interval_ms")]
        self.lines, self.rest = open(proxy.errors.name, encoding="utf-8"), ""
        # The moment of each present ejection, each host's ejections by lines, and all by numbers; the longest, in seconds.
        self.out, self.lined, self.total, self.longest = {}, Counter(), 0, 0

    def look(self, found):
        """Takes the lines that came, and numbers of the page, which are newer."""
        now = time.monotonic()
        *lines, self.rest = (self.rest + self.lines.read()).split("\n")
        for line in lines:
            host, _, event = line.removeprefix("redproxy: host ").partition(" ")
            if event.startswith("is put aside"):
                self.lined[host] += 1
                self.out.setdefault(host, now)
            elif event == "is back":
                self.is_back(host, now)
        self.total = int(found["redproxy_ejections_total"])
        for host in self.names:
            if found[f'redproxy_host_out{{host="{host}"}}']:
                self.out.setdefault(host, now)
            else:
                self.is_back(host, now)

    def is_back(self, host, now):
        """An ejection is over, if there was one."""
        since = self.out.pop(host, None)
        if since is not None:
            self.longest = max(self.longest, now - since)

    def longest_due(self, host):
        """The seconds after which a host has to be back. (An ejection between two looks has no line, and may be any host's.)"""
        unseen = max(0, self.total - sum(self.lined.values()))
        return min(self.base * max(1, self.lined[host] + unseen), self.most) + self.interval + SLACK

    def late(self):
        """A text for each host that should be back."""
        now = time.monotonic()
        for number, host in enumerate(self.names):
            since, well, due = self.out.get(host), self.troubles[number].well_since, self.longest_due(host)
            if since is not None and well is not None and now > max(since, well) + due:
                yield f"{host} is ejected for {now - since:.1f} s and well for {now - well:.1f} s, and is due after {due:.1f} s"


class Watch(threading.Thread):
    """Reads the page again and again: no counter falls, and no more answers are handed out than commands accepted."""

    def __init__(self, run, proxy, ejections):
        """It hasn't begun."""
        super().__init__(daemon=True)
        self.shared, self.proxy, self.ejections = run, proxy, ejections
        self.before, self.reads, self.slowest, self.sizes = {}, 0, 0, []
        # Whether the proxy may end, and whether this may.
        self.may_end, self.is_done = False, threading.Event()

    def run(self):
        """Looks until it is ended, or the proxy has ended as it may."""
        try:
            while not self.is_done.wait(PAUSE):
                self.look()
        except (OSError, http.client.HTTPException) as problem:
            if not self.may_end:
                self.shared.tell_wrong(f"/metrics isn't read: {problem!r}")
        except Exception:  # pylint: disable=broad-except
            self.shared.tell_wrong(traceback.format_exc())

    def look(self):
        """Reads once."""
        began = time.monotonic()
        found = self.proxy.numbers()
        self.slowest = max(self.slowest, time.monotonic() - began)
        for name, number in found.items():
            if "_total" in name or "_seconds_" in name:
                assert number >= self.before.get(name, 0), f"{name} fell from {self.before[name]} to {number}"
        accepted, handed = found["redproxy_commands_accepted_total"], found["redproxy_replies_handed_total"]
        assert accepted >= handed, f"{accepted} commands are accepted, and {handed} answers handed out"
        self.ejections.look(found)
        for late in self.ejections.late():
            self.shared.tell_wrong(late)
        if self.reads % READS == 0:
            self.sizes.append(resident_mib(self.proxy.process))
        self.before, self.reads = found, self.reads + 1

    def end(self):
        """Looks no more."""
        self.is_done.set()
        if self.ident:
            self.join(PATIENCE)

    def quarters(self):
        """The greatest resident sizes in the first quarter of the time and in the last, in MiB."""
        quarter = max(1, len(self.sizes) // 4)
        return max(self.sizes[:quarter], default=0), max(self.sizes[-quarter:], default=0)


def left_over(proxy, before, clients, hosts):
    """The threads and file numbers that the proxy has more than before, beside those for open connections of clients and links to
    hosts, and the connections that it counts beside. They may take a while to go."""
    limit = time.monotonic() + PATIENCE
    while True:
        # (the watch's visit may have one file number more)
        files = proxy.open_files() - before[1] - clients - hosts - 1
        counted = int(proxy.numbers()["redproxy_client_connections"])
        left = thread_count(proxy.process) - before[0], max(0, files), counted - clients
        if not any(left) or time.monotonic() > limit:
            return left
        time.sleep(0.1)


def faults_of_line(line, at_rest, replies, parts, left):
    """The faults of a last line. Since the counts rested, clients got a number of replies, for which hosts had to be asked a number
    of parts. Before that, clients left at most `left` commands without an answer."""
    counts = counts_in(line)
    since = {name: counts[name] - at_rest[name] for name in SUMS}
    wanted = {"accepted": replies, "handed": replies, "sent": parts, "answered": parts, "lost": 0}
    if since != wanted:
        yield f"the last line is out of balance: since the rest it has {since}, and clients make it {wanted}"
    if not 0 <= counts["accepted"] - counts["handed"] <= left:
        yield f"{counts['accepted'] - counts['handed']} accepted commands are unanswered, and clients left at most {left}: {line}"
