"""The results that the parts of a soak have in common, and the words by which it leads its programs of clients.

Clients that compute much are programs of their own, so that none waits for another one's interpreter. Such a program gets words on
its standard input:

- `rest`: end all pipelines, print the counts, and wait;
- `well`: go on, and take no error any more, since all hosts are well;
- `drain`: go on, until the proxy ends the connections;
- `end`: end all pipelines, print the counts, and end.

It begins as if it had got `trouble`. It prints faults and counts as lines of JSON.
"""
import json
import os
import subprocess
import sys
import threading
import time
from collections import Counter

from harness import STARTED, STARTING, TOP

# The longest wait for a reply, in seconds: a host may take 5 s to be dialled, and 5 s to reply.
WAIT = 60


class Run:
    """The results of a soak."""

    def __init__(self, seed):
        """Nothing has happened."""
        self.seed, self.began, self.lock = seed, time.monotonic(), threading.Lock()
        # Faults of the proxy, events with their times, and counts by name.
        self.wrong, self.notes, self.counts = [], [], Counter()
        # Set once the hosts' faults are to end.
        self.is_over = threading.Event()
        # True while a stage ends all its processes: then an ended connection is no fault.
        self.is_left = False

    def tell_wrong(self, fault):
        """Adds a fault of the proxy, which ends the soak."""
        with self.lock:
            if not self.is_left:
                self.wrong.append(fault)
        self.is_over.set()

    def note(self, event):
        """Adds an event."""
        with self.lock:
            self.notes.append(f"{time.monotonic() - self.began:9.3f} {event}")

    def add(self, **counts):
        """Adds to counts."""
        with self.lock:
            self.counts.update(counts)


class Program:
    """A program of clients, as the soak sees it."""

    def __init__(self, run, name, *words, python=sys.executable):
        """Starts a script of this folder."""
        self.run, self.name, self.reports, self.changed = run, name, {}, threading.Condition()
        # The last word that it goes by, and whether it may tell more.
        self.word, self.tells = None, True
        with STARTING:
            self.process = subprocess.Popen([python, os.path.join(TOP, "tests", "lib", name), *map(str, words)], text=True,
                                            stdin=subprocess.PIPE, stdout=subprocess.PIPE)
        STARTED.append(self.process)
        threading.Thread(target=self.listen, daemon=True).start()

    def listen(self):
        """Takes its lines."""
        for line in self.process.stdout:
            told = json.loads(line)
            if "wrong" in told:
                self.run.tell_wrong(f"{self.name}: {told['wrong']}")
                continue
            with self.changed:
                if "goes_by" in told:
                    self.word = told["goes_by"]
                else:
                    self.reports[told["at"]] = Counter(told["counts"])
                self.changed.notify_all()
        with self.changed:
            self.tells = False
            self.changed.notify_all()

    def say(self, word):
        """Gives it a word, and waits until it goes by that: what follows may be right by this word alone."""
        try:
            print(word, file=self.process.stdin, flush=True)
        except BrokenPipeError:
            self.run.tell_wrong(f"{self.name} ended with status {self.process.wait()}")
            return
        with self.changed:
            if not self.changed.wait_for(lambda: self.word == word or not self.tells, WAIT):
                self.run.tell_wrong(f"{self.name} doesn't go by '{word}' within {WAIT} s")

    def counts_at(self, word):
        """Its counts at a word."""
        with self.changed:
            if not self.changed.wait_for(lambda: word in self.reports, 2 * WAIT):
                self.run.tell_wrong(f"{self.name} didn't come to '{word}' within {2 * WAIT} s")
            return self.reports.get(word, Counter())

    def ended(self):
        """Its counts once it has ended, and ended well."""
        counts = self.counts_at("end")
        if self.process.wait(WAIT) != 0:
            self.run.tell_wrong(f"{self.name} ended with status {self.process.returncode}")
        return counts


class Led:
    """A program of clients, as it sees itself: the last word that it got, and its counts."""

    def __init__(self, word="trouble"):
        """Takes words from now on."""
        self.word, self.counts, self.changed = word, Counter(), threading.Condition()
        # The number of its threads, and of those that rest.
        self.members, self.resting = 0, 0
        threading.Thread(target=self.listen, daemon=True).start()

    def listen(self):
        """Takes words until the soak itself is gone."""
        for line in sys.stdin:
            with self.changed:
                self.word = line.strip()
                print(json.dumps({"goes_by": self.word}), flush=True)
                self.changed.notify_all()
        os._exit(1)

    def add(self, counts):
        """Adds to counts."""
        with self.changed:
            self.counts.update(counts)

    def say(self, **told):
        """Prints a line."""
        with self.changed:
            print(json.dumps(told), flush=True)

    def tell_wrong(self, fault):
        """Prints a fault of the proxy."""
        self.say(wrong=fault)

    def rest(self):
        """One of the threads rests. The last one prints the counts."""
        with self.changed:
            self.resting += 1
            if self.resting == self.members:
                self.say(at="rest", counts=self.counts)
            self.changed.wait_for(lambda: self.word != "rest")
            self.resting -= 1

    def lead(self, members):
        """Starts threads, waits until all have ended, prints the counts and ends the program."""
        self.members = len(members)
        for member in members:
            member.start()
        for member in members:
            member.join()
        self.say(at="end", counts=self.counts)
        # (the thread that waits for a word could keep an ordinary end)
        os._exit(0)
