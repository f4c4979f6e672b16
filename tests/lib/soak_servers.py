"""The hosts of a soak and their faults: Redis servers that are killed, frozen and started again, one behind a wire that drops
packets, and a script that lies and refuses."""
import contextlib
import random
import socket
import struct
import threading
import time

from harness import Client, Redis
from soak_drops import FAR, Dropped


class Server(Redis):
    """A Redis server on this machine."""

    FAULTS = ("killed", "frozen", "frozen", "restarted", "unlinked")
    ADDRESS = "127.0.0.1"

    def killed(self, wait, chance):
        """It ends at once. Its port refuses connections for a while."""
        self.kill()
        wait(chance.choice((0.05, 1, 5)) * chance.random())
        self.start()

    def frozen(self, wait, chance):
        """It stands still for 0.2 to 8 seconds."""
        self.stop()
        wait(chance.uniform(0.2, 8))
        self.go_on()

    def restarted(self, *_):
        """It ends in order, and begins at once."""
        with Client(self.port) as client, contextlib.suppress(EOFError, ConnectionError):
            client.ask("SHUTDOWN", "NOSAVE")
        self.process.wait()
        self.start()

    def unlinked(self, wait, chance):
        """It ends its connections, again and again."""
        with Client(self.port) as client:
            for _ in range(chance.randrange(1, 30)):
                client.ask("CLIENT", "KILL", "TYPE", "normal")
                wait(0.1 * chance.random())

    def be_well(self):
        """It is well after each fault."""


class FarServer(Dropped):
    """The server behind the wire."""

    FAULTS = ("drops_few", "drops_many", "drops_all", "frozen")
    ADDRESS = FAR
    frozen, be_well = Server.frozen, Server.be_well

    def drops_few(self, wait, chance):
        """One packet of fifty is lost."""
        self.drops(0.02, wait, chance.uniform(0.5, 5))

    def drops_many(self, wait, chance):
        """Up to half of the packets are lost."""
        self.drops(chance.uniform(0.1, 0.5), wait, chance.uniform(0.5, 5))

    def drops_all(self, wait, chance):
        """All packets are lost."""
        self.drops(1, wait, chance.uniform(0.2, 8))

    def drops(self, share, wait, seconds):
        """A share of the packets is lost for a while."""
        self.drop(share)
        wait(seconds)
        self.drop(0)


class Liar:
    """A script that answers each request with a text that bears its mark. Each fault is a mode of answering, for a while."""

    FAULTS = ("garbles", "twice", "late", "large", "drops", "holds", "too_large", "nested", "refuses", "unheard")
    ADDRESS = "127.0.0.1"

    def __init__(self):
        """It listens. Once its short queue is full, the system drops further connections without a word."""
        self.mode, self.links, self.goes = "answers", [], True
        self.listener = socket.create_server((self.ADDRESS, 0), backlog=1)
        self.port = self.listener.getsockname()[1]
        threading.Thread(target=self.listen, daemon=True).start()

    def __getattr__(self, name):
        """The function that makes a fault."""
        if name not in self.FAULTS:
            raise AttributeError(name)
        return lambda wait, chance: self.be_in(name, wait, chance.uniform(0.2, 3))

    def be_in(self, mode, wait, seconds):
        """Is in a mode for a while. One that concerns connections ends those that there are."""
        self.mode = mode
        if mode in ("refuses", "unheard"):
            self.end_links()
        wait(seconds)
        self.mode = "answers"

    def be_well(self):
        """Ends, and leaves its port to a Redis server."""
        self.mode, self.goes = "drops", False
        with contextlib.suppress(OSError):
            self.listener.shutdown(socket.SHUT_RDWR)
        self.listener.close()
        self.end_links()
        Server(self.port)

    def listen(self):
        """Takes connections, or resets them, or leaves them in the queue."""
        with contextlib.suppress(OSError):
            while self.goes:
                while self.mode == "unheard":
                    time.sleep(0.05)
                link, _ = self.listener.accept()
                if self.mode == "refuses":
                    link.setsockopt(socket.SOL_SOCKET, socket.SO_LINGER, struct.pack("ii", 1, 0))
                    link.close()
                    continue
                self.links = [one for one in self.links if one.fileno() >= 0] + [link]
                threading.Thread(target=self.serve, args=(link,), daemon=True).start()

    def end_links(self):
        """Ends all its connections."""
        for link in self.links:
            with contextlib.suppress(OSError):
                link.shutdown(socket.SHUT_RDWR)

    def serve(self, link):
        """Answers the requests of a connection until it ends, perhaps within one: its length is then no number."""
        with contextlib.suppress(OSError, ValueError), link, link.makefile("rb") as file:
            link.settimeout(60)
            while True:
                head = file.readline()
                if not head:
                    return
                words = [file.read(int(file.readline()[1:]) + 2)[:-2] for _ in range(int(head[1:]))]
                if not self.answer(link, words):
                    return

    def answer(self, link, words):
        """Answers a request by the mode. Whether the connection stays."""
        mode, own = self.mode, b"lie of " + words[1]
        reply = b"$%d\r\n%s\r\n" % (len(own), own)
        if mode == "garbles":
            # (the fault is behind the text, so that no later bytes make a value of it that has no mark)
            link.sendall(reply[:-2] + b"?\n")
        elif mode == "twice":
            link.sendall(reply * 2)
        elif mode == "late":
            time.sleep(0.7)
            link.sendall(reply)
        elif mode == "large":
            link.sendall(b"$8000000\r\n" + b"lie " * 2_000_000 + b"\r\n")
        elif mode == "too_large":
            link.sendall(b"*20\r\n" + (b"$1000000\r\n" + b"lie " * 250_000 + b"\r\n") * 20)
        elif mode == "nested":
            link.sendall(b"*1\r\n" * 9 + b":1\r\n")
        elif mode == "drops":
            link.sendall(reply[:9])
            return False
        elif mode not in ("holds", "unheard"):
            link.sendall(reply)
        return True


class Trouble(threading.Thread):
    """Harms one host again and again, until faults are over. The seed alone gives the faults and their order."""

    def __init__(self, run, number, host):
        """The host is well till now."""
        super().__init__(daemon=True)
        self.shared, self.host, self.name_of_host = run, host, name_of(host)
        self.chance = random.Random(f"{run.seed}-host-{number}")
        # The moment from which on the host is well, or None in a fault.
        self.well_since = time.monotonic()

    def run(self):
        """One fault after the other, with pauses."""
        try:
            self.wait(3 * self.chance.random())
            while not self.shared.is_over.is_set():
                self.harm(self.chance.choice(self.host.FAULTS))
                self.wait(self.chance.choice((0.1, 1, 6)) * self.chance.random())
        except Exception as problem:  # pylint: disable=broad-except
            self.shared.tell_wrong(f"the soak itself fails at {self.name_of_host}: {problem!r}")

    def wait(self, seconds):
        """Waits, but not longer than faults last."""
        self.shared.is_over.wait(seconds)

    def harm(self, fault):
        """Makes one fault, and its end."""
        self.well_since = None
        self.shared.note(f"{self.name_of_host} {fault}")
        getattr(self.host, fault)(self.wait, self.chance)
        self.shared.note(f"{self.name_of_host} is well")
        self.shared.add(faults=1)
        self.well_since = time.monotonic()


def name_of(host):
    """The text that the settings have for a host."""
    return f"{host.ADDRESS}:{host.port}"


def hosts_of(run, can_drop):
    """Four Redis servers, the script that lies, and the server behind the wire if there can be one."""
    return [*[Server() for _ in range(4)], Liar(), *([FarServer(run.seed)] if can_drop else [])]
