"""A Redis server behind a wire that drops packets, in network namespaces of the soak's own.

    tests/lib/soak_drops.py SEED       (the wire; tests/soak starts it in a namespace of its own)

The soak runs in one namespace and the server in another. The wire is a third one between them, whose kernel forwards nothing. This
program passes the packets on, but for a share that its standard input names. All devices are gone with the processes. It needs
root, `ip`, `unshare` and `nsenter`, and of the kernel only pairs of veth devices.
"""
import contextlib
import os
import random
import select
import shutil
import socket
import subprocess
import sys
import time

sys.dont_write_bytecode = True
# pylint: disable=wrong-import-position
from harness import PATIENCE, STARTED, STARTING, TOP, Redis, start

# The environment's mark of a process that is in the soak's namespace.
MARK = "REDPROXY_SOAK_IS_APART"
ENDS = ("wire0", "wire1")
NEAR, FAR, PORT = "10.77.0.1/30", "10.77.0.2", 6_379
# Numbers of <linux/if_packet.h> and <asm/socket.h>. With them a packet comes with the tasks that are left to a device (checksums,
# segments), no sent packet comes back, and a long queue holds packets until the program takes them.
SOL_PACKET, PACKET_VNET_HDR, PACKET_IGNORE_OUTGOING, SO_RCVBUFFORCE = 263, 15, 23, 33
ALL_PROTOCOLS, QUEUE, ROOM = 3, 64 << 20, 1 << 17


def lacks():
    """The thing without which there is no wire, or an empty text."""
    if os.geteuid() != 0:
        return "root"
    for word in ("ip", "unshare", "nsenter"):
        if not shutil.which(word):
            return word
    tried = subprocess.run(["unshare", "--net", "ip", "link", "add", "near", "type", "veth", "peer", "name", "far"], check=False,
                           capture_output=True)
    return "" if tried.returncode == 0 else "network namespaces with veth devices"


def go_apart():
    """Begins the program anew in a network namespace, unless it is there. The thing that it lacks for that, or an empty text."""
    if MARK in os.environ:
        subprocess.run(["ip", "link", "set", "lo", "up"], check=True)
        return ""
    lacking = lacks()
    if not lacking:
        os.execvpe("unshare", ["unshare", "--net", sys.executable, *sys.argv], {**os.environ, MARK: "1"})
    return lacking


def namespace_of(pid):
    """The name of a process's network namespace."""
    return os.readlink(f"/proc/{pid}/ns/net")


def start_apart(words, **rest):
    """Starts a program in a namespace of its own, and waits until it is there."""
    with STARTING:
        process = subprocess.Popen(["unshare", "--net", *words], **rest)
    STARTED.append(process)
    limit = time.monotonic() + PATIENCE
    while namespace_of(process.pid) == namespace_of("self"):
        assert time.monotonic() < limit, "there is no namespace"
        time.sleep(0.01)
    return process


def inside(process, *words):
    """A command line that runs in the namespace of a process."""
    return ["nsenter", f"--net=/proc/{process.pid}/ns/net", *words]


class Dropped(Redis):
    """The server behind the wire."""

    def __init__(self, seed):
        """Makes the namespaces, the wire and the server."""
        self.keeper = start_apart(["sleep", "infinity"], stdin=subprocess.DEVNULL)
        # (a wire waits for no processor, however many programs want one)
        words = ["nice", "-n", "-20", sys.executable, os.path.join(TOP, "tests", "lib", "soak_drops.py"), str(seed)]
        self.wire = start_apart(words, stdin=subprocess.PIPE, stdout=subprocess.PIPE, text=True)
        self.connect()
        assert self.wire.stdout.readline() == "passes\n", "the wire passes nothing on"
        super().__init__(PORT)

    def connect(self):
        """Makes both pairs of devices, and gives the outer ends an address."""
        for words in (
                ["ip", "link", "add", "near", "type", "veth", "peer", "name", ENDS[0], "netns", str(self.wire.pid)],
                inside(self.wire, "ip", "link", "add", ENDS[1], "type", "veth", "peer", "name", "far", "netns",
                       str(self.keeper.pid)),
                ["ip", "address", "add", NEAR, "dev", "near"],
                ["ip", "link", "set", "near", "up"],
                inside(self.keeper, "ip", "address", "add", f"{FAR}/30", "dev", "far"),
                inside(self.keeper, "ip", "link", "set", "far", "up"),
                *[inside(self.wire, "ip", "link", "set", end, "up") for end in ENDS]):
            subprocess.run(words, check=True)

    def start(self):
        """Starts the server, and waits until it listens."""
        words = ["redis-server", "--port", str(PORT), "--bind", FAR, "--protected-mode", "no", "--save", "", "--appendonly", "no"]
        self.process = start(inside(self.keeper, *words), stdout=subprocess.DEVNULL, stderr=subprocess.DEVNULL)
        limit = time.monotonic() + PATIENCE
        while True:
            with contextlib.suppress(OSError):
                socket.create_connection((FAR, PORT), 1).close()
                return
            assert time.monotonic() < limit, "nobody listens behind the wire"
            time.sleep(0.05)

    def drop(self, share):
        """From now on the wire drops this share of the packets, from 0 to 1."""
        print(share, file=self.wire.stdin, flush=True)


# ---- the wire ----

def end_of_wire(name):
    """A socket for all packets of a device, once the device is there."""
    limit = time.monotonic() + PATIENCE
    taken = socket.socket(socket.AF_PACKET, socket.SOCK_RAW, 0)
    for option in (PACKET_VNET_HDR, PACKET_IGNORE_OUTGOING):
        taken.setsockopt(SOL_PACKET, option, 1)
    taken.setsockopt(socket.SOL_SOCKET, SO_RCVBUFFORCE, QUEUE)
    while True:
        with contextlib.suppress(OSError):
            taken.bind((name, ALL_PROTOCOLS))
            return taken
        assert time.monotonic() < limit, f"there is no {name}"
        time.sleep(0.01)


def pass_on(one, other, chance):
    """Passes packets on until its input ends."""
    pairs, share, poll = {one.fileno(): (one, other), other.fileno(): (other, one)}, 0.0, select.poll()
    for number in (*pairs, sys.stdin.fileno()):
        poll.register(number, select.POLLIN)
    while True:
        for number, _ in poll.poll():
            if number in pairs:
                came, goes = pairs[number]
                # (a device that isn't up yet refuses)
                with contextlib.suppress(OSError):
                    packet = came.recv(ROOM)
                    if chance.random() >= share:
                        goes.send(packet)
                continue
            # (not line by line, since a buffer could keep the last one)
            lines = os.read(number, ROOM).split()
            if not lines:
                return
            share = float(lines[-1])


def main():
    """Is the wire."""
    ends = [end_of_wire(name) for name in ENDS]
    print("passes", flush=True)
    pass_on(*ends, random.Random(sys.argv[1]))


if __name__ == "__main__":
    main()
