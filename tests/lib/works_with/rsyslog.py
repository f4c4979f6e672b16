"""rsyslog's omhiredis: lines of a log as members of a list, and as values of a key."""
import os
import socket
import tempfile

from told import PORT, Program, awaited, feature, plain

from harness import free_port

SETTINGS = """
module(load="imtcp")
module(load="omhiredis")
input(type="imtcp" port="{inlet}" address="127.0.0.1")
template(name="line" type="string" string="%msg:2:$%")
template(name="set" type="string" string="SET log:last %msg:2:$%")
action(type="omhiredis" server="127.0.0.1" serverport="{port}" mode="{mode}" {rest})
syslog.* stop
*.* action(type="omfile" file="{room}/told")
"""


def logged(rest, mode, look, wanted):
    """What is there once a line was logged."""
    with tempfile.TemporaryDirectory() as room:
        inlet, file = free_port(), os.path.join(room, "rsyslog.conf")
        with open(file, "w", encoding="utf-8") as out:
            out.write(SETTINGS.format(inlet=inlet, port=PORT, mode=mode, rest=rest, room=room))
        with Program("rsyslogd", "-n", "-f", file, "-i", os.path.join(room, "pid")):
            def told():
                try:
                    with socket.create_connection(("127.0.0.1", inlet), 5) as line:
                        line.sendall(b"<13>Nov 30 00:00:00 host tag: word\n")
                    return True
                except OSError:
                    return False
            awaited(told, True)
            return awaited(look, wanted, 5)


feature("lists", lambda: logged('template="line" key="log"', "queue", lambda: plain().lrange("log", 0, -1), [b"word"]), [b"word"])
feature("commands", lambda: logged('template="set"', "template", lambda: plain().get("log:last"), b"word"), b"word")
