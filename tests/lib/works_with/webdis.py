"""webdis: commands over HTTP."""
import json
import os
import tempfile
import urllib.request

from told import PORT, Program, awaited, feature, plain

from harness import free_port

port = free_port()
SETTINGS = {"redis_host": "127.0.0.1", "redis_port": PORT, "http_host": "127.0.0.1", "http_port": port, "threads": 1, "pool_size": 2,
            "daemonize": False, "verbosity": 0, "logfile": "/dev/null"}


def answer(path):
    """What it answers, as text."""
    try:
        with urllib.request.urlopen(f"http://127.0.0.1:{port}/{path}", timeout=5) as found:
            return found.read().decode()
    except OSError as problem:
        return str(problem)


def checked(text):
    """An answer that tells of no error."""
    if "[false," in text:
        raise RuntimeError(text)
    return text


with tempfile.TemporaryDirectory() as room:
    file = os.path.join(room, "webdis.json")
    with open(file, "w", encoding="utf-8") as out:
        json.dump(SETTINGS, out)
    with Program("webdis", file):
        awaited(lambda: answer("PING.txt"), "+PONG")
        feature("commands of keys", lambda: (answer("SET/key/value.txt"), answer("GET/key.txt"), plain().get("key")),
                ("+OK", "value", b"value"))
        feature("messages", lambda: checked(answer("PUBLISH/channel/text")), '{"PUBLISH":0}')
