"""tooz: a coordinator with its locks."""
from told import PORT, feature

from tooz import coordination


def locked():
    member = coordination.get_coordinator(f"redis://127.0.0.1:{PORT}", b"member")
    member.start()
    lock = member.get_lock(b"lock")
    found = lock.acquire(), lock.release()
    member.stop()
    return found


feature("start, locks", locked, (True, True))
