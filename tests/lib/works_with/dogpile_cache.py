"""dogpile.cache: regions as they are, with an expiry at the server, and with a lock that processes share."""
from told import PORT, feature, load, plain

from dogpile.cache import make_region
from dogpile.cache.api import NO_VALUE
from redis.lock import Lock


def region_of(**arguments):
    return make_region().configure("dogpile.cache.redis", arguments={"host": "127.0.0.1", "port": PORT, **arguments})


region, expiring, locking, other = region_of(), region_of(redis_expiration_time=60), region_of(distributed_lock=True), region_of(db=1)
feature("set, get", lambda: (region.set("a", [1]), region.get("a"))[1], [1])
feature("set_multi, get_multi", lambda: (region.set_multi({"b": 2, "c": 3}), region.get_multi(["b", "c", "none"]))[1], [2, 3, NO_VALUE])
feature("delete_multi", lambda: (region.delete_multi(["b", "c"]), region.get("b"))[1], NO_VALUE)
feature("get_or_create", lambda: (region.get_or_create("d", lambda: 4), region.get_or_create("d", lambda: 5)), (4, 4))
feature("set, get with expiry", lambda: (expiring.set("e", 5), expiring.get("e"), plain().ttl("e") > 50), (None, 5, True))
feature("set_multi with expiry", lambda: (expiring.set_multi({"f": 6, "g": 7}), expiring.get_multi(["f", "g"]))[1], [6, 7],
        left=lambda: plain().exists("f", "g"))
feature("distributed lock", lambda: locking.get_or_create("h", lambda: 8), 8, left=lambda: plain().exists("_lockh"))
plain().delete("_lockh", "h")
load(Lock.LUA_RELEASE_SCRIPT)
feature("distributed lock, script loaded", lambda: (locking.get_or_create("h", lambda: 8), plain().exists("_lockh")), (8, 0))
feature("database 1", lambda: (other.set("i", 9), other.get("i"))[1], 9, left=lambda: plain().exists("i"))
