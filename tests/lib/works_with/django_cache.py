"""django-redis: Django's cache, its locks, and Django's sessions in it."""
from told import PORT, feature, load, plain

import django
from django.conf import settings
from redis.lock import Lock


def cache_at(path):
    return {"BACKEND": "django_redis.cache.RedisCache", "LOCATION": f"redis://127.0.0.1:{PORT}{path}"}


settings.configure(SECRET_KEY="x", DATABASES={}, INSTALLED_APPS=["django.contrib.sessions"],
                   CACHES={"default": cache_at(""), "other": cache_at("/1")})
django.setup()
# pylint: disable=wrong-import-position
from django.contrib.sessions.backends.cache import SessionStore
from django.core.cache import cache, caches


def session():
    kept = SessionStore()
    kept["user"] = 7
    kept.save()
    again = SessionStore(session_key=kept.session_key)
    found = again["user"]
    again.cycle_key()
    moved = SessionStore(session_key=again.session_key).get("user")
    again.flush()
    return found, moved, SessionStore(session_key=again.session_key or "none").get("user")


def locked():
    with cache.lock("lock", timeout=5, blocking_timeout=1):
        return plain().exists(":1:lock")


feature("set, get", lambda: (cache.set("a", {"x": 1}, 30), cache.get("a")), (True, {"x": 1}))
feature("add", lambda: (cache.add("added", 1), cache.add("added", 2), cache.get("added")), (True, False, 1))
feature("get_many", lambda: cache.get_many(["a", "added", "none"]), {"a": {"x": 1}, "added": 1})
feature("delete_many", lambda: (cache.delete_many(["a", "added"]), cache.get("a")), (2, None))
feature("incr", lambda: (cache.set("n", 1), cache.incr("n"), cache.get("n")), (True, 2, 2))
feature("touch, ttl", lambda: (cache.touch("n", 60), cache.ttl("n") > 50), (True, True))
feature("get_or_set", lambda: (cache.get_or_set("once", 5, 10), cache.get_or_set("once", 6, 10)), (5, 5))
feature("sessions", session, (7, 7, None))
feature("set_many", lambda: (cache.set_many({"m1": 1, "m2": 2}), cache.get_many(["m1", "m2"]))[1], {"m1": 1, "m2": 2},
        left=lambda: plain().exists(":1:m1", ":1:m2"))
feature("keys", lambda: cache.keys("once"), ["once"])
feature("delete_pattern", lambda: cache.delete_pattern("onc*"), 1, left=lambda: not plain().exists(":1:once"))
feature("clear", lambda: (cache.clear(), cache.get("once")), (None, None), left=lambda: not plain().exists(":1:once"))
feature("lock", locked, 1, left=lambda: plain().exists(":1:lock"))
plain().delete(":1:lock")
load(Lock.LUA_RELEASE_SCRIPT)
feature("lock, script loaded", lambda: (locked(), plain().exists(":1:lock")), (1, 0))
feature("database 1", lambda: (caches["other"].set("d", 1), caches["other"].get("d")), (True, 1), left=lambda: plain().exists(":1:d"))
