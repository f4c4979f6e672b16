"""Flask-Caching: values, memoized functions, and what clears them."""
from told import PORT, feature, plain

from flask import Flask
from flask_caching import Cache

app = Flask("caches")
app.app_context().push()


def cache_at(database=""):
    return Cache(app, config={"CACHE_TYPE": "RedisCache", "CACHE_REDIS_URL": f"redis://127.0.0.1:{PORT}{database}"})


cache, other = cache_at(), cache_at("/1")
calls = []


@cache.memoize(30)
def doubled(number):
    calls.append(number)
    return number * 2


feature("set, get", lambda: (cache.set("a", [1], 30), cache.get("a")), (True, [1]))
feature("add", lambda: (cache.add("a", 2), cache.add("b", 2), cache.get("b")), (False, True, 2))
feature("set_many, get_many", lambda: (cache.set_many({"c": 3, "d": 4}), cache.get_many("c", "d", "none"))[1], [3, 4, None],
        left=lambda: plain().exists("flask_cache_c"))
feature("delete_many", lambda: (cache.delete_many("c", "d"), cache.get_many("c", "d"))[1], [None, None])
feature("memoize", lambda: (doubled(2), doubled(2), cache.delete_memoized(doubled), doubled(2), calls), (4, 4, None, 4, [2, 2]))
feature("clear", cache.clear, True, left=lambda: cache.get("a") is None)
feature("database 1", lambda: (other.set("f", 1), other.get("f")), (True, 1), left=lambda: plain().exists("flask_cache_f"))
