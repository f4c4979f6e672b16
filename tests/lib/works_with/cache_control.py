"""CacheControl: answers to requests, kept by a client of HTTP."""
from told import PORT, feature

import redis
from cachecontrol.caches import RedisCache

cache = RedisCache(redis.Redis(port=PORT))
feature("set, get, delete", lambda: (cache.set("k", b"v"), cache.get("k"), cache.delete("k"), cache.get("k")), (None, b"v", None, None))
