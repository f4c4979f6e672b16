"""Beaker: a cache's values."""
from told import PORT, feature, plain

from beaker.cache import CacheManager
from beaker.util import parse_cache_config_options

OPTIONS = {"cache.type": "ext:redis", "cache.url": f"redis://127.0.0.1:{PORT}"}
cache = CacheManager(**parse_cache_config_options(OPTIONS)).get_cache("names", expire=60)
feature("get", lambda: (cache.get(key="k", createfunc=lambda: 3), cache.get(key="k", createfunc=lambda: 4)), (3, 3),
        left=lambda: plain().exists("beaker:names:k"))
