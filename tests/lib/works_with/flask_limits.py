"""Flask-Limiter: how often a page may be asked for, by each strategy, before and after its scripts are loaded at the hosts."""
from told import PORT, feature, load

from flask import Flask
from flask_limiter import Limiter
from flask_limiter.util import get_remote_address
from limits.storage.redis import RedisStorage


def statuses(strategy, prefix):
    app = Flask(prefix)
    app.testing = True
    Limiter(get_remote_address, app=app, default_limits=["2/hour"], storage_uri=f"redis://127.0.0.1:{PORT}", strategy=strategy,
            key_prefix=prefix)
    app.route("/")(lambda: "x")
    visitor = app.test_client()
    return [visitor.get("/").status_code for _ in range(3)]


STRATEGIES = {"elastic window": "fixed-window-elastic-expiry", "fixed window": "fixed-window", "moving window": "moving-window"}
for name, word in STRATEGIES.items():
    feature(name, lambda: statuses(word, "before-" + word), [200, 200, 429])
load(RedisStorage.SCRIPT_INCR_EXPIRE, RedisStorage.SCRIPT_MOVING_WINDOW, RedisStorage.SCRIPT_ACQUIRE_MOVING_WINDOW)
for name, word in STRATEGIES.items():
    if name != "elastic window":
        feature(f"{name}, script loaded", lambda: statuses(word, "after-" + word), [200, 200, 429])
