"""limits: rates by each strategy, before and after their scripts are loaded at the hosts."""
from told import PORT, feature, load

from limits import parse, storage, strategies
from limits.storage.redis import RedisStorage

RATE = parse("2/hour")


def hits(strategy, user):
    kept = storage.storage_from_string(f"redis://127.0.0.1:{PORT}")
    limiter = getattr(strategies, strategy)(kept)
    found = [limiter.hit(RATE, user) for _ in range(3)]
    return found, limiter.get_window_stats(RATE, user)[1]


STRATEGIES = {"elastic window": "FixedWindowElasticExpiryRateLimiter", "fixed window": "FixedWindowRateLimiter",
              "moving window": "MovingWindowRateLimiter"}
for name, word in STRATEGIES.items():
    feature(name, lambda: hits(word, "before-" + word), ([True, True, False], 0))
load(RedisStorage.SCRIPT_INCR_EXPIRE, RedisStorage.SCRIPT_MOVING_WINDOW, RedisStorage.SCRIPT_ACQUIRE_MOVING_WINDOW)
for name, word in STRATEGIES.items():
    if name != "elastic window":
        feature(f"{name}, script loaded", lambda: hits(word, "after-" + word), ([True, True, False], 0))
