"""The applications that tests/works_with runs, what is due of each feature of theirs, and OPERATING's rows of them.

What is due is written by what the proxy documents: a command of its table passes, another one is refused by its name, and the names of
`--close-behind` end the connection.
"""
import dataclasses


@dataclasses.dataclass
class Due:
    """What is due of a feature: 'pass', 'fail', or 'half' where it fails and something of it is done. Of an error one of these texts is
    due, in any case, since a command's name is told as it came. `why` and `how` are what the table says of the error and of what is done."""
    kind: str
    why: str = ""
    texts: tuple = ()
    how: str = "done all the same"

    def is_met(self, kind, error):
        return kind == self.kind and (kind == "pass" or any(text.lower() in error.lower() for text in self.texts))


PASS = Due("pass")


def refused(name, kind="fail", how=Due.how):
    """The named error of a command."""
    return Due(kind, name, (f"unsupported command '{name}'",), how)


def fails(why, text, kind="fail"):
    """Another error, by its text."""
    return Due(kind, why, (text,))


def cut(name):
    """The named error of a command, or the end of the connection behind it."""
    return Due("fail", name, (f"unsupported command '{name}'", "Connection closed by server", "Connection lost", "went away",
                              "Server closed the connection"))


# A transaction that is carried out though it fails, but for `--close-behind`: the error is of its first or its last command. And one
# that isn't carried out in either case.
NAMED = ("unsupported command 'MULTI'", "unsupported command 'EXEC'")
TRANSACTION = (Due("half", "MULTI", NAMED), cut("MULTI"))
NO_TRANSACTION = (Due("fail", "MULTI", NAMED), cut("MULTI"))


def passing(*names):
    """Features that pass."""
    return {name: PASS for name in names}


# Each application: its name, its package, its script, and what is due of each feature; a pair is of the runs without
# `--close-behind` and with it.
APPLICATIONS = (
    ("ccache", "ccache", "ccache.sh", passing("remote storage")),
    ("webdis", "webdis", "webdis.py", {**passing("commands of keys"), "messages": refused("PUBLISH")}),
    ("rsyslog omhiredis", "rsyslog-hiredis", "rsyslog.py", passing("lists", "commands")),
    ("phpredis sessions", "php-redis", "php_sessions.php", passing("sessions", "sessions with locks")),
    ("django-redis-sessions", "python3-django-redis-sessions", "django_redis_sessions.py", passing("sessions")),
    ("Flask-Session", "python3-flask-session", "flask_sessions.py", passing("sessions")),
    ("redis-rack", "ruby-redis-rack", "redis_rack.rb", passing("sessions", "sessions in a namespace")),
    ("requests-cache", "python3-requests-cache", "requests_caching.py", {**passing("requests"), "clear": refused("KEYS")}),
    ("CacheControl", "python3-cachecontrol", "cache_control.py", passing("set, get, delete")),
    ("rollout", "ruby-rollout", "rollout_flags.rb", passing("flags")),
    ("CHI", "libchi-driver-redis-perl", "chi_cache.pl", passing("set, get", "get_multi_hashref", "remove", "get_keys", "clear")),
    ("redis-namespace", "ruby-redis-namespace", "redis_namespace.rb", {**passing("commands of keys"), "multi": TRANSACTION}),
    ("redis-activesupport", "ruby-redis-activesupport", "redis_activesupport.rb",
     {**passing("write, read", "fetch", "read_multi", "increment", "delete"), "clear": refused("FLUSHDB")}),
    ("Rails RedisCacheStore", "ruby-activesupport", "rails_cache.rb",
     {**passing("write, read", "fetch", "write_multi, read_multi", "fetch_multi", "increment", "delete, delete_multi"),
      "delete_matched": refused("SCAN"), "clear": refused("FLUSHDB")}),
    ("Flask-Caching", "python3-flask-caching", "flask_cache.py",
     {**passing("set, get", "add", "set_many, get_many", "delete_many", "memoize"), "clear": refused("KEYS"),
      "database 1": refused("SELECT")}),
    ("Symfony cache", "php-symfony-cache", "symfony_cache.php",
     {**passing("get, save", "getItems", "saveDeferred, commit", "deleteItems", "save, get after clear"),
      "clear": fails("returns false", "false is not true"), "database 1": refused("SELECT")}),
    ("Laravel cache", "php-illuminate-cache", "laravel_cache.php",
     {**passing("put, get", "many", "add", "increment", "lock", "forget"), "putMany": refused("MULTI"), "flush": refused("FLUSHDB"),
      "database 0, its default": refused("SELECT")}),
    ("django-redis", "python3-django-redis", "django_cache.py",
     {**passing("set, get", "add", "get_many", "delete_many", "incr", "touch, ttl", "get_or_set", "sessions", "lock, script loaded"),
      "set_many": TRANSACTION, "keys": refused("KEYS"), "delete_pattern": refused("SCAN"), "clear": refused("FLUSHDB"),
      "lock": refused("SCRIPT", "half", "stays locked"), "database 1": refused("SELECT")}),
    ("dogpile.cache", "python3-dogpile.cache", "dogpile_cache.py",
     {**passing("set, get", "set_multi, get_multi", "delete_multi", "get_or_create", "set, get with expiry",
                "distributed lock, script loaded"),
      "set_multi with expiry": TRANSACTION, "distributed lock": refused("SCRIPT", "half", "stays locked"),
      "database 1": refused("SELECT")}),
    ("limits", "python3-limits", "rate_limits.py",
     {**passing("elastic window", "fixed window, script loaded", "moving window, script loaded"), "fixed window": refused("SCRIPT"),
      "moving window": refused("SCRIPT")}),
    ("Flask-Limiter", "python3-flask-limiter", "flask_limits.py",
     {**passing("elastic window", "fixed window, script loaded", "moving window, script loaded"), "fixed window": refused("SCRIPT"),
      "moving window": refused("SCRIPT")}),
    ("Apache::Session::Browseable", "libapache-session-browseable-perl", "apache_sessions.pl",
     {**passing("sessions"), "list of sessions": refused("KEYS")}),
    ("Sidekiq", "ruby-sidekiq", "sidekiq_jobs.rb", {**passing("push", "schedule"), "worker": refused("INFO")}),
    ("django-cacheops", "python3-django-cacheops", "django_cacheops.py", {**passing("get, set"), "queries": refused("SCRIPT")}),
    ("tooz", "python3-tooz", "tooz_locks.py", {"start, locks": refused("INFO")}),
    ("Beaker", "python3-beaker", "beaker_cache.py", {"get": refused("WATCH")}),
    ("Channels", "python3-channels-redis", "channels_layer.py", {**passing("send"), "receive": refused("BZPOPMIN")}),
    ("RQ", "python3-rq", "rq_jobs.py", {"enqueue": TRANSACTION, "worker": NO_TRANSACTION}),
    ("Celery", "python3-celery", "celery_tasks.py", {"send": NO_TRANSACTION, "worker": refused("SCRIPT")}),
    ("redis_exporter", "prometheus-redis-exporter", "exporter.py", {"numbers": refused("INFO")}),
    ("redis-cli, redis-benchmark", "redis-tools", "redis_tools.py",
     {**passing("commands of keys", "benchmark -t get,set"), "benchmark": fails("PING_INLINE", "downstream protocol error"),
      "--scan": refused("SCAN"), "--pipe": fails("protocol error at the end", "downstream protocol error", "half"),
      "-n 1": (refused("SELECT", "half"), cut("SELECT"))}),
)


RUNS = ("at one server", "without --close-behind", "with --close-behind")


def due_of(due, place):
    """What is due of a feature in the run at this place of RUNS. At one server each passes."""
    if place == 0:
        return PASS
    return due[place - 1] if isinstance(due, tuple) else due


def as_due(features):
    """The lines that are due of each of RUNS: kind, feature and error."""
    return [[(due_of(due, place).kind, name, "".join(due_of(due, place).texts[:1])) for name, due in features.items()]
            for place in range(len(RUNS))]


def failed_of(features, lines, place):
    """The features that failed in a run, below what they failed by; each that was carried out says so."""
    found = {}
    for kind, name, error in lines:
        due = due_of(features[name], place)
        if kind != "pass":
            found.setdefault(due.why if due.is_met(kind, error) else error, []).append(name + (f" ({due.how})" if kind == "half" else ""))
    return found


def cells_of(features, found):
    """The cells of OPERATING's row behind its first one, by the lines of each of RUNS."""
    _, without, behind = found
    passed = "; ".join(name for kind, name, _ in without if kind == "pass")
    failed = "; ".join(f"{why}: {', '.join(names)}" for why, names in failed_of(features, without, 1).items())
    other = "; ".join(f"{name}: {'passes' if kind == 'pass' else 'nothing is done' if kind == 'fail' else 'is done'}"
                      for (kind, name, _), (before, _, _) in zip(behind, without) if kind != before)
    return [passed or "nothing", failed or "-", other or "-"]
