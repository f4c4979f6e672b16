"""django-redis-sessions: Django's sessions."""
from told import PORT, feature, plain

import django
from django.conf import settings

# (its own time limit is a tenth of a second, which a machine that does much else needs)
REDIS = {"host": "127.0.0.1", "port": PORT, "prefix": "session", "socket_timeout": 10}
settings.configure(SECRET_KEY="x", DATABASES={}, SESSION_ENGINE="redis_sessions.session", SESSION_REDIS=REDIS)
django.setup()
# pylint: disable=wrong-import-position
from redis_sessions.session import SessionStore


def session():
    kept = SessionStore()
    kept["user"] = 7
    kept.save()
    found = SessionStore(session_key=kept.session_key)["user"]
    there = plain().exists(f"session:{kept.session_key}")
    kept.delete()
    return found, there, plain().exists(f"session:{kept.session_key}")


feature("sessions", session, (7, 1, 0))
