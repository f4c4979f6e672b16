"""django-cacheops: the results of Django's queries."""
from told import PORT, feature, plain

import django
from django.conf import settings

settings.configure(SECRET_KEY="x", DATABASES={"default": {"ENGINE": "django.db.backends.sqlite3", "NAME": ":memory:"}},
                   INSTALLED_APPS=["django.contrib.contenttypes", "django.contrib.auth", "cacheops"],
                   CACHEOPS_REDIS=f"redis://127.0.0.1:{PORT}", CACHEOPS={"auth.*": {"ops": "all", "timeout": 60}})
django.setup()
# pylint: disable=wrong-import-position
from cacheops import cache
from django.contrib.auth.models import User
from django.core.management import call_command


def queries():
    call_command("migrate", verbosity=0)
    User.objects.create(username="a")
    return [len(User.objects.filter(username="a").cache()) for _ in range(2)]


feature("get, set", lambda: (cache.set("key", 5, 10), cache.get("key"))[1], 5, left=lambda: plain().exists("key"))
feature("queries", queries, [1, 1])
