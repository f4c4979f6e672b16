"""requests-cache: answers to requests, kept by a session of requests."""
import http.server
import threading

from told import PORT, feature

import redis
import requests_cache

asked = []


class Page(http.server.BaseHTTPRequestHandler):
    """A page that counts its visits."""

    def do_GET(self):  # pylint: disable=invalid-name
        asked.append(self.path)
        self.send_response(200)
        self.end_headers()
        self.wfile.write(b"x")

    def log_message(self, *_):  # pylint: disable=arguments-differ
        pass


server = http.server.HTTPServer(("127.0.0.1", 0), Page)
threading.Thread(target=server.serve_forever, daemon=True).start()
ADDRESS = f"http://127.0.0.1:{server.server_port}/"
session = requests_cache.CachedSession(backend=requests_cache.RedisCache("pages", connection=redis.Redis(port=PORT)))


def visits():
    found = [session.get(ADDRESS) for _ in range(2)]
    return [one.from_cache for one in found], [one.content for one in found], asked


feature("requests", visits, ([False, True], [b"x", b"x"], ["/"]))
feature("clear", lambda: (session.cache.clear(), session.get(ADDRESS).from_cache), (None, False),
        left=lambda: not session.get(ADDRESS).from_cache)
