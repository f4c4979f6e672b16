"""Prometheus's exporter for Redis, with the proxy as its server."""
import urllib.request

from told import PORT, Program, awaited, feature

from harness import free_port


def up():
    """Whether it finds the server, else what it tells and says of it."""
    port = free_port()
    words = ("prometheus-redis-exporter", "-redis.addr", f"redis://127.0.0.1:{PORT}", "-web.listen-address", f"127.0.0.1:{port}")
    with Program(*words) as exporter:
        def page():
            try:
                with urllib.request.urlopen(f"http://127.0.0.1:{port}/metrics", timeout=5) as answer:
                    return answer.read().decode()
            except OSError:
                return ""
        awaited(lambda: bool(page()), True)
        lines = page().splitlines()
        if "redis_up 1" not in lines:
            raise RuntimeError("; ".join(line for line in lines if line.startswith("redis_exporter_last_scrape_error{")) + exporter.said())
    return "redis_up 1"


feature("numbers", up, "redis_up 1")
