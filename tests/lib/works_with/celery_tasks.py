"""Celery: a task is sent, and a worker looks for one. This file is the worker's application too."""
import os
import re
import sys

import celery

PORT = os.environ.get("BROKER_PORT") or sys.argv[1]
app = celery.Celery("celery_tasks", broker=f"redis://127.0.0.1:{PORT}", backend=f"redis://127.0.0.1:{PORT}")
app.conf.update(broker_connection_retry=False, broker_transport_options={"max_retries": 1})


@app.task
def add(one, other):
    return one + other


if __name__ == "__main__":
    from told import Program, awaited, feature, plain

    def sent():
        add.apply_async((1, 2), retry=False)
        return plain().llen("celery")

    def worked():
        """The results that a worker tells of."""
        words = ("-m", "celery", "-A", "celery_tasks", "worker", "--concurrency", "1", "--pool", "solo", "--loglevel", "info")
        with Program("/usr/bin/python3", *words, env={**os.environ, "BROKER_PORT": PORT}, cwd=os.path.dirname(__file__)) as worker:
            awaited(lambda: worker.has_ended() or "succeeded" in worker.said(), True)
            said = worker.said()
        errors = [line for line in said.splitlines() if "Error: " in line or "CRITICAL" in line]
        if errors:
            raise RuntimeError(errors[-1].strip())
        return re.findall(r"succeeded in \S+: (\d+)", said)

    feature("send", sent, 1, left=lambda: plain().llen("celery"))
    feature("worker", worked, ["3"])
