"""RQ: a job is queued, and a worker looks for one."""
from told import PORT, Program, awaited, feature, plain

import redis
from rq import Queue


def queued():
    Queue(connection=redis.Redis(port=PORT)).enqueue("time.sleep", 0)
    return plain().llen("rq:queue:default")


def worked():
    """How many jobs a worker leaves there."""
    with Program("/usr/bin/rq", "worker", "--burst", "--url", f"redis://127.0.0.1:{PORT}") as worker:
        awaited(worker.has_ended, True)
        if worker.process.returncode:
            raise RuntimeError(worker.said().strip().splitlines()[-1])
    return plain().llen("rq:queue:default")


feature("enqueue", queued, 1, left=lambda: plain().llen("rq:queue:default"))
feature("worker", worked, 0)
