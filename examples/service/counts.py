"""counts.py URL..: the engine of examples/python/count.py over a service. Kill either, and start it again, but after status 78: somebody has to look."""
import sys

from count import Engine
from relkvanu.outputs import Files
from relkvanu.runner import FileLost, Superseded
from relkvanu_service import Service

job = Service(*sys.argv[1:], patience=3600).open("counts", {"interval": 1000}, [1, 1, 1])
engine = Engine(job, Files("out"), "state")
engine.runner.begin_job()  # if it was stopped
engine.runner.stop_at_signals()
try:
    print(engine.runner.run().name)
except (FileLost, Superseded) as why:
    print(why, file=sys.stderr)
    sys.exit(78)
