"""Where the jobs of the tests have their coordinator and their files, by the environment."""
import os

from relkvanu.dask import Place

CONNECT = 600  # seconds in which a scheduler that was killed is there again, on a busy machine


def coordinator_of(folder, job):
    """A file of the driver's own, or with SERVICE the job of the service at these addresses, with commas between, which may be away for long."""
    addresses = os.environ.get("SERVICE")
    if not addresses:
        return f"{folder}/job.db"
    from relkvanu_service import Service

    return Service(*addresses.split(","), patience=3600).job(job)


def place_of(url, job):
    return Place(url, job, endpoint=os.environ.get("S3_ENDPOINT"), region=os.environ.get("S3_REGION"))
