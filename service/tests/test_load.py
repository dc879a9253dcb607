"""Load by wrk, with the history read and metrics scraped meanwhile."""
import threading

import load
from harness import beside, check_log, needed, served
from relkvanu_service import Service


def test_load_by_wrk():
    needed("wrk")
    with served() as server:
        over, errors = threading.Event(), []

        def scrape():
            while not over.wait(0.2):
                if server.get("/metrics")[0] != 200 or server.get("/healthz")[0] != 200:
                    errors.append("a scrape failed")

        scraping = beside(scrape)
        told, made = load.loaded(server, load.WAYS, 1)
        over.set()
        scraping.join()
        assert not errors, errors[:3]
        job = Service(server.url).job("load")
        log = list(job.log(terms=True))
        assert len(log) >= made
        # the first part of a log is a log
        compared = check_log(job.state(), [4096], log[:20_000])
        rates = ", ".join(f"{rate:.0f}/s with {connections} of {batch}" for connections, batch, rate, *_ in told)
        return f"{rates}; {made} acknowledged, the first {compared} answered alike by ckpt_log"
