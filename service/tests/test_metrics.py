"""Metrics by Prometheus' conventions, the alerts over them, and the unit of systemd. Each metric that an alert uses moves in a running service:
the tests of the alerts themselves have made-up series. The service's own log as text and as JSON, with traces."""
import importlib
import json
import os
import re
import shutil
import subprocess
import time

import alert_cases
from harness import SERVICE, SETTINGS, TOP, Service, beside, content, folder, locked, needed, process_status, save, served, served_job, until
from relkvanu_service import ack, cancel, savepoint
from run import Skipped

DEPLOY = f"{SERVICE}/deploy"


def scraped(server):
    text = server.get("/metrics")[2]
    return text, {line.rsplit(" ", 1)[0]: float(line.rsplit(" ", 1)[1]) for line in text.splitlines() if not line.startswith("#")}


def test_a_job_that_is_opened_again_keeps_its_first_counts():
    """A job of the name of one that was just deleted counts from its first call on, and has nothing of that one."""
    with served() as server:
        service, tries = Service(server.url), 20
        for number in range(tries):
            job = service.open("again", {"interval": 1 << 40}, [1])
            job.calls([savepoint(), ack(1, "0.0"), cancel()])
            until(lambda one=job: one.record(1)["history"])
            assert service.delete("again", abandon=True)
            service.open("again", {"interval": 1 << 40}, [1]).calls([savepoint(), savepoint()])
            time.sleep(0.25)  # the history looks each tenth of a second
            told = scraped(server)[1]
            assert told['relkvanu_calls_total{call="savepoint",job_name="again",outcome="made"}'] == 2, (number, told)
            assert not [key for key in told if key.startswith("relkvanu_records_total") and '"again"' in key and told[key]], (number, told)
            service.job("again").calls([cancel()])
            service.delete("again", abandon=True)


def test_metrics_say_what_was_done():
    with served_job("orders", {"interval": 3_600_000}, [2]) as (server, job):
        opened = job.state()["opened"] / 1000
        values = scraped(server)[1]
        assert abs(values['relkvanu_last_completed_timestamp_seconds{job_name="orders"}'] - opened) < 0.001
        job.calls([savepoint(), ack(1, "0.0", [1, 2]), ack(1, "0.0", [3]), ack(1, "5.5")])
        server.get("/nowhere")
        until(lambda: 'relkvanu_history_calls{job_name="orders"} 4' in scraped(server)[0])
        text, values = scraped(server)
        for name, wanted in {
            'relkvanu_calls_total{call="ack",job_name="orders",outcome="made"}': 1,
            'relkvanu_calls_total{call="ack",job_name="orders",outcome="refused"}': 2,
            'relkvanu_calls_total{call="savepoint",job_name="orders",outcome="made"}': 1,
            'relkvanu_files{job_name="orders",state="in_use"}': 2,
            'relkvanu_pending_records{job_name="orders",kind="savepoint"}': 1,
            'relkvanu_pending_records{job_name="orders",kind="checkpoint"}': 0,
            'relkvanu_savepoints{job_name="orders"}': 0,
            'relkvanu_interval_seconds{job_name="orders"}': 3600,
            'relkvanu_timeout_seconds{job_name="orders"}': 600,
            'relkvanu_mode{job_name="orders"}': 1,
            'relkvanu_log_calls{job_name="orders"}': 4,
            'relkvanu_log_kept_calls{job_name="orders"}': 4,
            'relkvanu_calls_since_image{job_name="orders"}': 4,
            'relkvanu_image_bytes{job_name="orders"}': 0,
            'relkvanu_http_requests_total{route="none",status="404"}': 1,
            "relkvanu_leader": 1,
        }.items():
            assert values.get(name) == wanted, (name, values.get(name), wanted)
        job.calls([ack(1, "0.1")])
        ended = ['relkvanu_records_total{how="completed",job_name="orders",kind="savepoint"}', 'relkvanu_completion_seconds_count{job_name="orders",kind="savepoint"}']
        until(lambda: [scraped(server)[1].get(name) for name in ended] == [1, 1])
        assert scraped(server)[1]['relkvanu_savepoints{job_name="orders"}'] == 1
        needed("promtool")
        told = subprocess.run(["promtool", "check", "metrics"], input=text, text=True, stdout=subprocess.PIPE, stderr=subprocess.STDOUT, check=False)
        assert told.returncode == 0 and not told.stdout.strip(), told.stdout


def tried(name, cases):
    """Tries the rules of a file. Each fires in one of the cases at least, and rests in one."""
    needed("promtool")
    path = f"{DEPLOY}/{name}"
    rules = content(path)
    files = alert_cases.tests_of(rules, path, cases)
    with folder() as at:
        for each, tests in files.items():
            save(f"{at}/{each}.yml", json.dumps(tests))
        words = [["check", "rules", path], ["test", "rules", *(f"{at}/{each}.yml" for each in files)]]
        told = [subprocess.run(["promtool", *some], text=True, stdout=subprocess.PIPE, stderr=subprocess.STDOUT, check=False) for some in words]
    alerts = re.findall(r"alert: (\w+)", rules)
    assert [one.returncode for one in told] == [0, 0], [one.stdout for one in told]
    counts = map(int, re.findall(r"(\d+) rules found", told[0].stdout))
    looks = [one for tests in files.values() for test in tests["tests"] for one in test["alert_rule_test"]]
    fires, rests = ({one["alertname"] for one in looks if bool(one["exp_alerts"]) is has} for has in (True, False))
    assert sum(counts) == len(alerts) and set(alerts) == fires == rests, (told[0].stdout, set(alerts) ^ fires, set(alerts) ^ rests)


def test_each_alert_fires_and_rests():
    return tried("alerts.yml", alert_cases.CASES)


def test_the_rules_of_what_was_not_set_up():
    """Each fires where something was not set up, and nowhere else."""
    return tried("alerts_set_up.yml", alert_cases.SET_UP)


def test_each_alert_has_its_section():
    """Its annotation names a heading of a page, and it has a severity and a summary."""
    rules = content(f"{DEPLOY}/alerts.yml")
    alerts = re.findall(r"- alert: \w+\n.*?severity: (?:page|ticket)\}\n    annotations:\n      runbook_url: '([\w-]+\.md#[\w-]+)'\n      summary: '", rules, re.DOTALL)
    pages = {page: content(f"{TOP}/docs/{page}") for page in {it.partition("#")[0] for it in alerts}}
    headings = {f"{page}#{re.sub('[^a-z0-9 -]', '', title.lower()).replace(' ', '-')}" for page, text in pages.items() for title in re.findall(r"^#+ (.*)$", text, re.MULTILINE)}
    assert len(alerts) == rules.count("- alert: ") and set(alerts) <= headings, (len(alerts), set(alerts) - headings)


def exposure_of(name):
    """How open a unit is, which systemd can read."""
    with folder() as at:
        unit = f"{at}/{name}.service"
        shutil.copy(f"{DEPLOY}/{name}.service", unit)
        told, read = (subprocess.run(["systemd-analyze", *words, unit], text=True, stdout=subprocess.PIPE, stderr=subprocess.STDOUT, check=False).stdout
                      for words in (["security", "--offline=true"], ["verify"]))
    found = re.search(rf"Overall exposure level for {name}.service: ([0-9.]+)", told)
    if not found:
        raise Skipped("a running systemd-analyze", f"it does not run here: {told.strip().splitlines()[-1:]}")
    assert not re.search(rf"{name}.service:\d+:", read), read
    return float(found[1])


def test_the_units_are_hardened():
    needed("systemd-analyze")
    found = {name: exposure_of(name) for name in ("relkvanu", "relkvanu-clean")}
    assert max(found.values()) < 3, found
    return f"exposure {found}"


# Of these another test compares two values of a running service.
ELSEWHERE = {
    "relkvanu_backup_timestamp_seconds": "under_systemd",
    "relkvanu_certificate_until_timestamp_seconds": "test_security",
    "relkvanu_clean_files_total": "test_places",
    "relkvanu_clean_interval_seconds": "test_places",
    "relkvanu_clean_stopped": "test_places",
    "relkvanu_clean_sweep_timestamp_seconds": "test_places",
    "relkvanu_clean_unissued_files": "test_places",
    "relkvanu_clean_works": "test_places",
    "relkvanu_clock_ahead_seconds": "test_clocks",
    "relkvanu_followed_timestamp_seconds": "test_lease",
    "relkvanu_history_lag_seconds": "test_history",
    "relkvanu_history_up": "test_history",
    "relkvanu_image_failing": "test_long_images",
    "relkvanu_job_damaged": "test_damaged",
    "relkvanu_keys_behind_seconds": "test_upkeep",
    "relkvanu_last_restored_timestamp_seconds": "test_limits",
    "relkvanu_leader": "test_lease",
    "relkvanu_oldest_file_age_seconds": "test_limits",
    "relkvanu_reload_failed": "test_security",
    "relkvanu_samples_behind_seconds": "test_upkeep",
    "relkvanu_served_since_timestamp_seconds": "test_limits",
    "relkvanu_token_until_timestamp_seconds": "test_upkeep",
}
# What a job's settings say, of a job with an interval of 2^40 ms and a timeout of a minute, and of one with 200 ms and 5 s.
OF_SETTINGS = {"relkvanu_interval_seconds": ((1 << 40) / 1000, 0.2), "relkvanu_timeout_seconds": (60, 5)}


def named():
    rules = content(f"{SERVICE}/deploy/alerts.yml")
    rules = re.sub(r'__name__=~"relkvanu_\((.*?)\)(\w+)"', lambda it: " ".join(f"relkvanu_{one}{it[2]}" for one in it[1].split("|")), rules)
    return set(re.findall(r"relkvanu_[a-z_]+", rules)) - {"relkvanu_clean"}


def without_buckets(name):
    """A gauge or counter by its own name, a histogram by that of its count."""
    return name.removesuffix("_bucket") + ("_count" if name.endswith("_bucket") else "")


class Seen:
    """The values of a service, as often as they were looked at."""

    def __init__(self, server):
        self.server, self.looks = server, []

    def look(self):
        self.looks.append(scraped(self.server)[1])
        return self.looks[-1]

    def moved(self, name):
        """Whether a series of this name had two values, neither of which is that it was not there."""
        series = {key for look in self.looks for key in look if key.partition("{")[0] == name}
        return any(len({look[key] for look in self.looks if key in look}) > 1 for key in series)


def work(server, service, seen):
    """Jobs are opened, files with sizes used and released, and a record is completed and disposed of, a request fails, and a job ends."""
    job = service.open("orders", {"interval": 1 << 40, "timeout": 60_000}, [1])
    service.open("timed", {"interval": 200, "timeout": 5000}, [1])
    until(lambda: 'relkvanu_files{job_name="orders",state="in_use"}' in seen.look())
    server.get("/nowhere")
    seen.look()
    job.calls([savepoint(), ack(1, "0.0", [1, 2], sizes=[100, 20])])
    timed = service.job("timed")
    timed.call(ack(until(lambda: next((it["id"] for it in timed.state()["live"] if not it["done"]), None)), "0.0", [1]))
    until(lambda: seen.look()['relkvanu_savepoints{job_name="orders"}'] == 1)
    server.get("/nowhere")
    with open(f"{server.folder}/fills", "wb") as it:
        it.write(b"x" * (64 << 20))
    until(lambda: seen.look() and seen.moved("relkvanu_disk_free_bytes") and seen.moved("relkvanu_tick_late_seconds_count"))
    os.remove(f"{server.folder}/fills")


def stuck(server, seen):
    """Requests wait for a commit that the database does not take."""
    def both():
        values = seen.look()
        return values["relkvanu_queue_requests"] > 0 and values["relkvanu_commit_under_way_seconds"] > 0

    with locked(server.database):
        threads = [beside(server.request, "POST", "/v1/jobs/orders/calls", {"calls": [{"call": "tick"}]}) for _ in range(4)]
        until(both, each=0.01)
    for it in threads:
        it.join()


def test_metrics_of_alerts_move():
    with served() as server:
        service, seen = Service(server.url), Seen(server)
        work(server, service, seen)
        stuck(server, seen)
        service.job("orders").calls([{"call": "tick"}] * 1000)
        values = seen.look()
        stops = service.open("stops", {"interval": 1 << 40, "timeout": 60_000}, [1])
        until(lambda: any(key.startswith("relkvanu_phase{") and '"stops"' in key for key in seen.look()))
        stops.stop_job()
        service.job("orders").call(cancel())
        size = os.statvfs(server.folder)
        sizes = [value for key, value in values.items() if key.partition("{")[0] == "relkvanu_disk_size_bytes"]
        assert sizes and all(it == size.f_frsize * size.f_blocks for it in sizes), sizes
        here = {without_buckets(name) for name in named() - {"relkvanu_disk_size_bytes"} if name not in ELSEWHERE and name not in OF_SETTINGS}
        until(lambda: seen.look() and not still(seen, here), told=lambda: still(seen, here))
        for name, (orders, timed) in OF_SETTINGS.items():
            told = [values[f'{name}{{job_name="{job}"}}'] for job in ("orders", "timed")]
            assert told == [orders, timed], (name, told)


def still(seen, names):
    return sorted(name for name in names if not seen.moved(name))


def test_others_are_compared_elsewhere():
    """Each metric of an alert that does not move here is named by the test that is said to compare it."""
    assert set(ELSEWHERE) <= named(), set(ELSEWHERE) - named()
    for name, module in ELSEWHERE.items():
        path = importlib.import_module(module).__file__
        assert name in content(path), (name, os.path.relpath(path, TOP))


TRACE = "0af7651916cd43dd8448eb211c80319c"
PARENT = f"00-{TRACE}-b7ad6b7169203331-01"


def test_the_process_and_what_waits():
    began = time.time()
    with served() as server:
        ready = time.time()
        job = Service(server.url).open("orders", {"interval": 50}, [1])
        until(lambda: job.state()["seq"] >= 3)
        pid = server.process.pid

        def agreed():
            """The metrics, and what the system says in the same moment: threads may come and go between the two."""
            values = scraped(server)[1]
            status = process_status(pid)
            return values["process_threads"] == int(status["Threads"]) and (values, int(status["VmRSS"].split()[0]) * 1024)

        values, resident = until(agreed)
        assert 0.5 * resident < values["process_resident_memory_bytes"] < 2 * resident, (resident, values["process_resident_memory_bytes"])
        assert values["process_virtual_memory_bytes"] > resident
        assert abs(values["process_open_fds"] - len(os.listdir(f"/proc/{pid}/fd"))) <= 3, values["process_open_fds"]
        assert values["process_max_fds"] >= 1024 and values["process_cpu_seconds_total"] > 0
        # the moment at which the machine started is known to a second
        assert began - 5 < values["process_start_time_seconds"] < ready + 5, (began, values["process_start_time_seconds"], ready)
        assert any(re.match(r'relkvanu_build_info\{library="\d+\.\d+\.\d+",version="\d+\.\d+\.\d+"\}', name) for name in values), [name for name in values if "build" in name]
        assert values["relkvanu_queue_requests"] <= 1 and values["relkvanu_queue_seconds_count"] >= 2
        assert values["relkvanu_tick_late_seconds_count"] >= 1 and values['relkvanu_tick_late_seconds_bucket{le="5"}'] >= 1
        before = values["process_cpu_seconds_total"]
        job.calls([{"call": "tick"}] * 1000)
        assert scraped(server)[1]["process_cpu_seconds_total"] >= before


def lines(server):
    return [line for line in server.log().splitlines() if line.strip()]


def make_requests(server):
    """Some requests with a trace: what a user does, what a task does, and a read that fails."""
    Service(server.url).open("orders", SETTINGS, [1], 0)
    trace = [("traceparent", PARENT), ("Idempotency-Key", "k")]
    server.request("POST", "/v1/jobs/orders/calls", {"calls": [savepoint(), ack(1, "0.0", term=1)]}, headers=trace)
    server.request("POST", "/v1/jobs/orders/calls", {"calls": [{"call": "tick"}]}, headers=trace[:1])
    server.request("POST", "/v1/jobs/orders/calls", {"calls": [{"call": "cancel"}]}, headers=[("traceparent", "00-x")])
    server.request("DELETE", "/v1/jobs/orders?abandon=1", headers=trace[:1])


def test_the_log_is_json_by_a_setting():
    # it has another form than the line for which `stand_by` and others look
    with served('log = "json"\n') as server:
        make_requests(server)
        told = [json.loads(line) for line in lines(server)]
        assert all({"time", "level", "message"} <= set(line) for line in told), told
        requests = [line for line in told if line["message"] == "request"]
        assert [(line["method"], line["path"], line["status"], line.get("calls"), line.get("trace_id"), line["by"]) for line in requests] == [
            ("POST", "/v1/jobs", 201, None, None, "local"),
            ("POST", "/v1/jobs/orders/calls", 200, "savepoint", TRACE, "local"),
            ("POST", "/v1/jobs/orders/calls", 200, "cancel", None, "local"),
            ("DELETE", "/v1/jobs/orders", 200, None, TRACE, "local"),
        ], requests
        assert all(isinstance(line["took_ms"], int) for line in requests)


def test_the_log_as_text():
    with served() as server:
        make_requests(server)
        told = [line.split(" ", 2)[2] for line in lines(server) if " request " in line]
        assert re.fullmatch(rf"request method=POST path=/v1/jobs/orders/calls status=200 by=local took_ms=\d+ calls=savepoint trace_id={TRACE}", told[1]), told
        assert len(told) == 4 and "trace_id" not in told[2], told


def test_each_request_has_a_line_by_a_setting():
    with served("log_requests = true\n", ["--log", "json"]) as server:
        server.get("/v1/jobs")
        server.get("/v1/jobs/none")
        told = [json.loads(line) for line in lines(server)]
        paths = [(line["path"], line["status"]) for line in told if line["message"] == "request"]
        assert ("/v1/jobs", 200) in paths and ("/v1/jobs/none", 404) in paths and ("/readyz", 200) in paths, paths
