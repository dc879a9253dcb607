"""Cases of the rules in deploy/alerts.yml and alerts_set_up.yml: what is scraped, when each rule fires, and when it must not. `promtool` tries them (test_metrics)."""
import re

PLAIN = {"up", "process_start_time_seconds"}  # the other metrics are the service's


def of(labels, **series):
    """The values of metrics that have these labels."""
    names = {name: name if name in PLAIN else f"relkvanu_{name}" for name in series}
    return [{"series": f"{names[name]}{{{labels}}}", "values": values} for name, values in series.items()]


def rests(alert, moments):
    return [(moment, alert, []) for moment in moments.split()]


def fires(alert, moment, *told):
    return [(moment, alert, told)]


def page(summary, **labels):
    return {"severity": "page", **labels}, summary


def ticket(summary, **labels):
    return {"severity": "ticket", **labels}, summary


def without_checkpoint(*jobs):
    return [page(f"Job {job} has completed no checkpoint for three intervals and its timeout.", job_name=job) for job in jobs]


def without_progress(**jobs):
    return [page(f"Job {job} has completed no checkpoint in {minutes}m 0s in which it was served.", job_name=job) for job, minutes in jobs.items()]


def tests_of(rules, path, cases):
    """The files of tests for promtool, by how often the rules at this path are looked at. A case has the interval of its series, these, and what is seen at some
    moments. What a rule says in each case is taken from it, its summary is not."""
    said = {name: dict(re.findall(r"^      (runbook_url|description): '(.*)'$", text, re.MULTILINE))
            for name, text in re.findall(r"- alert: Relkvanu(\w+)\n(.*?)(?=\n  - alert|\n- name|\Z)", rules, re.DOTALL)}

    def told(moment, alert, alerts):
        expected = [{"exp_labels": labels, "exp_annotations": {**said[alert], "summary": summary}} for labels, summary in alerts]
        return {"eval_time": moment, "alertname": f"Relkvanu{alert}", "exp_alerts": expected}

    files = {each: {"rule_files": [path], "evaluation_interval": each, "tests": []} for each in ("15s", "1m")}
    for interval, parts in cases:
        ones = [one for part in parts for one in part]
        given, looks = ([one for one in ones if isinstance(one, kind)] for kind in (dict, tuple))
        test = {"interval": interval, "input_series": given, "alert_rule_test": [told(*one) for one in looks]}
        files["15s" if interval.endswith("s") else "1m"]["tests"].append(test)
    return files


CASES = [
    # jobs of 10 s: one with a timeout of 60 s completes until 1:00 and then no more; one that is cancelled does not count; one of a service that does not tell its
    # timeout; and one that is well, though each checkpoint lasts 5 minutes, within its timeout of 10 minutes
    ("15s", [
        of('job_name="a"', last_completed_timestamp_seconds="0 15 30 45 60 60x60", interval_seconds="10x65", timeout_seconds="60x65", mode="1x65"),
        of('job_name="b"', last_completed_timestamp_seconds="0x65", interval_seconds="10x65", timeout_seconds="60x65", mode="3x65"),
        of('job_name="old"', last_completed_timestamp_seconds="60x65", interval_seconds="10x65", mode="1x65"),
        of('job_name="long"', last_completed_timestamp_seconds="0x20 310x20 620x25", interval_seconds="10x65", timeout_seconds="600x65", mode="1x65"),
        rests("NoCheckpoint", "90s 2m15s"),
        fires("NoCheckpoint", "3m", *without_checkpoint("old")),
        fires("NoCheckpoint", "14m", *without_checkpoint("a", "old")),
    ]),
    ("15s", [
        of('job_name="a"', mode="1x4 2x20"),
        rests("JobFailed", "1m"),
        fires("JobFailed", "3m", page("Job a has failed over, and nobody restores it.", job_name="a")),
    ]),
    # the leader stops and nobody takes over; two lead at once; one leads
    ("15s", [
        of('instance="a"', leader="1x4 0x10"),
        of('instance="b"', leader="0x14"),
        rests("NoLeader", "45s"),
        fires("NoLeader", "3m", page("0 processes lead. One has to.")),
    ]),
    ("15s", [
        of('instance="a"', leader="1x20"),
        of('instance="b"', leader="0x4 1x16"),
        fires("NoLeader", "3m", page("2 processes lead. One has to.")),
    ]),
    # four installations: a leader alone, a leader and a standby, one whose leader stops beside them, and one whose processes are all gone
    ("15s", [
        of('instance="a:1",installation="a",job="relkvanu"', leader="1x40", up="1x40"),
        of('instance="b:1",installation="b",job="relkvanu"', leader="1x40", up="1x40"),
        of('instance="b:2",installation="b",job="relkvanu"', leader="0x40", up="1x40"),
        of('instance="c:1",installation="c",job="relkvanu"', leader="1x4 0x36", up="1x40"),
        of('instance="d:1",installation="d",job="relkvanu"', leader="1x4 stale", up="1x4 0x36"),
        rests("NoLeader", "1m"),
        rests("ProcessDown", "5m"),
        fires("NoLeader", "5m", page("0 processes lead in c. One has to.", installation="c", job="relkvanu"),
              page("0 processes lead in d. One has to.", installation="d", job="relkvanu")),
        fires("ProcessDown", "8m", ticket("d:1 does not answer.", installation="d", instance="d:1", job="relkvanu")),
    ]),
    # cleaners beside a leader, as docs/SERVICE-OPERATION.md has them scraped: one that runs and one that does not
    ("15s", [
        of('instance="10.0.0.5:7780",installation="orders",job="relkvanu"', leader="1x40", up="1x40"),
        of('instance="10.0.0.6:7780",installation="orders",job="relkvanu"', leader="0x40", up="1x40"),
        of('instance="127.0.0.1:7782",job="relkvanu-clean"', up="1x40"),
        of('instance="127.0.0.1:7783",job="relkvanu-clean"', up="0x40"),
        rests("NoLeader", "8m"),
        rests("ProcessDown", "8m"),
    ]),
    # nothing is scraped at all
    ("15s", [
        fires("NoLeader", "3m", page("0 processes lead. One has to.")),
    ]),
    # a service that ends and starts again each 45 s, one that was upgraded twice, and a cleaner that waits for its network
    ("15s", [
        of('instance="a",job="relkvanu"', process_start_time_seconds="0 0 _ 45 45 _ 90 90 _ 135 135 _ 180 180 _ 225 225 _ 270 270 _ 315 315 _ 360 360 _ 405 405 _ 450 450"),
        of('instance="b",job="relkvanu"', process_start_time_seconds="0x10 150x10 300x20"),
        of('instance="c",job="relkvanu-clean"', process_start_time_seconds="0 15 30 45 60 75 90 105 120 135 150 165 180"),
        rests("Restarts", "1m"),
        fires("Restarts", "4m", page("a has started 5 times within 15 minutes.", instance="a", job="relkvanu")),
    ]),
    # commits that take a second each from 5:00 on
    ("15s", [
        of('instance="a",le="0.5"', commit_seconds_bucket="0+100x20 2000x100"),
        of('instance="a",le="1"', commit_seconds_bucket="0+100x120"),
        of('instance="a",le="+Inf"', commit_seconds_bucket="0+100x120"),
        rests("SlowCommits", "4m"),
        fires("SlowCommits", "20m", ticket("One commit in a hundred takes more than half a second.", instance="a")),
    ]),
    ("15s", [
        of('instance="a"', commit_under_way_seconds="0 0.4 6 0 6 21 36 0x10"),
        rests("CommitStuck", "45s 3m"),
        fires("CommitStuck", "75s", page("The database of a takes no commit, so no job goes on.", instance="a")),
    ]),
    # a queue that is long for a moment, and one that stays long; ticks that are late; a standby that stops reading, and a leader that needs not
    ("30s", [
        of('instance="a"', queue_requests="0x4 900 0x20", followed_timestamp_seconds="0+30x4 120x60", leader="0x60"),
        of('instance="b"', queue_requests="700x24", followed_timestamp_seconds="0x60", leader="1x60"),
        of('instance="a",le="1"', tick_late_seconds_bucket="0+10x60"),
        of('instance="a",le="5"', tick_late_seconds_bucket="0+10x60"),
        of('instance="a",le="30"', tick_late_seconds_bucket="0+10x60"),
        of('instance="a",le="+Inf"', tick_late_seconds_bucket="0+10x60"),
        of('instance="b",le="1"', tick_late_seconds_bucket="0x60"),
        of('instance="b",le="5"', tick_late_seconds_bucket="0+5x60"),
        of('instance="b",le="30"', tick_late_seconds_bucket="0+10x60"),
        of('instance="b",le="+Inf"', tick_late_seconds_bucket="0+10x60"),
        rests("QueueLong", "1m"),
        rests("TicksLate", "1m"),
        rests("StandbyLags", "3m"),
        fires("QueueLong", "10m", ticket("700 requests wait for the writer of b.", instance="b")),
        fires("TicksLate", "20m", ticket("One tick in ten of b is more than 5 s late, so checkpoints are.", instance="b")),
        fires("StandbyLags", "10m", ticket("a stands by, and has not read the log for 480 s.", instance="a")),
    ]),
    # jobs of 10 s with a timeout of 60 s that complete nothing for two hours: one that has stopped for the first hour and then begins again, and one that nobody has
    # stopped
    ("1m", [
        of('job_name="stopped"', last_completed_timestamp_seconds="0x120", last_restored_timestamp_seconds="0x60 3660x60", interval_seconds="10x120",
           timeout_seconds="60x120", mode="1x120", phase="3x60 1x60"),
        of('job_name="runs"', last_completed_timestamp_seconds="0x120", interval_seconds="10x120", timeout_seconds="60x120", mode="1x120", phase="1x120"),
        fires("NoCheckpoint", "1h", *without_checkpoint("runs")),
        fires("NoCheckpoint", "62m", *without_checkpoint("runs")),
        fires("NoCheckpoint", "70m", *without_checkpoint("runs", "stopped")),
    ]),
    # jobs of 10 s with the default timeout that the engine restores again and again, so that the two rules above are silent: one whose every checkpoint expires, one
    # whose checkpoints are declined since its first second, and one that two processes hand to each other. At 1:00 all of them go on
    ("1m", [
        of('job_name="slow"', last_completed_timestamp_seconds="0x59 3600+60x30", last_restored_timestamp_seconds="0x10 610x9 1220x9 1830x9 2440x9 3050x40",
           interval_seconds="10x90", timeout_seconds="600x90", mode="1x90", phase="1x90"),
        of('job_name="fast"', last_completed_timestamp_seconds="-59 1x58 3600+60x30", last_restored_timestamp_seconds="0+60x59 3540x30", interval_seconds="10x90",
           timeout_seconds="600x90",
           mode="2 1 2 1 2 1 2 1 2 1 2 1 2 1 2 1 2 1 2 1 2 1 2 1 2 1 2 1 2 1 2 1 2 1 2 1 2 1 2 1 2 1 2 1 2 1 2 1 2 1 2 1 2 1 2 1 2 1 2 1 1x30"),
        of('job_name="handed",instance="a"', last_completed_timestamp_seconds="0x9 stale _x9 0x9 stale _x9 0x9 stale",
           served_since_timestamp_seconds="0x9 stale _x9 1200x9 stale _x9 2400x9 stale"),
        of('job_name="handed",instance="b"', last_completed_timestamp_seconds="_x10 0x9 stale _x9 0x9 stale _x9 0x9 3600+60x30",
           served_since_timestamp_seconds="_x10 600x9 stale _x9 1800x9 stale _x9 3000x40"),
        of('job_name="handed"', interval_seconds="10x90", timeout_seconds="600x90", mode="1x90"),
        rests("NoCheckpoint", "39m"),
        rests("JobFailed", "39m"),
        rests("NoProgress", "31m 62m"),
        fires("NoProgress", "33m", *without_progress(handed=32, slow=32)),
        fires("NoProgress", "37m", *without_progress(fast=34, handed=36, slow=36)),
        fires("NoProgress", "59m", *without_progress(fast=56, handed=58, slow=58)),
    ]),
    # jobs that need nobody: one that is well; one that an outage of an hour cuts off in its 10th minute, which is restored once more and completes after 9 minutes;
    # one that had stopped for an hour; one that is cancelled when it was about to page; one that had failed for an hour, which another rule told; a new one that
    # completes its first after 15 minutes; and one that a standby takes over
    ("1m", [
        of('job_name="well"', last_completed_timestamp_seconds="0+60x110", interval_seconds="10x110", timeout_seconds="600x110", mode="1x110"),
        of('job_name="outage"', last_completed_timestamp_seconds="0x9 stale _x59 0x18 5340+60x20", interval_seconds="10x110", timeout_seconds="600x110",
           mode="1x9 stale _x59 1x40"),
        of('job_name="stopped"', last_completed_timestamp_seconds="0x78 4740+60x30", interval_seconds="10x110", timeout_seconds="600x110", mode="1x110",
           phase="1x4 3x64 1x40"),
        of('job_name="cancelled"', last_completed_timestamp_seconds="0x110", interval_seconds="10x110", timeout_seconds="600x110", mode="1x29 3x80"),
        of('job_name="failed"', last_completed_timestamp_seconds="0x88 5340+60x20", interval_seconds="10x110", timeout_seconds="600x110", mode="1x9 2x69 1x30"),
        of('job_name="new"', last_completed_timestamp_seconds="_x10 600x14 1500+60x85", interval_seconds="10x110", timeout_seconds="600x110", mode="_x10 1x100"),
        of('job_name="moved",instance="a"', last_completed_timestamp_seconds="0+60x20 stale", mode="1x20 stale"),
        of('job_name="moved",instance="b"', last_completed_timestamp_seconds="_x21 1200x5 1620+60x80", mode="_x21 1x90"),
        of('job_name="moved"', interval_seconds="10x110", timeout_seconds="600x110"),
        rests("NoProgress", "20m 33m 36m 60m 78m 88m 110m"),
    ]),
    # files that are taken and never reported, and that nobody takes; those of a busy job, which always has some, of which the oldest is minutes old
    ("1m", [
        of('job_name="a",state="taken"', oldest_file_age_seconds="0x9 0+60x160"),
        of('job_name="a",state="waiting"', oldest_file_age_seconds="0x9 0+60x160"),
        of('job_name="busy",state="taken"', oldest_file_age_seconds="20 45 300 7 12 99 3 250 61x160"),
        of('job_name="busy",state="waiting"', oldest_file_age_seconds="3500 30 300 900 12 99 1800 250 61x160"),
        rests("FilesUnreported", "60m"),
        rests("FilesWait", "120m"),
        fires("FilesUnreported", "81m", ticket("A file of job a was taken for deletion 1h 11m 0s ago and is not reported.", job_name="a")),
        fires("FilesWait", "141m", ticket("A file of job a has waited for deletion for 2h 11m 0s, and nobody takes it.", job_name="a")),
    ]),
    # a service that was off for half an hour, with an interval of 10 minutes: the next checkpoint completes at 1:10. Then none does. Another job is restored at
    # 1:00, and one has its first process at 0:31
    ("1m", [
        of('job_name="orders"', last_completed_timestamp_seconds="0x5 _x24 0x39 4200x80", served_since_timestamp_seconds="0x5 _x24 1860x120",
           interval_seconds="600x5 _x24 600x120", timeout_seconds="600x5 _x24 600x120", mode="1x5 _x24 1x120"),
        of('job_name="back"', last_completed_timestamp_seconds="0x150", last_restored_timestamp_seconds="0x60 3600x90", interval_seconds="900x150",
           timeout_seconds="900x150", mode="1x150"),
        rests("NoCheckpoint", "36m 69m 105m"),
        fires("NoCheckpoint", "118m", *without_checkpoint("orders")),
    ]),
    # a service that ends each 25 minutes, one that was restarted three times within the hour, and a cleaner
    ("1m", [
        of('instance="a",job="relkvanu"', process_start_time_seconds="0x24 1500x24 3000x24 4500x24 6000x24"),
        of('instance="b",job="relkvanu"', process_start_time_seconds="0x19 1200x19 2400x19 3600x65"),
        of('instance="c",job="relkvanu-clean"', process_start_time_seconds="0+60x124"),
        rests("Restarts", "110m"),
        rests("RestartsNowAndThen", "95m"),
        fires("RestartsNowAndThen", "110m", ticket("a has started 4 times within two hours.", instance="a", job="relkvanu")),
    ]),
    # garbage: more than the job uses, as much as it uses, and little
    ("5m", [
        of('job_name="a",state="in_use"', file_bytes="20000000000x20"),
        of('job_name="a",state="waiting"', file_bytes="5000000000x4 16106127360x16"),
        of('job_name="a",state="taken"', file_bytes="5368709120x20"),
        of('job_name="b",state="in_use"', file_bytes="20000000000x20"),
        of('job_name="b",state="waiting"', file_bytes="20000000000x20"),
        of('job_name="b",state="taken"', file_bytes="0x20"),
        of('job_name="c",state="in_use"', file_bytes="5x20"),
        of('job_name="c",state="waiting"', file_bytes="9000000000x20"),
        of('job_name="c",state="taken"', file_bytes="9x20"),
        rests("UndeletedBytes", "40m"),
        fires("UndeletedBytes", "70m", ticket("20GiB of job a wait for deletion: more than it uses.", job_name="a")),
    ]),
    ("1m", [
        of('job_name="a",installation="x"', calls_since_image="6000000x30"),
        of('job_name="b",installation="x"', calls_since_image="0 1000000 2000000 3000000 0 6000000x20"),
        of('job_name="c",installation="y"', calls_since_image="6000000x30"),
        rests("LogGrows", "14m"),
        fires("LogGrows", "16m", ticket("A start has to make 1.2e+07 calls again: some minutes.", installation="x")),
    ]),
    # a cleaner that ends at 5:00; of job a none works from 20:00 on; of job b one of two waits, as it may
    ("1m", [
        of('job="relkvanu-clean",instance="a"', up="1x5 0x20"),
        of('job="relkvanu-clean",instance="a",job_name="a"', clean_works="1x19 0x60"),
        of('job="relkvanu-clean",instance="b",job_name="b"', clean_works="1x80"),
        of('job="relkvanu-clean",instance="c",job_name="b"', clean_works="0x80"),
        of('job_name="a",kind="released",outcome="absent"', clean_files_total="0x10 3x80"),
        of('job_name="a",kind="released",outcome="failed"', clean_files_total="0+1x90 90x400"),
        of('job_name="b",kind="garbage",outcome="failed"', clean_files_total="0x200 4x300"),
        rests("CleanerGone", "8m"),
        rests("NotCleaned", "29m"),
        rests("FilesAbsent", "10m 80m"),
        rests("FilesStay", "50m 150m"),
        fires("CleanerGone", "12m", ticket("The cleaner at a does not run.", job="relkvanu-clean", instance="a")),
        fires("NotCleaned", "31m", ticket("Files of job a are not deleted.", job="relkvanu-clean", job_name="a")),
        fires("FilesAbsent", "12m", ticket("Files of job a that were to be deleted were not there.", job_name="a", kind="released", outcome="absent")),
        fires("FilesStay", "80m", ticket("Files of job a can not be deleted. The log of the cleaner names them.", job_name="a", kind="released", outcome="failed")),
        fires("FilesStay", "280m", ticket("Files of job b can not be deleted. The log of the cleaner names them.", job_name="b", kind="garbage", outcome="failed")),
    ]),
    # a cleaner that does not get through the garbage of one job, and files that no job named
    ("1m", [
        of('job="relkvanu-clean",instance="a"', clean_interval_seconds="900x200"),
        of('job="relkvanu-clean",instance="a",job_name="a"', clean_sweep_timestamp_seconds="0+60x200"),
        of('job="relkvanu-clean",instance="a",job_name="b"', clean_sweep_timestamp_seconds="0x200"),
        of('job_name="a"', clean_unissued_files="0x10 2x20 0x170"),
        rests("SweepLate", "44m"),
        rests("UnissuedFiles", "18m 40m"),
        fires("SweepLate", "52m", ticket("The garbage of job b was not looked for to the end for three intervals.", job="relkvanu-clean", instance="a", job_name="b")),
        fires("UnissuedFiles", "24m", ticket("2 files in the folder of job a have names that were never given out.", job_name="a")),
    ]),
    # the history fails from 10:00 on and works again later; another one lags, of one job alone
    ("1m", [
        of('instance="a"', history_up="1x9 0x20 1x30"),
        of('instance="b"', history_up="1x60"),
        of('instance="a",job_name="x"', history_lag_seconds="0 60 1 70 0x56"),
        of('instance="b",job_name="x"', history_lag_seconds="0x9 60+60x50"),
        of('instance="b",job_name="y"', history_lag_seconds="0x60"),
        rests("HistoryBroken", "11m 35m"),
        rests("HistoryLags", "14m"),
        fires("HistoryBroken", "13m", ticket("The history of a can not be written.", instance="a")),
        fires("HistoryLags", "25m", ticket("The history of b is 960 s behind.", instance="b")),
    ]),
    ("1m", [
        of('instance="a"', keys_behind_seconds="0 5 9 0x60", samples_behind_seconds="0x60"),
        of('instance="b"', keys_behind_seconds="0x60", samples_behind_seconds="0+60x60"),
        rests("OldRowsStay", "10m"),
        fires("OldRowsStay", "20m", ticket("Old keys or samples of b are not deleted as fast as they come.", instance="b")),
    ]),
    # a history that grows past the limit
    ("4m", [
        of('of="database",installation="a"', stored_bytes="40000000000x30"),
        of('of="history",installation="a"', stored_bytes="48000000000 52000000000x30"),
        rests("DatabaseLarge", "0m"),
        fires("DatabaseLarge", "60m", ticket("The history has 48.43GiB.", of="history", installation="a")),
    ]),
    # a disk that is nearly full, one of which a fifth is left that fills within two days, one that stays as it is, one with a backup of 20 GB on it, and that of a
    # new installation whose logs fill up
    ("4m", [
        of('of="history",instance="full"', disk_free_bytes="900000000x120", disk_size_bytes="500000000000x120"),
        of('of="database",instance="fills"', disk_free_bytes="50000000000-100000000x120", disk_size_bytes="500000000000x120"),
        of('of="database",instance="stays"', disk_free_bytes="50000000000x120", disk_size_bytes="500000000000x120"),
        of('of="database",instance="backup"', disk_free_bytes="120000000000x10 100000000000x110", disk_size_bytes="500000000000x120"),
        of('of="database",instance="new"', disk_free_bytes="80000000000-130000000x120", disk_size_bytes="100000000000x120"),
        rests("DiskFull", "0m"),
        rests("DiskFills", "20m"),
        fires("DiskFull", "60m", page("The disk of the history on full has 858.3MiB left.", of="history", instance="full")),
        fires("DiskFills", "150m", ticket("The disk of the database on fills will be full within two days.", of="database", instance="fills")),
    ]),
    # backups, and copies of two jobs: the last of one is 50 hours old, and that of the other one 40; a certificate that ends within 14 days, and two that do not
    ("1m", [
        of('instance="a"', backup_timestamp_seconds="-180000x60", certificate_until_timestamp_seconds="1209600x60"),
        of('instance="b"', backup_timestamp_seconds="-144000x60", certificate_until_timestamp_seconds="7776000x60"),
        of('instance="c"', certificate_until_timestamp_seconds="90000000x60"),
        rests("BackupOld", "5m"),
        rests("CertificateExpires", "5m"),
        fires("BackupOld", "45m", ticket("The last backup on a was made 2d 2h 45m 0s ago.", instance="a")),
        fires("CertificateExpires", "45m", ticket("The certificate of a ends within 13d 23h 15m 0s.", instance="a")),
    ]),
    # a certificate of which two days are left from 0:20 on, and one with a week
    ("1m", [
        of('instance="a"', certificate_until_timestamp_seconds="174000x60"),
        of('instance="b"', certificate_until_timestamp_seconds="604800x60"),
        rests("CertificateEnds", "25m"),
        fires("CertificateEnds", "45m", page("The certificate of a ends within two days.", instance="a")),
    ]),
    # what looks at no metric of another rule here
    ("1m", [
        of('instance="a",access="write"', token_until_timestamp_seconds="1212000x70"),
        of('instance="a",access="read"', token_until_timestamp_seconds="2000000000x70"),
        rests("TokenEnds", "45m"),
        fires("TokenEnds", "1h", ticket("The last write token of a ends within 13d 23h 40m 0s.", instance="a", access="write")),
        # a cleaner that was given no new token, which asks once a minute; and somebody who tried a wrong one five times
        of('instance="a",route="state",status="401"', http_requests_total="0x10 1+1x60"),
        of('instance="a",route="state",status="200"', http_requests_total="0+50x70"),
        of('instance="b",route="state",status="401"', http_requests_total="0x10 5x60"),
        rests("TokenRefused", "30m"),
        fires("TokenRefused", "1h", ticket("a refuses requests for their token.", instance="a")),
        of('job_name="a"', savepoints="101x90"),
        of('job_name="b"', savepoints="100x90"),
        rests("ManySavepoints", "45m"),
        fires("ManySavepoints", "1h15m", ticket("Job a has 101 savepoints that nobody has disposed of.", job_name="a")),
        # a job that is kept out until it is mended, by the one of two processes that has it
        of('job_name="a",instance="1"', job_damaged="_x4 1x10 _x10"),
        rests("JobDamaged", "3m 24m"),
        fires("JobDamaged", "8m", page("Job a is damaged, and is kept out.", job_name="a")),
        of('instance="a"', reload_failed="0x4 1x20"),
        of('instance="b"', reload_failed="0 1x8 0x20"),
        rests("ReloadFailed", "12m"),
        fires("ReloadFailed", "20m", ticket("The tokens and the certificate of a are those from before the last reload.", instance="a")),
        of('job_name="a"', image_failing="1x8 0 1x20"),
        of('job_name="b"', image_failing="0x30"),
        rests("ImageFails", "18m"),
        fires("ImageFails", "25m", ticket("The image of job a, or a cut of its log, can not be written.", job_name="a")),
        of('instance="a"', clock_ahead_seconds="0x5 -3600x30"),
        of('instance="b"', clock_ahead_seconds="59x35"),
        rests("Clock", "14m"),
        fires("Clock", "20m", ticket("The moments of calls are 3600 seconds away from the clock of a.", instance="a")),
    ]),
]
# The job `orders` has a cleaner that is a target, `lone` has none.
SET_UP = [
    ("1m", [
        of('job="relkvanu",installation="a",instance="x",job_name="orders"', mode="1x90"),
        of('job="relkvanu",installation="a",instance="x",job_name="lone"', mode="1x90"),
        of('job="relkvanu-clean",instance="y",job_name="orders"', clean_works="0x90"),
        rests("NoBackup", "29m"),
        rests("NoCleaner", "29m"),
        fires("NoBackup", "31m", ticket("No backup of the service is known.")),
        fires("NoCleaner", "31m", ticket("No cleaner of job lone is a target.", job_name="lone")),
    ]),
]
