"""What test_unit.py does inside the container. Prints what it found as JSON, or an error."""
import json
import os
import re
import shutil
import signal
import sqlite3
import subprocess
import threading
import time

import harness
from harness import Engine, Server, Service, content, counts, process_status, raised, save
from relkvanu_service import Failed, ack, cancel, dispose, savepoint

WRITE = "w" * 20
SERVER = Server("/", token=WRITE, port=7780)
SERVICE = Service(SERVER.url, token=WRITE, patience=240)
JOB = SERVICE.job("orders")
# no checkpoint is due between two looks at the job
SETTINGS = {"interval": 1 << 40}
OVER_TLS = "https://relkvanu.example:7780"


def run(*words, check=True):
    told = subprocess.run(words, stdout=subprocess.PIPE, stderr=subprocess.STDOUT, text=True, check=False)
    assert told.returncode == 0 or not check, (words, told.stdout, whole_journal())
    return told.stdout.strip()


def journal(unit="relkvanu"):
    return run("journalctl", f"--unit={unit}", "--no-pager", check=False)


def whole_journal():
    """The end of what all units and systemd itself have said."""
    return run("journalctl", "--no-pager", "--lines=40", "--output=short-precise", check=False)[-6000:]


def property_of(name, unit="relkvanu"):
    return run("systemctl", "show", "--value", "--property", name, unit)


def until(said):
    """Waits until it is so, on a busy machine too."""
    return harness.until(said, 30, told=lambda: journal()[-2000:])


def is_ready():
    return SERVER.get("/readyz")[0] == 200


def restart():
    run("systemctl", "restart", "relkvanu")
    until(is_ready)


def procedure(name):
    """The commands of a procedure that the pages quote, but for those that fetch packages."""
    lines = re.search(rf"^# {name}: .*\n((?:.+\n)+)", content("/procedures.sh"), re.MULTILINE)[1].splitlines()
    return [line for line in lines if not line.startswith("apt-get ")]


def given(*lines, status=0):
    """Runs lines in one shell, which begins with the variables of the pages."""
    for _ in range(3):
        lost = lost_groups()
        text = "\n".join([*procedure("variables"), *lines])
        told = subprocess.run(["bash", "-euc", text], stdout=subprocess.PIPE, stderr=subprocess.STDOUT, text=True, check=False)
        if told.returncode == status or lost_groups() == lost:
            break  # else systemd failed before it had started the program, and the page says to run the commands again
    assert told.returncode == status, (lines, told.stdout, whole_journal())
    return told.stdout


def lost_groups():
    """How often systemd could not put a process into its control group, which this container's kernel had removed: 219 is no status of the program."""
    return run("journalctl", "--no-pager", "--output=cat", check=False).count("status=219/CGROUP")


def place(name, text):
    os.makedirs("/etc/relkvanu", exist_ok=True)
    save(f"/etc/relkvanu/{name}", text)
    os.chmod(f"/etc/relkvanu/{name}", 0o600)


def install():
    """The program is built already. It speaks no TLS yet."""
    os.makedirs("repository/build/bin")
    os.chdir("repository")
    os.mkdir("service")
    shutil.copytree("/deploy", "service/deploy")
    os.symlink("/relkvanu", "build/bin/relkvanu")
    # no backup begins by itself meanwhile: the hour of the night may be now
    os.makedirs("/etc/systemd/system/relkvanu-backup.timer.d")
    save("/etc/systemd/system/relkvanu-backup.timer.d/later.conf", "[Timer]\nOnCalendar=\nOnCalendar=2090-01-01\n")
    place("token", f"read {'r' * 20}\nwrite {WRITE}\n")
    place("write-token", f"{WRITE}\n")
    shutil.copy("service/deploy/service.toml", "/etc/relkvanu")
    program, _, start = procedure("install")
    given(program, start)


def check_it_runs():
    until(is_ready)
    assert property_of("ActiveState") == "active" and property_of("NRestarts") == "0"
    uid = int(process_status(property_of("MainPID"))["Uid"].split()[0])
    assert 61184 <= uid <= 65519, f"{uid} is no dynamic user"
    assert os.stat("/var/lib/private/relkvanu/relkvanu.db").st_uid == uid
    assert os.stat("/etc/relkvanu/token").st_mode & 0o777 == 0o600
    assert SERVICE.open("orders", SETTINGS, [1]).call(savepoint())["id"] == 1


def check_a_reload():
    """The same process takes a new token. If the file is bad it keeps those that it has."""
    process, tokens = property_of("MainPID"), content("/etc/relkvanu/token")
    for text, status in ((f"{tokens}read {'n' * 20}\n", 200), ("read short\n", 200), (tokens, 401)):
        save("/etc/relkvanu/token", text)
        before = journal().count("as they were") + journal().count("are read again")
        run("systemctl", "reload", "relkvanu")
        until(lambda: journal().count("as they were") + journal().count("are read again") > before)
        assert SERVER.get("/v1/jobs", "n" * 20)[0] == status and SERVER.get("/v1/jobs")[0] == 200, text
    assert property_of("MainPID") == process and os.stat("/etc/relkvanu/token").st_mode & 0o777 == 0o600
    assert not os.stat("/run/relkvanu-keys/token").st_mode & 0o077


def main_process():
    """The number of the service's process. There is none for a moment where it is started again."""
    return until(lambda: int(property_of("MainPID")))


def after(number):
    """How long it takes until the service is ready again after a signal, with the job that it had."""
    restarts, began = int(property_of("NRestarts")), time.monotonic()
    os.kill(main_process(), number)
    # a busy machine may have it late at its watchdog once more
    until(lambda: int(property_of("NRestarts")) > restarts and is_ready())
    took = time.monotonic() - began
    assert JOB.record(1)["missing"] == ["0.0"]
    return took


def state_file(number):
    save(f"/srv/orders/state-{number}.bin", "state")
    return f"/srv/orders/state-{number}.bin"


def savepoint_of(number):
    """A savepoint with one file."""
    state_file(number)
    record = JOB.call(savepoint())["id"]
    JOB.call(ack(record, "0.0", [number]))
    return record


def check_a_backup_is_restored():
    """Nothing is overwritten, and nothing starts by itself meanwhile. Then a record is found that has all its files, and what nobody needs."""
    lost, kept = savepoint_of(31), savepoint_of(32)
    given("relkvanu backup --database $DATABASE --to copy.db")
    before = JOB.state()
    JOB.call(dispose(lost))
    until(lambda: not os.path.exists("/srv/orders/state-31.bin"))
    assert savepoint_of(41) > kept
    JOB.call(cancel())
    os.mkdir("/var/lib/relkvanu/relkvanu.db.history.bad")
    check_files_set_aside(before)
    assert run("systemctl", "is-enabled", "relkvanu") == "enabled"
    for unit in ("relkvanu-clean", "relkvanu-backup.timer"):
        assert run("systemctl", "is-enabled", unit, check=False) == "disabled"
        assert run("systemctl", "is-active", unit, check=False) != "active"
    rows = [line.split()[:2] + line.split()[3:] for line in given("relkvanu savepoints orders $FILES").splitlines()[1:]]
    assert rows == [[str(lost), "savepoint", "1", "1:", "31"], [str(kept), "savepoint", "1", "none"]], rows
    given(*procedure("from-backup"))
    assert JOB.state()["choice"]["id"] == kept
    # the file that is gone waits for deletion once nobody needs it
    JOB.call(dispose(lost))
    until(lambda: counts(JOB) == (0, 0))
    assert "--allow-absent" in words("relkvanu-clean") and not os.path.exists("/run/relkvanu-clean.options")
    run("systemctl", "restart", "relkvanu-clean")
    assert "--allow-absent" not in words("relkvanu-clean")


def check_restored(before):
    """The service serves what the copy has when the commands of the page have ended."""
    given(*procedure("put-back"))
    until(is_ready)
    after = JOB.state()
    assert after["mode"] == "running" and after["seq"] == before["seq"] and after["live"] == before["live"], (before, after)
    assert words()[-1] == "--accept-clock" and not os.path.exists("/run/relkvanu.options")
    assert "relkvanu.db.restored" not in os.listdir("/var/lib/relkvanu")


def check_files_set_aside(before):
    """The way back is the same. (test_put_back.py has what is not replaced, and what a loss of power or of the disk leaves.)"""
    aside = "/var/lib/relkvanu/aside"

    def check_aside():
        found = set(os.listdir(aside))
        assert {"relkvanu.db", "relkvanu.db-wal", "relkvanu.db.history", "relkvanu.db.history.bad"} <= found, found
        with sqlite3.connect(f"{aside}/relkvanu.db") as base:
            assert base.execute("select count(*) from call where line like 'cancel%'").fetchone() == (1,)
        base.close()

    check_restored(before)
    check_aside()
    given("systemctl stop relkvanu", "relkvanu put-back --back --database $DATABASE", "systemctl enable --now relkvanu")
    until(is_ready)
    assert JOB.state()["mode"] == "cancelled" and not os.path.exists(aside)
    run("systemctl", "stop", "relkvanu")
    shutil.rmtree("/var/lib/relkvanu/aside.not-used")
    check_restored(before)
    shutil.rmtree(aside)


def words(unit="relkvanu"):
    return content(f"/proc/{property_of('MainPID', unit)}/cmdline").split("\0")[:-1]


def check_an_upgrade():
    """By the same program, with a byte more."""
    shutil.copy("/relkvanu", "relkvanu-new")
    with open("relkvanu-new", "ab") as it:
        it.write(b"x")
    seq = JOB.state()["seq"]
    assert "job orders: " in given(*procedure("upgrade")) and os.path.getsize("before-upgrade.db") > 4096
    until(is_ready)
    assert JOB.state()["seq"] == seq and os.path.getsize("/usr/local/bin/relkvanu") == os.path.getsize("/relkvanu") + 1


def check_backups_of_each_night():
    """The 14 newest copies stay, each with a savepoint, and the metric says when. Without its token the unit fails after it has made the copy."""
    metric = "/var/lib/prometheus/node-exporter/relkvanu.prom"
    os.makedirs("/var/backups/relkvanu")
    for name in (*(f"202001{day}T000000Z.db" for day in range(10, 25)), "20200101T000000Z.db.part"):
        save(f"/var/backups/relkvanu/{name}", "old")
    engine = Engine(JOB)
    run("systemctl", "start", "relkvanu-backup")
    assert not os.path.exists(metric)  # there is no node exporter
    names = copies()
    assert len(names) == 14 and names[0] == "20200112T000000Z.db" and names[-1] > "2026", names
    assert run("relkvanu", "check", "--database", f"/var/backups/relkvanu/{names[-1]}").startswith("job orders: ")
    [note] = json.loads(content("/var/backups/relkvanu/savepoints.json"))
    assert (note["job"], note["copy"]) == ("orders", names[-1]) and JOB.record(note["made"][0])["missing"] == [], note
    os.makedirs(os.path.dirname(metric))
    next_night()
    engine.stop()
    name, _, at = content(metric).partition(" ")
    assert name == "relkvanu_backup_timestamp_seconds" and abs(float(at) - time.time()) < 600, (name, at)
    os.remove(metric)
    place("write-token", "x" * 20)
    before = copies()
    next_night(check=False)
    assert property_of("Result", "relkvanu-backup") == "exit-code" and copies()[-1] > before[-1] and not os.path.exists(metric), copies()
    place("write-token", f"{WRITE}\n")
    check_a_restore_is_tried()


def next_night(**given):
    """A copy has a name of its own."""
    last = copies()[-1]
    until(lambda: f"{time.strftime('%Y%m%dT%H%M%SZ', time.gmtime())}.db" > last)
    run("systemctl", "start", "relkvanu-backup", **given)


def copies():
    return sorted(name for name in os.listdir("/var/backups/relkvanu") if name.endswith("Z.db"))


def check_a_restore_is_tried():
    """Beside the service, over the newest copy: each of its savepoints has its file. Nothing is changed, and nothing is left."""
    def found():
        return JOB.state()["seq"], sorted(os.listdir("/srv/orders")), copies(), sorted(os.listdir("/var/tmp")), property_of("MainPID")

    def has_nothing(unit):
        """systemd deletes what a unit had there after it tells its end."""
        until(lambda: not any(f"-{unit}.service-" in name for name in os.listdir("/var/tmp")))

    has_nothing("relkvanu-backup")
    before = found()
    rows = re.findall(r"^\d+ +savepoint.* (\S+)$", given(*procedure("try-restore")), re.MULTILINE)
    assert rows and set(rows) == {"none"}, rows
    has_nothing("relkvanu-try")
    assert run("systemctl", "is-active", "relkvanu-try", check=False) == "inactive" and found() == before, (found(), before)


def check_the_cleaner():
    """It deletes files of the engine's user, and comes again after a kill. Without its marker a folder is left alone, and that is told."""
    unit, marker = "relkvanu-clean", "/srv/orders/.relkvanu-orders"
    run("useradd", "--system", "orders")
    os.makedirs("/srv/orders")
    shutil.chown("/srv/orders", "orders")
    given("relkvanu set orders $FILES", *procedure("clean"))
    until(lambda: os.path.exists(marker))
    assert os.stat(marker).st_uid == os.stat("/srv/orders").st_uid

    def disposed(number):
        record = savepoint_of(number)
        JOB.call(dispose(record))
        return f"/srv/orders/state-{number}.bin"

    for number in (7, 8):
        path = disposed(number)
        until(lambda: not os.path.exists(path))
        os.kill(int(property_of("MainPID", unit)), signal.SIGKILL)
        until(lambda: int(property_of("NRestarts", unit)) >= number - 6 and property_of("ActiveState", unit) == "active")
    os.rename(marker, "/srv/marker")
    run("systemctl", "restart", unit)
    path = disposed(9)
    until(lambda: "has no file .relkvanu-orders" in journal(unit))
    assert os.path.exists(path) and property_of("ActiveState", unit) == "active"
    os.rename("/srv/marker", marker)
    run("systemctl", "restart", unit)
    until(lambda: not os.path.exists(path))


def check_an_option_for_one_start():
    save("/run/relkvanu.options", "RELKVANU_OPTIONS=--accept-clock\n")
    for more in (["--accept-clock"], []):
        restart()
        assert words()[-len(more) - 1 :] == ["/run/credentials/relkvanu.service/token", *more]


def check_it_ends(status):
    """At a restart, which is the last one."""
    run("systemctl", "restart", "relkvanu", check=False)
    until(lambda: property_of("ActiveState") == "failed")
    assert property_of("ExecMainStatus") == status and property_of("NRestarts") == "0", run("systemctl", "status", "relkvanu", check=False)


def check_a_wrong_option_ends_it():
    save("/run/relkvanu.options", "RELKVANU_OPTIONS=--accept-clok\n")
    check_it_ends("2")
    os.remove("/run/relkvanu.options")
    restart()


def check_a_long_start():
    """A reader of the database keeps the start from being ready for longer than the unit allows. The process asks for more time; on a busy
    machine it needs some seconds until it does. It waits for a reader for 10 s at most."""
    with_setting("start", "TimeoutStartSec=5")
    run("systemctl", "stop", "relkvanu")
    reader = sqlite3.connect("/var/lib/relkvanu/relkvanu.db", isolation_level=None, check_same_thread=False)
    reader.execute("begin")
    reader.execute("select count(*) from call").fetchone()
    threading.Timer(7, reader.close).start()
    started = time.monotonic()
    run("systemctl", "start", "relkvanu")
    took = time.monotonic() - started
    until(is_ready)
    assert took > 5.5 and property_of("NRestarts") == "0", took
    return took


def check_tls_from_nothing():
    """What an operator does with a release: the steps of the page, without those that fetch packages. Each token may do what it says."""
    run("systemctl", "stop", "relkvanu", check=False)
    run("systemctl", "reset-failed", "relkvanu", check=False)
    for path in ("/etc/relkvanu", "/etc/systemd/system/relkvanu.service.d", "/run/systemd/system/relkvanu.service.d", "/var/lib/private/relkvanu"):
        shutil.rmtree(path, ignore_errors=True)
    # what a machine has and this container does not
    os.makedirs("/etc/ssl/certs", exist_ok=True)
    open("/etc/ca-certificates.conf", "a", encoding="utf-8").close()
    given(*procedure("install"))
    given(*procedure("trust"))
    assert given(f"curl --silent {OVER_TLS}/readyz") == "ready\n"
    service = {it: Service(OVER_TLS, token=content(f"/etc/relkvanu/{it}-token").strip(), ca="/etc/relkvanu/certificate.pem") for it in ("read", "write")}
    job = service["write"].open("orders", SETTINGS, [1, 2])
    given(*procedure("over-tls"), "systemctl enable --now relkvanu-backup.timer")
    engine = Engine(job)
    given("systemctl start relkvanu-backup")
    engine.stop()
    shown = given(*procedure("over-tls"), "relkvanu show orders --token-file /etc/relkvanu/read-token")
    assert re.search(r"^mode +running$", shown, re.MULTILINE), shown
    os.remove("copy.db")
    told = given(*procedure("over-tls"), "relkvanu backup --database /var/lib/relkvanu/relkvanu.db --to copy.db", "relkvanu savepoints orders $FILES")
    assert re.search(r"^\d+ +savepoint(, the latest)? +\S+ +0 +none$", told, re.MULTILINE) and os.path.exists("copy.db"), told
    for name in ("key.pem", "token", "read-token", "write-token"):
        assert os.stat(f"/etc/relkvanu/{name}").st_mode & 0o777 == 0o600, name
    assert [it["name"] for it in service["read"].jobs()] == ["orders"]
    assert raised(Failed, lambda: service["read"].job("orders").call(cancel())).status == 401
    assert "cancel" in job.call(cancel())
    assert SERVER.get("/readyz")[0] == 0, "it speaks without TLS too"


def with_setting(name, text):
    os.makedirs("/run/systemd/system/relkvanu.service.d", exist_ok=True)
    save(f"/run/systemd/system/relkvanu.service.d/{name}.conf", f"[Service]\n{text}\n")
    run("systemctl", "daemon-reload")


def after_a_stop(seconds):
    """How long it takes after SIGSTOP, with a watchdog of so many seconds, which no other check has."""
    with_setting("watchdog", f"WatchdogSec={seconds}")
    restart()
    took = after(signal.SIGSTOP)
    os.remove("/run/systemd/system/relkvanu.service.d/watchdog.conf")
    run("systemctl", "daemon-reload")
    restart()
    return took


def check_a_bad_setting_ends_it():
    with open("/etc/relkvanu/service.toml", "a", encoding="utf-8") as it:
        it.write("\nlistn = 'x'\n")
    check_it_ends("78")
    until(lambda: "listn" in journal())  # a line may come there after the end of its process


def main():
    install()
    check_it_runs()
    check_a_reload()
    check_the_cleaner()
    run("systemctl", "enable", "--now", "relkvanu-backup.timer")
    after_kill = after(signal.SIGKILL)
    after_stop = after_a_stop(2)
    check_a_backup_is_restored()
    check_an_upgrade()
    check_backups_of_each_night()
    check_an_option_for_one_start()
    check_a_wrong_option_ends_it()
    long_start = check_a_long_start()
    run("systemctl", "stop", "relkvanu")
    assert property_of("Result") == "success" and property_of("ExecMainStatus") == "0"
    check_a_bad_setting_ends_it()
    check_tls_from_nothing()
    told = journal()
    assert "serves on" in told and WRITE not in told, told[-1000:]
    print(json.dumps({"after_kill": after_kill, "after_stop": after_stop, "long_start": long_start}))


if __name__ == "__main__":
    main()
