"""The unit under a real systemd, which is booted in a container: installed, saved and restored as the pages say, killed, stopped
and misconfigured, and set up with TLS from nothing."""
import fcntl
import json
import os
import shutil
import subprocess
import tempfile

from harness import HERE, PROGRAM, SERVICE, TOP, content, folder, save
from run import Skipped

BOOT = """[Unit]
DefaultDependencies=no
Requires=sysinit.target sockets.target
After=sysinit.target sockets.target
SuccessAction=exit-force
FailureAction=exit-force
[Service]
Type=oneshot
WorkingDirectory=/try
ExecStart=/usr/bin/python3 /tests/{script}.py
StandardOutput=file:/try/told
StandardError=file:/try/errors
TimeoutStartSec=1740
"""


def booted(at):
    """Boots systemd over a root of its own, with /usr of this machine, and runs a script in it."""
    binds = [f"--bind={at}:/try", f"--bind-ro={HERE}:/tests", f"--bind-ro={SERVICE}/deploy:/deploy", f"--bind-ro={PROGRAM}:/relkvanu", f"--bind-ro={TOP}/docs:/docs"]
    binds += [f"--bind-ro={TOP}/examples/service/procedures.sh:/procedures.sh", f"--bind-ro={os.environ['RELKVANU_LIB']}:/target/library"]
    # where harness.py looks for them, beside /tests
    binds += [f"--bind-ro={SERVICE}/client:/client", f"--bind-ro={TOP}/bindings:/bindings", f"--bind-ro={TOP}/store/tests:/store/tests"]
    binds += [f"--bind-ro={at}/try.service:/etc/systemd/system/try.service", "--bind-ro=/dev/null:/etc/systemd/system/systemd-firstboot.service", "--bind-ro=/etc/ssl/openssl.cnf"]
    words = ["--quiet", "--console=pipe", "--directory=/", "--volatile=yes", "--private-network", "--register=no", "--keep-unit", f"--machine=relkvanu-test-{os.getpid()}"]
    # the program is installed where /usr of this machine can't be written
    words += [*binds, "--tmpfs=/usr/local/bin", "--tmpfs=/usr/local/lib", "--tmpfs=/usr/local/share", "--boot", "--", "--unit=try.service"]
    # one at a time: two of them would share the control groups of units of the same name
    with open(f"{tempfile.gettempdir()}/relkvanu-systemd.lock", "w", encoding="utf-8") as lock:
        fcntl.flock(lock, fcntl.LOCK_EX)
        return subprocess.run(["timeout", "-k", "5", "1800", "systemd-nspawn", *words], stdout=subprocess.PIPE, stderr=subprocess.STDOUT, text=True, errors="replace", check=False)


def told_by(script, at):
    """What a script says that runs under systemd in a container."""
    if os.geteuid() != 0 or not shutil.which("systemd-nspawn"):
        raise Skipped("root and systemd-nspawn", "systemd can't be booted here")
    save(f"{at}/try.service", BOOT.format(script=script))
    boot = booted(at)
    if not os.path.exists(f"{at}/errors"):
        raise Skipped("a booting systemd", f"it does not boot here: {boot.stdout[-300:]!r}")
    errors = content(f"{at}/errors")
    assert not errors, f"{errors[:2000]} .. {errors[-8000:]}"
    return json.loads(content(f"{at}/told"))


def test_under_systemd():
    with folder() as at:
        told = told_by("under_systemd", at)
        again = f"ready again {told['after_kill']:.1f} s after SIGKILL, {told['after_stop']:.1f} s after SIGSTOP with a watchdog of 2 s"
        return f"{again}; 78 and 2 end it; a start took {told['long_start']:.1f} s; a backup was restored, and the program upgraded; TLS"


def test_the_end_of_a_job():
    """The end of a job with its units, and of one with `keep_on_cancel`."""
    with folder() as at:
        told = told_by("end_under_systemd", at)
        return f"a lost job goes on from record {told['recovered']}, a job ended with its {told['ended']} files, and one kept {told['kept']}"
