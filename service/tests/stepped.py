"""Scripts that end at programs that they run: before them, or after them. With RELKVANU_EACH=1 at each, otherwise at one of three such moments, and which
ones depends on SEED."""
import os
import random
import signal
import subprocess

from harness import COMMAND, save

KILLED = -signal.SIGKILL
EACH = min(3, int(os.environ.get("RELKVANU_EACH", "3")))
FIRST = random.Random(os.environ.get("SEED", "1")).randrange(EACH)
# Counts its starts. At the one whose number DIE has it ends all of its group: before it does its work, or after it.
STEP = """#!/bin/sh
step=$(($(cat {at}/steps) + 1)); echo $step > {at}/steps
[ "$step.0" != "${{DIE:-}}" ] || kill -9 0
status=0
{real} "$@" || status=$?
[ "$step.1" != "${{DIE:-}}" ] || kill -9 0
exit $status
"""


class Steps:
    """A script, whose programs of these names are in a folder of its own, with what each does, as a command of the shell."""

    def __init__(self, at, script, **programs):
        self.at, self.script, self.bin = at, script, f"{at}/bin"
        os.makedirs(self.bin)
        for name, real in programs.items():
            save(f"{self.bin}/{name}", STEP.format(at=at, real=real))
            os.chmod(f"{self.bin}/{name}", 0o755)

    def run(self, *words, die="", **environment):
        """Returns the status, and what it said."""
        save(f"{self.at}/steps", "0\n")
        path = {"PATH": f"{self.bin}:{os.environ['PATH']}", "DIE": die}
        with subprocess.Popen([self.script, *map(str, words)], cwd=self.at, env={**os.environ, **path, **environment}, stdout=subprocess.PIPE,
                              stderr=subprocess.STDOUT, text=True, start_new_session=True) as process:
            told, _ = process.communicate(timeout=10 * COMMAND)
        return process.returncode, told

    def ends(self, words, fill, check, between=lambda: None, **environment):
        """Ends the command at moments before and after its programs, and runs it again. Returns how many moments there are at least."""
        moment = FIRST
        while True:
            fill()
            status, told = self.run(*words, die=f"{moment // 2 + 1}.{moment % 2}", **environment)
            if status != KILLED:
                assert status == 0, (words, moment, status, told)
                check()
                return moment - EACH + 1
            between()
            status, told = self.run(*words, **environment)
            assert status == 0, (words, moment, told)
            check()
            moment += EACH
