"""Checks that a test of the gate fails with a program that has an edit, built unproved (tests/mutants/mutants.py)."""

import os
import signal
import subprocess
import sys

sys.path.insert(0, os.path.join(os.path.dirname(os.path.abspath(__file__)), "..", "harness"))
from unproved import build  # noqa: E402
from workspace import ROOT, program_name  # noqa: E402

# The programs by the layers of edits that tests detect, each with its crate.
CRATES = {"server": "program_server", "client": "program_client", "directory": "program_directory"}

# The programs that a test takes, by the layer of its edits.
TAKES = {"server": ("server", "client"), "client": ("server", "client"), "directory": ("directory", "client")}


# Seconds after which a test has failed. An edited program may leave a test waiting again and again.
LIMIT = 900


def passes(layer, test, programs):
    """Returns true if a test, in the form `tests/FILE.py NAME ..`, passes in time with those of these programs that it
    takes."""
    script, *names = test.split()
    words = ["python3", f"{ROOT}/{script}", *(programs[it] for it in TAKES[layer]), *names]
    with subprocess.Popen(words, stdin=subprocess.DEVNULL, stdout=subprocess.DEVNULL, process_group=0) as running:
        try:
            return running.wait(LIMIT) == 0
        except subprocess.TimeoutExpired:
            os.killpg(running.pid, signal.SIGKILL)
            return False


class ProgramTests:
    """All programs unproved without any edit, and those of some tests that pass with them. Any other test detects no
    edit. A test comes with the layer of its edits. `pool` runs the tests side by side."""

    def __init__(self, room, tests, pool):
        self.room = room
        self.programs = {it: f"{room}/{program_name(crate)}" for it, crate in CRATES.items()}
        self.are_built = not build(list(CRATES.values()), room)
        passed = pool.map(lambda it: self.are_built and passes(*it, self.programs), tests)
        self.passing = dict(zip(tests, passed))

    def missed(self, edit):
        """Returns why a test does not detect an edit, or an empty text if it does."""
        layer, test = edit.layer, edit.detected_by
        if not self.are_built:
            return "the programs are not built"
        if not self.passing[layer, test]:
            return f"{test} fails without it"
        crate, wrong = CRATES[layer], f"{self.room}/{edit.crate}/{edit.name}"
        if build([crate], wrong, {edit.crate: edit.applied({})}):
            return "it is not built"
        programs = {**self.programs, layer: f"{wrong}/{program_name(crate)}"}
        return f"{test} passes" if passes(layer, test, programs) else ""
