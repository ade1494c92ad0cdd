"""The steps of the tests of built programs, and a runner that runs them side by side.

A step has ports, folders and names of its own, so any other step can run beside it. Estimates decide the order: the
longest step starts first, if the processors that it keeps busy are free. After a failure no further step starts, and
the running ones run to their ends.
"""

import collections
import contextlib
import os
import re
import select
import signal
import subprocess
import tempfile
import time
from dataclasses import dataclass

from checks import SKIPPED
from workspace import ROOT

PROCESSORS = len(os.sched_getaffinity(0))

# Maximum load of all running steps. Those that mostly wait need little more than the others.
CAPACITY = PROCESSORS + 1

# Conditions that a step may need. Programs as their proofs built them: those of tests/check execute more instructions,
# and are in another folder.
PROVED = "proved programs"

# The probes that play rows, by LLVM and by Rattle's own compiler.
PROBES, BY_RATTLE = "probes", "probes by Rattle"

# bin/libdachreup.a, and bin/coap-mqtt.
ARCHIVE, GATEWAY = "archive", "gateway"

# The rights of root, to install packages.
ROOT_RIGHTS = "root"

# Number of last lines of a failed step that are printed again at the end.
LAST = 40

# Seconds in which a step that is ended may clean up.
PATIENCE = 20

# Seconds after which a running step is ended, and has failed: that many times its estimate, and at least the other
# limit. A machine may be slower, and other steps run beside.
MOST_TIMES, LEAST_LIMIT = 20, 900

# Seconds between two looks at these limits.
LOOK = 10


@dataclass(frozen=True)
class Step:
    """A command of the tests. `seconds` and `used` estimate its elapsed and its processor time on an idle machine."""

    words: list
    seconds: float
    used: float
    needs: tuple = ()
    makes: str = ""

    def limit(self):
        """Returns the number of seconds after which the step is ended."""
        return max(MOST_TIMES * self.seconds, LEAST_LIMIT)

    def load(self):
        """Returns the number of processors that the step keeps busy: half of them, if it has a process for each."""
        return min(self.used / self.seconds, PROCESSORS / 2)


def parts(words, estimates, needs=()):
    """Returns steps that together run all checks of a script, one for each estimate. `part_of` divides its checks."""
    count = len(estimates)
    return [Step([*words, "--part", f"{at}/{count}"], *estimate, needs) for at, estimate in enumerate(estimates, 1)]


def bin_of(*names):
    return [f"{ROOT}/bin/{it}" for it in names]


PROGRAMS = SERVER, CLIENT, EXPLAIN, DIRECTORY = bin_of("coap-server", "coap-client", "coap-explain", "coap-directory")
EXAMPLES = bin_of("example-gateway", "example-observer", "example-actuator")
EXAMPLE_GATEWAY, EXAMPLE_OBSERVER, EXAMPLE_ACTUATOR = EXAMPLES
LIBRARY, MQTT = bin_of("libdachreup.a", "coap-mqtt")

# The proof of the C library, over what `rt ci` keeps.
BUILD_ARCHIVE = Step(["python3", "tests/system/c_library.py", "--archive"], 180, 450, (PROVED,), ARCHIVE)

# Steps that read sources alone, in seconds. `rt ci` finds some of these errors too, after an hour.
SOURCES = [
    Step(["python3", "tests/tools/layout.py"], 10, 16),
    Step(["python3", "tests/tools/crate_limits.py"], 1, 1),
    Step(["python3", "tests/tools/unused_lemmas.py"], 3, 3),
    Step(["python3", "tests/tools/conformance.py"], 1, 1),
    Step(["python3", "tests/tools/guarantees.py"], 2, 1),
    Step(["python3", "tests/tools/examples.py"], 1, 1),
    Step(["python3", "tests/tools/prose.py"], 5, 5),
    Step(["python3", "tests/tools/architecture.py"], 1, 1),
    Step(["python3", "tests/tools/links.py"], 1, 1),
    Step(["python3", "tests/tools/targets.py"], 1, 1),
    Step(["python3", "tests/vectors/row_list.py"], 1, 1),
    Step(["python3", "tests/mutants/mutants.py", "--quotes"], 1, 1),
]

STEPS = [
    *SOURCES,
    Step(["python3", "tests/harness/rows.py"], 4, 8, (PROBES,)),
    Step(["python3", "tests/harness/rows.py", "--by-rattle"], 4, 8, (BY_RATTLE,)),
    Step(["python3", "tests/harness/rows.py", "--refuse"], 40, 70, (PROBES,)),
    Step(["python3", "tests/vectors/segmentation.py"], 2, 2, (PROBES,)),
    Step(["python3", "tests/vectors/scripts.py", SERVER], 2, 1),
    Step(["python3", "tests/vectors/stdio.py", SERVER], 12, 12),
    Step(["python3", "tests/vectors/bytes.py", SERVER], 20, 70),
    Step(["python3", "tests/system/devices.py", SERVER, CLIENT], 2, 1),
    Step(["python3", "tests/system/alloc_failures.py", SERVER, CLIENT], 3, 1),
    Step(["python3", "tests/system/program.py", SERVER, CLIENT], 3, 1),
    Step(["python3", "tests/system/libcoap.py", SERVER], 2, 1),
    Step(["python3", "tests/system/sockets.py", SERVER, CLIENT], 38, 2),
    Step(["python3", "tests/system/log.py", SERVER, CLIENT], 60, 13),
    Step(["python3", "tests/system/record.py", SERVER, CLIENT], 18, 2),
    Step(["python3", "tests/system/explain.py", SERVER, EXPLAIN], 15, 5),
    Step(["python3", "tests/system/directory.py", DIRECTORY, CLIENT], 7, 3),
    Step(["python3", "tests/system/directory_options.py", DIRECTORY, SERVER, EXPLAIN], 10, 1),
    Step(["python3", "tests/system/idle.py", SERVER], 17, 1),
    Step(["python3", "tests/system/clocks.py", SERVER, CLIENT], 14, 1),
    Step(["python3", "tests/system/interop.py", SERVER, CLIENT], 17, 1),
    Step(["python3", "tests/system/haproxy.py", SERVER], 36, 2),
    Step(["python3", "tests/system/embedding.py", *EXAMPLES, SERVER, CLIENT], 5, 1),
    Step(["python3", "tests/system/documents.py", SERVER, CLIENT, EXPLAIN], 11, 1),
    Step(["python3", "tests/system/tutorial.py"], 110, 107, (PROVED,)),
    Step(["python3", "tests/system/c_library.py", SERVER, CLIENT, LIBRARY], 40, 35, (PROVED, ARCHIVE)),
    Step(["python3", "tests/system/mqtt.py", "--build"], 3, 2, (ARCHIVE,), GATEWAY),
    *parts(["python3", "tests/system/mqtt.py", MQTT], [(50, 8), (60, 12), (90, 15), (120, 30)], (GATEWAY,)),
    Step(["python3", "tests/system/hostile.py", SERVER], 8, 1),
    Step(["python3", "tests/system/flood.py", SERVER], 4, 1),
    Step(["python3", "tests/system/options.py", *PROGRAMS], 12, 7),
    Step(["python3", "tests/system/manuals.py", *PROGRAMS], 15, 1),
    Step(["python3", "tests/system/install.py", *PROGRAMS], 4, 1, (ARCHIVE,)),
    Step(["python3", "tests/system/package.py", *PROGRAMS], 55, 46, (ARCHIVE, ROOT_RIGHTS)),
    Step(["python3", "tests/system/memory.py", SERVER], 3, 5, (PROVED, PROBES)),
    Step(["bench/directory", "--quick"], 10, 27, (PROVED,)),
    Step(["bench/throughput", "--quick"], 17, 7, (PROVED,)),
]


def cost(elapsed, used):
    return f"{elapsed:.0f} s, processor time {used:.0f} s"


class Result:
    """Result of a step: its counts and its last lines. One that prints no counts counts as one check, by its status.
    One that made no check has failed."""

    def __init__(self, words, status, output):
        counts, self.last, self.skipped = None, collections.deque(maxlen=LAST), []
        for line in output:
            self.last.append(line.rstrip())
            self.skipped += [line.strip()] * line.startswith(SKIPPED)
            counted = re.fullmatch(r"(?:.*: )?(\d+) passed, (\d+) failed", line.strip())
            counts = (int(counted[1]), int(counted[2])) if counted else counts
        self.words, self.status = words, status
        self.passed, self.failed = counts or (int(not status), 0)
        self.failed = max(self.failed, int(status != 0 or not self.passed))

    def show_failure(self):
        """Prints the last lines again, if the step failed."""
        if self.failed:
            print(f"== {' '.join(self.words)}: status {self.status}, last lines:", *self.last, sep="\n", flush=True)


def show_end(results):
    """Prints the failures again, and the checks that this machine could not make. Returns the numbers of passed and of
    failed checks."""
    for it in results:
        it.show_failure()
    skipped = [line for it in results for line in it.skipped]
    print("".join(f"{line}\n" for line in skipped), end="")
    print(f"== {len(skipped)} skipped")
    return sum(it.passed for it in results), sum(it.failed for it in results)


class Running:
    """A command that runs. Its output goes to a file."""

    def __init__(self, words):
        self.words, self.started, self.output = words, time.monotonic(), tempfile.TemporaryFile("w+", errors="replace")
        how = {"stdin": subprocess.DEVNULL, "stdout": self.output, "stderr": subprocess.STDOUT}
        # A group, and no session: priorities count within a session alone.
        self.process = subprocess.Popen(words, cwd=ROOT, process_group=0, **how)
        self.end_of = os.pidfd_open(self.process.pid)

    def fileno(self):
        """Returns a descriptor that is readable once the command has ended."""
        return self.end_of

    def elapsed(self):
        return time.monotonic() - self.started

    def kill(self):
        """Kills the command, and all processes that it has started."""
        with contextlib.suppress(ProcessLookupError):
            os.killpg(self.process.pid, signal.SIGKILL)

    def result(self, seconds=None):
        """Waits for the command, prints its output, its elapsed and its processor time, and returns its result. With a
        number of seconds, the command is ended after them."""
        if not select.select([self], [], [], seconds)[0]:
            self.stop()
        elapsed = self.elapsed()
        # Before the wait, so that the number of the group is not used again.
        self.kill()
        _, status, used = os.wait4(self.process.pid, 0)
        os.close(self.end_of)
        self.process.returncode = os.waitstatus_to_exitcode(status)
        with self.output:
            self.output.seek(0)
            lines = self.output.readlines()
        spent = cost(elapsed, used.ru_utime + used.ru_stime)
        print(f"== {' '.join(self.words)}\n{''.join(lines)}== {spent}", flush=True)
        return Result(self.words, self.process.returncode, lines)

    def stop(self):
        """Makes a running command end. It may clean up first."""
        self.process.terminate()
        select.select([self], [], [], PATIENCE)
        self.kill()

    def end(self):
        """Ends the command, if it has not ended."""
        if self.process.poll() is None:
            self.stop()
            self.process.wait()


def next_step(waiting, made, running):
    """Returns the first step that can start, or None. Steps wait in the order of their estimates."""
    load = sum(it.load() for it in running)
    able = (it for it in waiting if made.issuperset(it.needs))
    return next((it for it in able if not running or load + it.load() <= CAPACITY), None)


def run_steps(steps, made):
    """Runs steps side by side, and yields the result of each when it ends. The conditions `made` hold at first."""
    waiting, made, running = sorted(steps, key=lambda it: it.seconds, reverse=True), set(made), {}
    if unmet := [it.words for it in steps if not made.union(other.makes for other in steps).issuperset(it.needs)]:
        raise LookupError(f"no step makes what these need: {unmet}")
    try:
        while True:
            while step := next_step(waiting, made, running.values()):
                waiting.remove(step)
                running[Running(step.words)] = step
            if not running:
                break
            for late in [it for it, step in running.items() if it.elapsed() > step.limit()]:
                print(f"== {' '.join(late.words)}: ended after {late.elapsed():.0f} s", flush=True)
                late.stop()
            for ended in select.select(list(running), [], [], LOOK)[0]:
                step, result = running.pop(ended), ended.result()
                made |= {step.makes} - {""}
                waiting = [] if result.failed else waiting
                yield result
    finally:
        for it in running:
            it.process.terminate()
        for it in running:
            it.end()
