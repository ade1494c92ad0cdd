"""Checks records that are still written, the memory, and failing allocations."""

import contextlib
import os
import re
import subprocess
import tempfile
import threading
import time

from commands import preloaded
from explained import EXPLAIN, LIMIT, explain, faults, message
from peers import soon

# Maximum growth of the memory between a small and a large record, and maximum in all, in KiB.
MOST_GROWTH, MOST_MEMORY = 256, 8_192


class Explaining:
    """A program that explains a record which is written piece by piece, and whose output is read by a thread."""

    def __init__(self):
        self.process = subprocess.Popen([EXPLAIN, "-"], stdin=subprocess.PIPE, stdout=subprocess.PIPE)
        self.lines = 0
        self.last = b""
        self.reader = threading.Thread(target=self.read, daemon=True)
        self.reader.start()

    def read(self):
        while piece := os.read(self.process.stdout.fileno(), 1 << 20):
            self.last = (self.last + piece)[-4_096:]
            self.lines += piece.count(b"\n")

    def write(self, piece):
        self.process.stdin.write(piece)
        self.process.stdin.flush()

    def wait_for(self, lines):
        """Waits until this number of lines is printed, and returns true if they are."""
        return soon(lambda: self.lines >= lines)

    def memory(self):
        """Returns the largest resident memory of the program so far, in KiB."""
        with open("/proc/%d/status" % self.process.pid, encoding="ascii") as file:
            return int(re.search(r"VmHWM:\s*(\d+) kB", file.read())[1])

    def end(self):
        """Ends the record, and returns the status of the program."""
        self.process.stdin.close()
        status = self.process.wait(LIMIT)
        self.reader.join(LIMIT)
        return status


@contextlib.contextmanager
def explaining():
    running = Explaining()
    try:
        yield running
    finally:
        running.process.kill()
        running.process.wait(LIMIT)


def check_failed_allocations(checks):
    """If an allocation fails, the status is 3, and the output has the lines of the events before it."""
    lines = ["# options: -d 2", "open", "in 1 00e1", "in 1 " + message(3, b"", [(11, b"a")], b"x").hex(), "drain 1",
             "put /b - 00", "remove /b", "status 1", "in 7 00", "open", "drop 2"]
    wanted, given = explain(lines), "".join(line + "\n" for line in lines).encode()
    with tempfile.TemporaryDirectory() as folder:
        shim = preloaded("fail_malloc", folder)
        failed = 0
        for number in range(1, 1_000):
            environment = {**os.environ, "LD_PRELOAD": shim, "REFUSE_ALLOCATION": str(number)}
            done = subprocess.run([EXPLAIN, "-"], input=given, capture_output=True, env=environment, timeout=LIMIT)
            if b"refused\n" not in done.stderr:
                break
            ran = done.returncode, done.stdout.decode(), done.stderr.decode().replace("refused\n", "")
            # The memory of a list that cannot grow in place may be found elsewhere.
            if ran != wanted:
                checks.same("allocation %d fails" % number,
                            (ran[0], wanted[1].startswith(ran[1]), ran[1] == "" or ran[1].endswith("\n"), ran[2]),
                            (3, True, True, faults("no memory")))
                failed += 1
        checks.same("allocations of a record that end the program", (failed > 20, number < 999), (True, True))


def check_live(checks):
    """Lines are printed as soon as their events are read, without an end of the record."""
    with explaining() as running:
        running.write(b"open\nin 1 00")
        checks.same("first line of a live record", (running.wait_for(1), running.last), (True, b"     1  opened\n"))
        running.write(b"e1\n")
        checks.same("second line of a live record", (running.wait_for(2), running.last.splitlines()[-1]),
                    (True, b"     1  <-  7.01 CSM"))
        checks.same("status of a live record", running.end(), 0)


def check_memory(checks, megabytes):
    """The memory does not depend on the length of the record."""
    get = "in 1 %s\ndrain 1 20\n" % message(1, b"12345678", [(15, b"x" * 100)]).hex()
    piece = get.encode() * (1_000_000 // len(get))
    with explaining() as running:
        running.write(b"open\nin 1 00e1\ndrain 1 8\n")
        running.write(piece)
        lines = 3 + 2 * (1_000_000 // len(get))
        checks.same("lines of the first megabyte", running.wait_for(lines), True)
        small, began = running.memory(), time.monotonic()
        for _ in range(megabytes - 1):
            running.write(piece)
        lines += 2 * (megabytes - 1) * (1_000_000 // len(get))
        checks.same("lines of all megabytes", running.wait_for(lines), True)
        large = running.memory()
        print("%d MB explained in %.1f s, with at most %d KiB" % (megabytes, time.monotonic() - began, large))
        checks.same("growth of the memory from %d to %d KiB" % (small, large),
                    large - small <= MOST_GROWTH and large <= MOST_MEMORY, True)
        checks.same("status of a long record", (running.end(), running.lines), (0, lines))
        checks.same("last line of a long record", running.last.splitlines()[-1],
                    b"     1  ->  2.05 Content token 3132333435363738 Content-Format=0 (text/plain) payload "
                    b"\"coap+tcp\"")
