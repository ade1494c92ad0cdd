"""Builds the programs of bench/, starts servers for the load program, and ends them."""

import collections
import contextlib
import os
import socket
import statistics
import subprocess
import sys
import tempfile
import time

ROOT = os.path.dirname(os.path.dirname(os.path.abspath(__file__)))
sys.path.insert(0, f"{ROOT}/tests/harness")
from packages import install  # noqa: E402
from peers import LOCAL as HOST  # noqa: E402
from peers import free_port  # noqa: E402

# gencat belongs to the headers of the C library, which the package gcc alone does not install.
PACKAGES = {"cc": "gcc", "gencat": "libc6-dev"}

# Seconds: until a server must accept, until it must have ended, and for one run of the load program.
STARTS, ENDS, LIMIT = 30, 30, 60

# Seconds of a measurement and its repetitions, the same for --quick, and the minimum seconds of a run that determines
# the number of requests.
USUAL, QUICK, SAMPLE = (1.5, 3), (0.3, 1), 0.05

# Answered requests, seconds, requests per second, and two percentiles of the latency in microseconds.
Figures = collections.namedtuple("Figures", ["requests", "seconds", "rate", "p50", "p99"])


def prepare(packages):
    """Installs missing packages, builds the programs of bench/, and returns true if all of that succeeded."""
    if not install({**PACKAGES, **packages}):
        return False
    os.makedirs(f"{ROOT}/bin", exist_ok=True)
    words = ["cc", "-std=c11", "-O2", "-Wall", "-Wextra", "-Werror"]
    return all(subprocess.run([*words, "-o", f"{ROOT}/bin/{it}", f"{ROOT}/bench/{it}.c"]).returncode == 0
               for it in ("load", "floor"))


def ours(port):
    """Returns the command of the program that is measured."""
    return [f"{ROOT}/bin/coap-server", "-A", HOST, "-p", str(port), "--connections", "256"]


class Server:
    """A server on its own port. `trouble` says why it cannot be measured, and is empty if it can."""

    def __init__(self, name, command, patience=STARTS):
        self.name, self.port, self.output = name, free_port(), tempfile.TemporaryFile()
        try:
            self.process = subprocess.Popen(command(self.port), stdin=subprocess.DEVNULL, stdout=self.output,
                                            stderr=self.output)
        except OSError as trouble:
            self.process, self.trouble = None, str(trouble)
        else:
            self.trouble = self.wait(patience)

    def __enter__(self):
        return self

    def __exit__(self, *_):
        self.end()
        self.output.close()

    def wait(self, patience):
        """Waits at most `patience` seconds until the port accepts. Returns an error, or an empty text."""
        limit = time.monotonic() + patience
        while time.monotonic() < limit:
            if self.process.poll() is not None:
                return self.ended()
            with contextlib.suppress(OSError):
                self.greet()
                return ""
            time.sleep(0.02)
        return f"does not accept within {patience} s"

    def greet(self):
        """Opens a connection, and lets the server close it, so that it does not count for later ones."""
        with socket.create_connection((HOST, self.port), 1) as it, contextlib.suppress(OSError):
            it.shutdown(socket.SHUT_WR)
            while it.recv(4096):
                pass

    def reported(self):
        """Returns the output of the server."""
        self.output.seek(0)
        return self.output.read().decode(errors="replace")

    def ended(self):
        """Returns the status and the output of a server that has ended, without the lines of valgrind."""
        lines = [it for it in self.reported().splitlines() if not it.startswith("==")]
        return f"ended with status {self.process.returncode}: " + ("\n".join(lines) or "it wrote nothing")

    def end(self):
        """Ends the server with SIGTERM, or kills it after a timeout."""
        if self.process and self.process.poll() is None:
            self.process.terminate()
            try:
                self.process.wait(ENDS)
            except subprocess.TimeoutExpired:
                self.process.kill()
                self.process.wait()

    def load(self, connections, outstanding, requests, idle=0):
        """Returns the figures of the load program, or None if a request was not answered; `trouble` then says why."""
        words = [f"{ROOT}/bin/load", "--idle", idle, HOST, self.port, connections, outstanding, requests]
        try:
            ran = subprocess.run([str(it) for it in words], stdin=subprocess.DEVNULL, capture_output=True, text=True,
                                 timeout=LIMIT)
        except subprocess.TimeoutExpired:
            self.trouble = f"{requests:,} requests are not answered within {LIMIT} s"
            return None
        if ran.returncode:
            self.trouble = ran.stderr.strip()
            with contextlib.suppress(subprocess.TimeoutExpired):
                self.process.wait(0.2)
                self.trouble += "; " + self.ended()
            return None
        return Figures(*map(float, ran.stdout.split()))


def count_for(server, cell, seconds):
    """Returns the number of requests that take about this time. The first runs grow until one is long enough to
    estimate it."""
    count = max(200, 4 * cell[0] * cell[1])
    while figures := server.load(*cell, count):
        if figures.seconds >= SAMPLE:
            return max(cell[0] * cell[1], int(figures.rate * seconds))
        count *= 4
    return 0


def medians(rounds):
    """Returns the median of each figure over the rounds."""
    return Figures(*(statistics.median(it) for it in zip(*rounds)))


def measure(servers, cell, seconds, rounds):
    """Returns the figures of each server that answered every request, by its name."""
    healthy = [it for it in servers if not it.trouble]
    counts = {it.name: count_for(it, cell, seconds) for it in healthy}
    taken = {it.name: [] for it in healthy}
    for _ in range(rounds):
        for server in healthy:
            if not server.trouble:
                taken[server.name].append(server.load(*cell, counts[server.name]))
    return {it.name: medians(taken[it.name]) for it in healthy if not it.trouble}
