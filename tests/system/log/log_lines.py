"""Servers with a log, and the lines of a log. The programs are the first arguments of the script."""

import calendar
import contextlib
import re
import socket
import subprocess
import sys
import tempfile
import time

from checks import CSM
from peers import LIMIT, LOCAL, accepts, free_port, read_bytes, soon, started

SERVER, CLIENT = sys.argv[1:3]

# A line of a log: the time, the program, and a text of printable ASCII.
LINE = re.compile(rb"(\d{4}-\d\d-\d\dT\d\d:\d\d:\d\d)\.\d{3}Z (coap-server|coap-client): ([\x20-\x7e]+)\n")

# Maximum number of lines of one second, and of bytes of one line without its newline.
MOST_LINES, MOST_BYTES = 100, 1_024

# The server's own CSM, and CSMs with a Max-Message-Size of 10 bytes and of 65,536 bytes.
SETTINGS, SMALL, LARGE = (bytes.fromhex(it) for it in (CSM, "20e1210a", "40e123010000"))
GET_ROOT, RELEASE = bytes.fromhex("0001"), bytes.fromhex("00e4")
GREETING = bytes.fromhex("c0ff636f61702b746370")

# Seconds by which the time of a line may differ from the clock of this test.
LATE = 3

# Standard input and output of a program that is not tested there.
QUIET = {"stdin": subprocess.DEVNULL, "stdout": subprocess.DEVNULL}


@contextlib.contextmanager
def logging(*words, file=None, says=True, **how):
    """Runs a server whose standard error is a file, and yields the server, its port and the name of the file. The
    server listens: its first line is in the file, or with `says` false it has accepted a connection."""
    with tempfile.TemporaryDirectory() as folder:
        name, port = file or f"{folder}/log", free_port()
        command = [SERVER, "-A", LOCAL, "-p", str(port), *words]
        with open(name, "wb") as log, started(command, stderr=log, **QUIET, **how) as process:
            if says:
                listens(process, name)
            else:
                soon(lambda: accepts(port))
            yield process, port, name


def lines_in(name):
    """Returns the lines of a log after the line that says where the server listens."""
    with open(name, "rb") as log:
        return log.read().splitlines(keepends=True)[1:]


def texts_of(error):
    """Returns the texts of the lines of a log, without the time and the name of the program."""
    return [found[3].decode() for it in error.splitlines(keepends=True) if (found := LINE.fullmatch(it))]


def texts_in(name):
    """Returns the texts of the lines of a log after the line that says where the server listens."""
    return texts_of(b"".join(lines_in(name)))


def ask(port, *messages):
    """Sends a CSM and messages, and returns the response to the last one, a GET of the root. The connection is
    closed."""
    with socket.create_connection((LOCAL, port), LIMIT) as peer:
        peer.sendall(SETTINGS + b"".join(messages))
        got = b""
        while not got.endswith(GREETING):
            piece = read_bytes(peer, 1)
            if not piece:
                return got
            got += piece
        return GREETING


def settled(name, count, seconds=3):
    """Waits until a log has this number of lines, and returns its texts."""
    soon(lambda: len(lines_in(name)) >= count, seconds=seconds)
    time.sleep(0.2)
    return texts_in(name)


def check_times(checks, name, error, began):
    """Checks that each line has a time since `began`, by the clock of this test."""
    ends = time.time()
    texts = [found[1].decode() for it in error.splitlines(keepends=True) if (found := LINE.fullmatch(it))]
    times = [calendar.timegm(time.strptime(it, "%Y-%m-%dT%H:%M:%S")) for it in texts]
    is_now = times != [] and began - LATE <= min(times) and max(times) <= ends + LATE
    checks.same(f"{name}: lines have the time of the clock", is_now, True)


def listens(process, name):
    """Waits until a server listens, and returns true, or until it ends."""
    def says():
        with open(name, "rb") as log:
            return b" listening on " in log.read()
    soon(lambda: says() or process.poll() is not None)
    return says() and process.poll() is None
