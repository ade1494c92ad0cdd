#!/usr/bin/env python3
"""Runs the server with a system clock that is set forward and back, by the preloaded library
tests/harness/clock_step.c.

    tests/system/clocks.py bin/coap-server bin/coap-client [NAME ..]

A NAME selects a check, such as `back` for check_back; without a NAME all checks run, side by side. The client has only
a monotonic clock, and only serves to show that its timeout does not depend on the system clock.
"""

import contextlib
import os
import socket
import struct
import subprocess
import sys
import tempfile
import time
from concurrent.futures import ThreadPoolExecutor

sys.path.insert(0, os.path.join(os.path.dirname(os.path.abspath(__file__)), "..", "harness"))
import messages  # noqa: E402
from checks import CSM, Checks  # noqa: E402
from commands import preloaded  # noqa: E402
from peers import LIMIT, LOCAL, Server, authority, read_bytes, started  # noqa: E402

HOUR = 3600

# Seconds of --idle, and maximum seconds by which a connection is released later.
IDLE, LATE = 3, 2

# The number for a system clock that cannot be read.
UNREADABLE = -(1 << 63)

# Maximum seconds after which a response must arrive that is due at once. The server waits for at most one second.
SOON = 1.5


class SystemClock:
    """The system clock of a program, which can be set."""

    def __init__(self):
        self.folder, self.step = tempfile.TemporaryDirectory(prefix="clocks-"), tempfile.TemporaryFile()
        self.library = preloaded("clock_step", self.folder.name)
        self.ahead(0)

    def ahead(self, seconds):
        """Sets the clock, so that it is ahead of the true time by this number of seconds."""
        os.pwrite(self.step.fileno(), struct.pack("=q", seconds), 0)

    def how(self):
        """Returns the arguments of Popen for a program with this clock."""
        return {"env": {**os.environ, "LD_PRELOAD": self.library, "CLOCK_STEP": str(self.step.fileno())},
                "pass_fds": [self.step.fileno()]}

    def __enter__(self):
        return self

    def __exit__(self, *_):
        self.step.close()
        self.folder.cleanup()


class Peer(messages.Stream):
    """A connection to a server, on which requests with a token of one byte are sent."""

    def __init__(self, server):
        super().__init__(server.connect())
        self.socket.settimeout(LIMIT)
        self.socket.sendall(bytes.fromhex("00e1"))
        self.greeting = read_bytes(self.socket, len(CSM) // 2)

    def ask(self, token, options):
        """Sends a GET with these encoded options."""
        self.socket.sendall(bytes([len(options) << 4 | 1, 1, token]) + options)

    def next(self):
        """Returns token and payload of the next response, and the time at which it arrived. At the end of the
        connection the token is None."""
        try:
            _, token, _, payload = super().next()
        except messages.Ended:
            return None, b"", time.monotonic()
        return token[0], payload, time.monotonic()

    def __enter__(self):
        return self

    def __exit__(self, *_):
        self.socket.close()


# The message Release.
RELEASE = bytes.fromhex("00e4")

# The options of requests: Observe and Uri-Path `time`, the same without Observe, and Uri-Path `async` with a query.
OBSERVE, READ = b"\x60\x54time", b"\xb4time"


def delay(seconds):
    query = b"%d" % seconds
    return b"\xb5async" + bytes([0x40 | len(query)]) + query


@contextlib.contextmanager
def observed(programs):
    """Yields the clock of a server, and a peer that observes /time and has received the first representation: the true
    time."""
    with SystemClock() as clock, Server(programs.server, **clock.how()) as server, Peer(server) as peer:
        peer.ask(1, OBSERVE)
        yield clock, peer, int(peer.next()[1])


def next_times(peer, seconds):
    """Returns the times of the notifications that arrive in the next seconds."""
    found, ends = [], time.monotonic() + seconds
    while time.monotonic() < ends:
        token, payload, _ = peer.next()
        if token is None:
            break
        found.append(int(payload))
    return found


def steps(times):
    """Returns the differences of consecutive times."""
    return [later - at for at, later in zip(times, times[1:])]


def check_back(checks, programs):
    """Checks that the time of a server whose clock is set back continues, second by second, and follows the clock again
    once it is ahead."""
    with observed(programs) as (clock, peer, first):
        before = next_times(peer, 2)
        clock.ahead(-HOUR)
        after = next_times(peer, 5)
        times = [first, *before, *after]
        # A wait may end shortly before or after the beginning of a second, so one second may be left out.
        checks.same("no time is repeated, and at most one is left out: %r" % times,
                    (min(steps(times)) >= 1, sum(steps(times)) - len(steps(times)) <= 1), (True, True))
        checks.same("notifications in 5 seconds: %d" % len(after), 4 <= len(after) <= 6, True)
        checks.same("the time is the true one", abs(times[-1] - time.time()) < 2, True)
        clock.ahead(HOUR)
        later = next_times(peer, 2)
        checks.same("the time follows the clock when it is ahead", abs(later[-1] - HOUR - time.time()) < 2, True)
        clock.ahead(0)
        last = next_times(peer, 2)
        checks.same("the time does not go back: %r" % [*later, *last],
                    (min(steps([*later, *last])) >= 1, len(last) >= 2), (True, True))


def check_unreadable(checks, programs):
    """Checks that the time continues while the system clock cannot be read."""
    with observed(programs) as (clock, peer, first):
        clock.ahead(UNREADABLE)
        times = [first, *next_times(peer, 4)]
        checks.same("the time continues: %r" % times, (len(times) >= 4, min(steps(times)) >= 1), (True, True))
        clock.ahead(0)
        times += next_times(peer, 2)
        checks.same("the clock is read again: %r" % times, (min(steps(times)) >= 1, abs(times[-1] - time.time()) < 2),
                    (True, True))


def check_forward(checks, programs):
    """Checks that a delayed response arrives within about a second after the clock is set forward past its time."""
    with SystemClock() as clock, Server(programs.server, **clock.how()) as server, Peer(server) as peer:
        peer.ask(1, delay(HOUR))
        # The server is in its wait for the response.
        peer.ask(2, READ)
        checks.same("a response at once", peer.next()[0], 2)
        time.sleep(0.3)
        set_at = time.monotonic()
        clock.ahead(2 * HOUR)
        token, payload, at = peer.next()
        checks.same("the delayed response, after %.2f s" % (at - set_at), (token, payload, at - set_at < SOON),
                    (1, b"done", True))


def check_delayed(checks, programs):
    """Checks that a delayed response arrives in time although the clock is set back before its time."""
    with SystemClock() as clock, Server(programs.server, **clock.how()) as server, Peer(server) as peer:
        requested_at = time.monotonic()
        peer.ask(1, delay(3))
        clock.ahead(-HOUR)
        token, payload, at = peer.next()
        checks.same("the delayed response, after %.2f s" % (at - requested_at),
                    (token, payload, 1.9 < at - requested_at < 3 + SOON), (1, b"done", True))


def check_client(checks, programs):
    """Checks that the timeout of a client does not depend on the system clock."""
    for seconds in (-HOUR, HOUR):
        with SystemClock() as clock, socket.create_server((LOCAL, 0)) as listener:
            began = time.monotonic()
            words = [programs.client, "-B", "2", "coap+tcp://" + authority(*listener.getsockname())]
            with started(words, stderr=subprocess.PIPE, **clock.how()) as process:
                with listener.accept()[0]:
                    clock.ahead(seconds)
                    said, status = process.stderr.read(), process.wait(LIMIT)
            passed = time.monotonic() - began
            checks.same("a client whose clock is set by %d s, after %.2f s" % (seconds, passed),
                        (status, said, 2 <= passed < 3),
                        (4, b"coap-client: the server sent no CSM within 2 seconds\n", True))


def check_idle(checks, programs):
    """Checks that a silent connection is released in time, and not early, although the clock is set forward or back."""
    with SystemClock() as clock, Server(programs.server, ["--idle", str(IDLE)], **clock.how()) as server:
        for seconds in (2 * HOUR, -HOUR):
            with Peer(server) as peer:
                began = time.monotonic()
                clock.ahead(seconds)
                sent, passed = read_bytes(peer.socket, len(RELEASE)), time.monotonic() - began
                checks.same("a silent connection after a step of %d s, after %.2f s" % (seconds, passed),
                            (sent, IDLE <= passed < IDLE + LATE + SOON), (RELEASE, True))


class Programs:
    """The two programs under test."""

    def __init__(self, server, client_program):
        self.server, self.client = os.path.abspath(server), os.path.abspath(client_program)


CHECKS = [check_back, check_unreadable, check_forward, check_delayed, check_idle, check_client]


def run(check, programs):
    """Runs a check, and returns its counts and its duration in seconds."""
    checks, began = Checks(), time.monotonic()
    try:
        check(checks, programs)
    except (OSError, ValueError, IndexError, subprocess.SubprocessError) as trouble:
        checks.same(check.__name__, repr(trouble), "no trouble")
    return checks, time.monotonic() - began


def main(words):
    programs = Programs(*words[:2])
    chosen = [it for it in CHECKS if not words[2:] or it.__name__.removeprefix("check_") in words[2:]]
    total = Checks()
    with ThreadPoolExecutor(len(CHECKS)) as pool:
        for check, (checks, seconds) in zip(chosen, pool.map(lambda it: run(it, programs), chosen)):
            total.add(checks)
            print("%s: %.1f s" % (check.__name__.removeprefix("check_"), seconds), flush=True)
    return total.end("clocks")


if __name__ == "__main__":
    sys.exit(main(sys.argv[1:]))
