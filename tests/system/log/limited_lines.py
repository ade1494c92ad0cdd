"""Checks the limits of a log: lines of a second, bytes of a line, printable text, and the last lines."""

import collections
import contextlib
import random
import re
import select
import socket
import subprocess
import time

from client_lines import ask_of
from clocks import HOUR, SystemClock
from log_lines import (
    GET_ROOT, GREETING, LINE, MOST_BYTES, MOST_LINES, RELEASE, SERVER, SETTINGS, ask, lines_in, logging, texts_in,
    texts_of,
)
from message_syntax import encoded
from peers import LIMIT, LOCAL, soon


def check_step_back(checks):
    """If the clock is set back, the limit begins anew, so that lines are written and those left out are reported."""
    with SystemClock() as clock, logging("--log", "2", "--connections", "256", **clock.how()) as (_, port, name):
        for _ in range(200):
            socket.create_connection((LOCAL, port), LIMIT).close()
        clock.ahead(-HOUR)
        before = time.strftime("%Y-%m-%dT%H:%M:%S", time.gmtime(time.time() - HOUR / 2)).encode()
        time.sleep(1.2)
        for _ in range(3):
            socket.create_connection((LOCAL, port), LIMIT).close()
            time.sleep(1.1)
        after = [it for it in lines_in(name) if LINE.fullmatch(it)[1] < before]
        checks.same("lines after a step back", sum(b" opened by " in it for it in after) >= 3, True)
        checks.same("a report after a step back", any(b"lines left out: " in it for it in after), True)


def counts_in(name):
    """Returns the number of lines that a log has, and of those that it reports as left out."""
    texts = texts_in(name)
    left_out = [int(it.rpartition(" ")[2]) for it in texts if it.startswith("lines left out: ")]
    return len(texts) - len(left_out), sum(left_out)


def check_rate(checks, count=100_000):
    """Many connections write at most 100 lines a second, and a line says how many were left out."""
    with logging("--log", "2", "--connections", "256") as (process, port, name):
        began = time.monotonic()
        for _ in range(count):
            socket.create_connection((LOCAL, port), LIMIT).close()
        time.sleep(2.5)
        # On a busy machine, the server accepts the last connections later.
        soon(lambda: sum(counts_in(name)) >= 2 * count)
        took, lines = time.monotonic() - began, lines_in(name)
        seconds = collections.Counter(found[1] for it in lines if (found := LINE.fullmatch(it)))
        checks.same("each line is one of a log", [it for it in lines if not LINE.fullmatch(it)], [])
        checks.same("lines of a second", max(seconds.values()) <= MOST_LINES, True)
        checks.same("lines of all seconds", len(lines) <= MOST_LINES * (took + 1.5), True)
        # A connection that the peer reset has a line more.
        checks.same("no line is lost without a report", 2 * count <= sum(counts_in(name)) <= 3 * count, True)
        checks.same("the server still serves", ask(port, GET_ROOT), GREETING)
        checks.same("the server still runs", process.poll(), None)


def random_message(chance):
    """Returns a message of random options and payload, with zero bytes, escapes, and invalid UTF-8."""
    options, number = [], 0
    for _ in range(chance.randrange(5)):
        number += chance.choice([1, 2, 3, 4, 5, 7, 11, 13, 255, 1_000])
        options.append((number,
                        bytes(chance.choice(b"\x00\x1b[\n\r\x7f\xff\xc3aZ%\"\\") for _ in range(chance.randrange(9)))))
    payload = bytes(chance.randrange(256) for _ in range(chance.randrange(40)))
    return encoded(chance.choice([0x01, 0x02, 0x03, 0x04, 0x05, 0x45, 0x9f, 0xe2, 0x1f]),
                   chance.randbytes(chance.randrange(9)), options, payload)


def check_printable(checks, count=100_000):
    """Whatever a peer sends, each line is printable ASCII of limited length."""
    chance = random.Random(7)
    with logging("--log", "3", "-d", "64") as (_, port, name):
        sent = 0
        while sent < count:
            with socket.create_connection((LOCAL, port), LIMIT) as peer, contextlib.suppress(OSError):
                peer.sendall(SETTINGS)
                peer.settimeout(LIMIT)
                for _ in range(2_000):
                    peer.sendall(random_message(chance))
                    sent += 1
                    while select.select([peer], [], [], 0)[0] and peer.recv(65536):
                        pass
        time.sleep(1.5)
        lines = lines_in(name)
        checks.same("random messages: each line is one of a log", [it for it in lines if not LINE.fullmatch(it)][:3],
                    [])
        checks.same("random messages: length of lines", max(map(len, lines)) <= MOST_BYTES + 1, True)
        checks.same("random messages: some lines", len(lines) > 50, True)
        checks.same("random messages: the server still serves", ask(port, GET_ROOT), GREETING)


def check_last_lines(checks):
    """The last line of a log is written although the limit is reached, and the number of lines left out before it."""
    count = 1_000
    ran = subprocess.run([SERVER, "--stdio", "--log", "3"], input=SETTINGS + count * GET_ROOT, capture_output=True,
                         timeout=LIMIT)
    check_sum(checks, "stdio", ran.stderr, 2 * (count + 1) + 2)
    texts = texts_of(ran.stderr)
    checks.same("stdio: the count of messages", texts[-1].partition(";")[0], "connection 1 ended: end of input")
    checks.same("stdio: the count comes before the last line", texts[-2].startswith("lines left out: "), True)
    put = b"".join(encoded(3, b"\x01", [(11, b"a%d" % at)], b"x") for at in range(count))
    ran = subprocess.run([SERVER, "--stdio", "--log", "1", "-d", "1"], input=SETTINGS + put, capture_output=True,
                         timeout=LIMIT)
    # The first resource is created, and the others are refused.
    check_sum(checks, "stdio at level 1", ran.stderr, count - 1)
    notifications = b"".join(encoded(0x45, b"\x01", [(6, b"%c" % (at % 200 + 1))], b"%d" % at) for at in range(count))
    ran = ask_of(["--log", "3", "-s", "60"], SETTINGS, notifications + RELEASE)
    # The CSMs, the request, the notifications, and the Release are messages.
    check_sum(checks, "client", ran.stderr, count + 4 + 2)
    last = [it for it in texts_of(ran.stderr) if " ended: " in it or "lines left out: " in it][-2:]
    checks.same("client: the last lines", [re.sub(r"\d+$|;.*", "", it) for it in last],
                ["lines left out: ", "connection 1 ended: the server sent Release"])


def check_sum(checks, name, error, count):
    """Checks that the lines written and those left out are `count` lines, and that a second has at most 100 of them."""
    texts = texts_of(error)
    left_out = sum(int(it.rpartition(" ")[2]) for it in texts if it.startswith("lines left out: "))
    written = sum(not it.startswith("lines left out: ") for it in texts)
    checks.same(f"{name}: lines written and left out", written + left_out, count)
    seconds = collections.Counter(found[1] for it in error.splitlines(keepends=True) if (found := LINE.fullmatch(it)))
    checks.same(f"{name}: lines of a second", max(seconds.values()) <= MOST_LINES, True)
