"""Checks the lines of connections: levels, reasons and warnings."""

import re
import socket
import subprocess
import time

from log_lines import (
    GET_ROOT, GREETING, LARGE, SERVER, SETTINGS, SMALL, ask, check_times, lines_in, logging, settled, texts_of,
)
from message_syntax import encoded
from peers import LIMIT, LOCAL, read_bytes, reset


def check_levels(checks):
    """Each level has its lines and those of the lower levels."""
    for level, wanted in ((None, 0), ("0", 0), ("1", 0), ("2", 2), ("3", 6)):
        with logging(*(["--log", level] if level else [])) as (_, port, name):
            checks.same(f"response at level {level}", ask(port, GET_ROOT), GREETING)
            checks.same(f"number of lines at level {level}", len(settled(name, wanted)), wanted)


def check_lines(checks):
    """The lines of a connection name its number, its peer, its messages and its end."""
    with logging("--log", "3", "-d", "4") as (_, port, name):
        began = time.time()
        with socket.create_connection((LOCAL, port), LIMIT) as peer:
            own = peer.getsockname()[1]
            peer.sendall(SETTINGS + encoded(3, b"\x2a", [(11, b"heat"), (12, b"")], b"21.5"))
            read_bytes(peer, 11)
        lines = settled(name, 6)
        check_times(checks, "server", b"".join(lines_in(name)), began)
        checks.same("first line", lines[:1], [f"connection 1 opened by 127.0.0.1:{own}"])
        checks.same("CSM", [it for it in lines if "CSM" in it or "7.01" in it][:1] != [], True)
        checks.same("PUT",
                    any(" in: " in it and "PUT" in it and "Uri-Path" in it and "heat" in it and "21.5" in it
                        for it in lines), True)
        checks.same("2.01", any(" out: " in it and "2.01 Created" in it for it in lines), True)
        checks.same("last line",
                    bool(re.fullmatch(r"connection 1 ended: end of input; 2 messages, \d+ bytes in; 2 messages, \d+ "
                                      r"bytes out", lines[-1])), True)


def check_warnings(checks):
    """A limit that refused something is a warning. If clients create no resources, 4.06 comes of Accept alone."""
    with logging("--log", "1") as (_, port, name):
        ask(port, encoded(1, b"\x01", [(17, b"\x32")], b""), GET_ROOT)
        checks.same("4.06 for another format", settled(name, 0), [])
    with logging("--log", "1", "-d", "1", "--connections", "2", "--pending", "0") as (_, port, name):
        put = [encoded(3, bytes([i]), [(11, b"a%d" % i)], b"x") for i in range(2)]
        ask(port, *put, GET_ROOT)
        lines = settled(name, 1)
        checks.same("a full store is a warning",
                    [it for it in lines if "out: 4.06 Not Acceptable" in it and it.startswith("connection ")] != [],
                    True)
        # A representation that is too long, a full pending list, and a response that is too large for the peer.
        ask(port, encoded(3, b"\x01", [(11, b"a0")], bytes(65_001)), encoded(1, b"\x02", [(11, b"async")], b""), SMALL,
            encoded(1, b"\x03", [], b""), LARGE, GET_ROOT)
        lines = settled(name, 4)
        refusals = ["connection 2 out: 4.13 Request Entity Too Large token 01 Size1=65000",
                    "connection 2 out: 5.03 Service Unavailable token 02",
                    "connection 2 out: 5.00 Internal Server Error token 03"]
        checks.same("refusals are warnings", [it for it in lines if it.startswith("connection 2 ")], refusals)
        with socket.create_connection((LOCAL, port), LIMIT), socket.create_connection((LOCAL, port), LIMIT):
            lines = settled(name, 5)
        checks.same("number of connections", [it for it in lines if "maximum number of connections" in it] != [], True)
        with socket.create_connection((LOCAL, port), LIMIT) as peer:
            peer.sendall(SETTINGS + bytes.fromhex("f0ffffff0003"))
            time.sleep(0.3)
        checks.same("too large", [it for it in settled(name, 6) if "message above the maximum size" in it] != [], True)
        peer = socket.create_connection((LOCAL, port), LIMIT)
        peer.sendall(SETTINGS)
        time.sleep(0.2)
        reset(peer)
        checks.same("failed connection", "connection 6 failed" in settled(name, 7), True)


def check_idle(checks):
    """With `--idle`, each connection has its own reason, and one that failed is a warning, whatever its time."""
    seconds = 2
    with logging("--log", "2", "--idle", str(seconds)) as (_, port, name):
        mute, mild, tiny, waiting, hasty = (socket.create_connection((LOCAL, port), LIMIT) for _ in range(5))
        for peer in (mild, waiting, hasty):
            peer.sendall(SETTINGS)
        # A Max-Message-Size of 1 byte, which is too small for a Release.
        tiny.sendall(bytes.fromhex("20e12101"))
        waiting.sendall(encoded(1, b"\x01", [(11, b"async"), (15, b"60")], b""))
        time.sleep(0.3)
        reset(hasty)
        # The delayed response keeps this peer, although it is silent.
        time.sleep(seconds + 2)
        reset(waiting)
        lines = settled(name, 12)
        reasons = {int(it.split()[1]): it.partition(" ended: ")[2].partition(";")[0] for it in lines
                   if " ended: " in it}
        wanted = {1: "no CSM in time", 2: "Release by the server", 3: "silent connection that could not be released",
                  4: "failed connection", 5: "failed connection"}
        checks.same("reasons with --idle", reasons, wanted)
        checks.same("failed connections with --idle", [it for it in lines if it.endswith(" failed")],
                    ["connection 5 failed", "connection 4 failed"])
        for peer in (mute, mild, tiny):
            peer.close()
    with logging("--log", "1", "--idle", "60") as (_, port, name):
        peer = socket.create_connection((LOCAL, port), LIMIT)
        peer.sendall(SETTINGS)
        time.sleep(0.2)
        reset(peer)
        checks.same("a reset with --idle is a warning", settled(name, 1), ["connection 1 failed"])


def check_stdio(checks):
    """The log of a server over standard input and output has its connection and its messages, and leaves its output as
    it is."""
    said = {}
    for level in ("0", "2", "3"):
        ran = subprocess.run([SERVER, "--stdio", "--log", level], input=SETTINGS + GET_ROOT, capture_output=True,
                             timeout=LIMIT)
        said[level] = ran.stdout
        texts = texts_of(ran.stderr)
        checks.same(f"stdio at level {level}: only lines of a log", len(texts), len(ran.stderr.splitlines()))
        checks.same(f"stdio at level {level}: first line", texts[:1] == ["connection 1 opened by standard input"],
                    level != "0")
        checks.same(f"stdio at level {level}: last line",
                    any(it.startswith("connection 1 ended: end of input; 2 messages, ") for it in texts[-1:]),
                    level != "0")
        checks.same(f"stdio at level {level}: messages",
                    any(" in: 0.01 GET" in it for it in texts) and any(" out: 2.05 Content" in it for it in texts),
                    level == "3")
    checks.same("stdio: the same output", said["3"] == said["2"] == said["0"] != b"", True)


# Streams that stop a connection, each with the reason in the log, and the warning before it.
STOPS = [
    ("00e1 10 01 f0", "malformed message", None),
    ("00e1 0f 01", "token of more than 64 bytes", None),
    ("00e1 f0 ffffff00 03", "message above the maximum size", "connection 1: message above the maximum size"),
    ("00e1 00 20", "message with a reserved code", None),
    ("00 01", "first message is no CSM", None),
    ("10 e1 30", "CSM with an option that is not supported", None),
    ("00e1 10 e2 10", "signaling message with an option that is not supported", None),
    ("00e1 00 e5", "Abort by the peer", None),
    ("00e1 00 e4", "Release by the peer", None),
    ("00e1 10", "end of input within a message", None),
]


def check_stops(checks):
    """The last line of a connection over standard input names the message that stopped it. Such a connection has not
    failed."""
    for stream, reason, warning in STOPS:
        warnings, first, last = ([warning] if warning else [], "connection 1 opened by standard input",
                                 "connection 1 ended: ")
        for level, wanted in (("1", warnings), ("2", [first, *warnings, last + reason])):
            words = [SERVER, "--stdio", "--log", level]
            ran = subprocess.run(words, input=bytes.fromhex(stream), capture_output=True, timeout=LIMIT)
            texts = [it.partition(";")[0] for it in texts_of(ran.stderr)]
            checks.same(f"stdio at level {level}: {reason}", texts, wanted)
