#!/usr/bin/env python3
"""Tests the options that `coap-directory` shares with `coap-server`: --record, --record-limit, --log and --idle.

    tests/system/directory_options.py bin/coap-directory bin/coap-server bin/coap-explain [NAME ..]

A NAME selects a check, such as `record` for check_record; without a NAME all checks run. The last line is 'N passed, M
failed', and the status is 0 if M is 0.
"""

import os
import socket
import subprocess
import sys
import tempfile
import time

sys.path.insert(0, os.path.join(os.path.dirname(os.path.abspath(__file__)), "..", "harness"))
import messages  # noqa: E402
from checks import Checks  # noqa: E402
from directory_peers import CSM, DELETE, GET, LINK_FORMAT, NODE, POST, SENSORS, request  # noqa: E402
from option_table import recorded  # noqa: E402
from peers import LIMIT, LOCAL, Server, free_port, line_of, read_to_end, soon, started  # noqa: E402
from records import Record, record_in, replay, said_by  # noqa: E402

# Code of a Release (RFC 8323 section 5.5).
RELEASE = 0xE4

# The entry points of a directory, in the form of `coap-server --application`.
ENTRIES = [f'/{path};get,post,put,delete;rt="core.{name}";ct=40' for path, name in
           [("rd", "rd"), ("rd-lookup/ep", "rd-lookup-ep"), ("rd-lookup/res", "rd-lookup-res")]]

# Size in bytes at which a record ends: after the header and some lines.
MOST = 1_500

# Requests of one connection: a registration, lookups of it, a refused lookup, and the resources of the server itself.
REQUESTS = [
    request(POST, b"\x01", ["rd"], NODE, SENSORS, LINK_FORMAT),
    request(GET, b"\x02", ["rd-lookup", "ep"], ["ep=node1"]),
    request(GET, b"\x03", ["rd-lookup", "res"]),
    request(POST, b"\x04", ["rd"], ["ep=node2"]),
    request(DELETE, b"\x05", ["rd", "none"]),
    request(GET, b"\x06", [".well-known", "core"]),
    request(GET, b"\x07", ["nothing"]),
]


def talked(connect, *requests):
    """Sends a CSM and these requests on a connection, and returns all bytes that the directory sent."""
    with connect() as peer:
        peer.sendall(b"".join([request(CSM, b"", []), *requests]))
        peer.shutdown(socket.SHUT_WR)
        return read_to_end(peer)[0]


def check_record(checks, program, server, explain):
    """Checks that a record replays with the bytes that each peer received, by the command in its header."""
    with tempfile.TemporaryDirectory() as folder:
        name = f"{folder}/record"
        with Server(program, ["--record", name]) as directory:
            got = {1: talked(directory.connect, *REQUESTS), 2: talked(directory.connect, *REQUESTS[1:3])}
            soon(lambda: os.path.getsize(name) > 0 and b"drop 2" in record_in(name).text)
            directory.end()
        record = record_in(name)
        codes = [messages.parse(it)[0] for it in messages.split(got[1])[0]]
        checks.same("the responses", [it for it in codes if it < 0xE0], [0x41, 0x45, 0x45, 0x80, 0x84, 0x45, 0x84])
        words = record.options()
        entries = [it for before, it in zip(words, words[1:]) if before == "--application"]
        checks.same("the entries in the header", entries, ENTRIES)
        names = [it.name for it in recorded("coap-server")]
        checks.same("the options in the header", list(dict.fromkeys(words[::2])), names)
        checks.same("the command in the header", record.command(), ["--script", name, *words])
        checks.same("the replay", replay(server, record.command()), (0, got, b""))
        done = subprocess.run([explain, name], stdin=subprocess.DEVNULL, capture_output=True, timeout=LIMIT)
        checks.same("the explanation ends well", (done.returncode, done.stderr), (0, b""))
        checks.same("the explanation has the response", b"->  2.01 Created token 01" in done.stdout, True)
        checks.same("no response of the server in its place", b"->  5.04 " in done.stdout, False)


def check_output(checks, program, server, explain):
    """Checks a record that is standard output."""
    port = free_port()
    words = [program, "-A", LOCAL, "-p", str(port), "--record", "-"]
    streams = {"stdin": subprocess.DEVNULL, "stdout": subprocess.PIPE, "stderr": subprocess.PIPE}
    with started(words, **streams) as process:
        line = b"coap-directory: listening on %s:%d\n" % (LOCAL.encode(), port)
        checks.same("the directory listens", line_of(process.stderr), line)
        got = talked(lambda: socket.create_connection((LOCAL, port), LIMIT), *REQUESTS)
        time.sleep(0.3)
        process.terminate()
        text, said = process.communicate(timeout=LIMIT)
    record = Record(text)
    checks.same("nothing else is written", (said, record.torn), (b"", b""))
    replayed = replay(server, ["--script", "-", *record.options()], text)
    checks.same("the replay of standard output", replayed, (0, {1: got}, b""))


def check_limit(checks, program, server, explain):
    """Checks that a record ends at its limit, and that the directory goes on."""
    with tempfile.TemporaryDirectory() as folder:
        name = f"{folder}/record"
        with Server(program, ["--record", name, "--record-limit", str(MOST)]) as directory:
            got = [talked(directory.connect, *REQUESTS[:count]) for count in (1, 7, 7)]
            checks.same("each peer has all responses", [len(messages.split(it)[0]) for it in got], [2, 8, 8])
            line = f"coap-directory: record ended: {name} has reached {MOST} bytes\n"
            checks.same("the line", said_by(directory), line)
        record = record_in(name)
        found = len(record.text) >= MOST, b"open" in record.lines, record.torn
        checks.same("whole lines up to the limit", found, (True, True, b""))
        status, sent, said = replay(server, record.command())
        checks.same("the replay of the first lines", (status, sent[1] == got[0], said), (0, True, b""))


def check_log(checks, program, server, explain):
    """Checks the lines of connections and of messages."""
    with Server(program, ["--log", "3"]) as directory:
        talked(directory.connect, *REQUESTS[:1])
        said = ""
        ends = time.monotonic() + LIMIT
        while "connection 1 ended" not in said and time.monotonic() < ends:
            said += said_by(directory)
    unnamed = [it for it in said.splitlines() if "coap-directory: " not in it]
    checks.same("each line has the name of the program", unnamed, [])
    for part in ["opened by 127.0.0.1", "in: 0.02 POST", "out: 2.01", "ended: "]:
        checks.same(f"a line with {part}", f"connection 1 {part}" in said, True)


def check_idle(checks, program, server, explain):
    """Checks that a silent connection is released, and that one with transfers stays."""
    with Server(program, ["--idle", "1"]) as directory, directory.connect() as busy:
        busy.sendall(request(CSM, b"", []))
        with directory.connect() as silent:
            silent.sendall(request(CSM, b"", []))
            for token in range(9):
                busy.sendall(request(GET, bytes([token]), ["rd-lookup", "ep"]))
                time.sleep(0.5)
            got, end = read_to_end(silent)
        last = messages.parse(messages.split(got)[0][-1])[0]
        checks.same("a Release on the silent connection", (last, end), (RELEASE, "the end"))
        busy.shutdown(socket.SHUT_WR)
        codes = [messages.parse(it)[0] for it in messages.split(read_to_end(busy)[0])[0]]
        checks.same("the busy connection stays", (codes.count(0x45), RELEASE in codes), (9, False))


CHECKS = [check_record, check_output, check_limit, check_log, check_idle]


def main(program, server, explain, *named):
    checks = Checks()
    for check in CHECKS:
        if not named or check.__name__.removeprefix("check_") in named:
            check(checks, program, server, explain)
    return checks.end()


if __name__ == "__main__":
    sys.exit(main(*sys.argv[1:]))
