"""Checks records of standard streams, records beside other options, and failing allocations."""

import contextlib
import itertools
import os
import socket
import subprocess
import tempfile

from checks import CSM
from commands import preloaded
from greeted_peers import GET, GET_ROOT, GREETED, PEER_SETTINGS, PUT
from message_syntax import requested
from peers import LIMIT, LOCAL, Server, free_port, read_to_end, soon, started
from records import joined, record_in, replay, said_by


def check_streams(checks, server):
    """Checks the record of a server over standard input and output, alone and with a log."""
    stored = b"".join(requested(PUT, bytes([it]), "a", (), b"x" * it) + requested(GET, b"", "a") for it in range(1, 12))
    stream = PEER_SETTINGS + GET_ROOT + stored + requested(GET, b"", "time")
    streams = {"whole": stream, "cut": stream[:-1], "nothing": b"",
               "malformed": PEER_SETTINGS + GET_ROOT + bytes.fromhex("0f01") + stream}
    words = ["--stdio", "-d", "2", "--starts", "1234567890,77,41"]
    with tempfile.TemporaryDirectory() as folder:
        for (name, sent), level in itertools.product(streams.items(), ("0", "3")):
            file, title = f"{folder}/{name}{level}", f"standard streams, {name}, level {level}"
            plain = subprocess.run([server, *words], input=sent, capture_output=True, timeout=LIMIT)
            done = subprocess.run([server, *words, "--record", file, "--log", level], input=sent, capture_output=True,
                                  timeout=LIMIT)
            checks.same(f"{title}: status and output", (done.returncode, done.stdout), (plain.returncode, plain.stdout))
            log = done.stderr.splitlines()
            checks.same(f"{title}: the log",
                        [b"connection 42 opened by standard input" in log[0], b"connection 42 ended: " in log[-1]]
                        if log else [], [True] * 2 * (level == "3"))
            record = record_in(file)
            checks.same(f"{title}: the replay", replay(server, record.command()), (0, {42: plain.stdout}, b""))
            taken = joined(record.lines, b"in ").get(42, b"")
            checks.same(f"{title}: the accepted bytes", (sent.startswith(taken), len(taken)),
                        (True, len(sent) if name != "malformed" else 6))


def check_waiting(checks, server):
    """Checks that a server over standard input and output writes its record before each wait: for the first byte, and
    for more."""
    with tempfile.TemporaryDirectory() as folder:
        for level in ("0", "3"):
            name, title = f"{folder}/record{level}", f"standard input, level {level}"
            words = ["--stdio", "--record", name, "--log", level]
            with started([server, *words], stdin=subprocess.PIPE, stdout=subprocess.PIPE,
                         stderr=subprocess.PIPE) as process:
                greeting = bytes.fromhex(CSM)
                checks.same(f"{title}: the CSM", process.stdout.read(len(greeting)), greeting)
                begun = [b"open", b"drain 1 %d" % len(greeting)]
                soon(lambda: record_in(name).lines == begun)
                checks.same(f"{title}: the record before the first byte", (record_in(name).lines, record_in(name).torn),
                            (begun, b""))
                process.stdin.write(PEER_SETTINGS)
                process.stdin.flush()
                begun.append(b"in 1 " + PEER_SETTINGS.hex().encode())
                soon(lambda: record_in(name).lines == begun)
                checks.same(f"{title}: the record before more bytes", (record_in(name).lines, record_in(name).torn),
                            (begun, b""))
                process.communicate(timeout=LIMIT)
            checks.same(f"{title}: the record at the end", (process.returncode, record_in(name).lines),
                        (0, [*begun, b"end 1"]))


def check_modes(checks, server):
    """Checks a record with a log, with connections that are ended because they are silent, and at the limit of
    turns."""
    with tempfile.TemporaryDirectory() as folder:
        name = f"{folder}/record"
        with Server(server, ["--record", name, "--log", "3", "--idle", "1"]) as running:
            with running.connect() as peer:
                peer.sendall(PEER_SETTINGS + GET_ROOT)
                got, end = read_to_end(peer)
            checks.same("a silent connection", (got[: len(GREETED)], end), (GREETED, "the end"))
            soon(lambda: b"\ndrop 1\n" in record_in(name).text)
            said = said_by(running)
        checks.same("a record and a log",
                    [it in said for it in ("connection 1 opened by ", " in: 0.01 GET", "connection 1 ended: ")],
                    [True] * 3)
        record = record_in(name)
        checks.same("the release is in the record", b"release 1" in record.lines, True)
        checks.same("the replay of a silent connection", replay(server, record.command()), (0, {1: got}, b""))
        done = subprocess.run([server, "-A", LOCAL, "-p", str(free_port()), "--turns", "1", "--record",
                               f"{folder}/turns"], capture_output=True, timeout=LIMIT)
        lines = [it[:5] for it in record_in(f"{folder}/turns").lines]
        checks.same("the limit of turns", (done.returncode, lines in ([], [b"tick "])), (3, True))


def check_memory(checks, server):
    """Makes each allocation of a server with a record fail in turn. The record has all that its peer received."""
    stream = PEER_SETTINGS + GET_ROOT + requested(PUT, b"\x02", "a", (), b"x") + requested(GET, b"\x03", "a")
    with tempfile.TemporaryDirectory() as folder:
        shim = preloaded("fail_malloc", folder)
        for over in (over_streams, over_socket):
            failures = 0
            for count in itertools.count(1):
                name = f"{folder}/{over.__name__}{count}"
                status, got, said = over(server, ["-d", "1", "--record", name], stream,
                                         {**os.environ, "LD_PRELOAD": shim, "REFUSE_ALLOCATION": str(count)})
                if "refused\n" not in said:
                    break
                failures += status == 3
                checks.same(f"{over.__name__}, allocation {count}: status",
                            (status, "no memory" in said) in ((3, True), (0, False)), True)
                if os.path.exists(name) and os.path.getsize(name):
                    record = record_in(name)
                    done = replay(server, record.command())
                    checks.same(f"{over.__name__}, allocation {count}: the replay",
                                (done[0], done[1].get(1, b"")[: len(got)], record.torn), (0, got, b""))
            print(f"{over.__name__}: {count - 1} failed allocations, of which {failures} end the program")
            checks.same(f"{over.__name__}: some failures end the program", failures > 0, True)
            checks.same(f"{over.__name__}: the last run", (status, got[-1:]), (0, b"x"))


def over_streams(server, words, stream, environment):
    """Runs a server over standard streams. Returns its status, its output and its error output."""
    done = subprocess.run([server, "--stdio", *words], input=stream, capture_output=True, timeout=LIMIT,
                          env=environment)
    return done.returncode, done.stdout, done.stderr.decode()


def over_socket(server, words, stream, environment):
    """Runs a server with one peer. Returns its status, 0 if it has not ended, the bytes that the peer received, and its
    error output."""
    port, got = free_port(), b""
    command = [server, "-A", LOCAL, "-p", str(port), *words]
    with started(command, stdin=subprocess.DEVNULL, stdout=subprocess.DEVNULL, stderr=subprocess.PIPE,
                 env=environment) as process:
        said = b""
        while b" listening on " not in said and (line := process.stderr.readline()):
            said += line
        if b" listening on " in said:
            # A server whose allocation has just failed may have ended.
            with contextlib.suppress(ConnectionError), socket.create_connection((LOCAL, port), LIMIT) as peer:
                peer.sendall(stream)
                # It may have ended just now too, and then nothing can be shut down.
                with contextlib.suppress(OSError):
                    peer.shutdown(socket.SHUT_WR)
                got, _ = read_to_end(peer)
        with contextlib.suppress(subprocess.TimeoutExpired):
            process.wait(0.2)
        status = process.poll() or 0
        process.kill()
        return status, got, (said + process.stderr.read()).decode()
