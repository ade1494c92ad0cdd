#!/usr/bin/env python3
"""Runs the programs over devices that fail, accept nothing, end, or transfer one byte at a time, at each call in turn.

    tests/system/devices.py bin/coap-server bin/coap-client

A preloaded library (tests/harness/devices.c) sets up the devices. These are standard input and output of `--script` and
of the client, and the sockets of both programs, whose calls fail and end. (tests/vectors/stdio.py does this for
`--stdio`. A socket that transfers one byte at a time is tested with slow peers in tests/system/sockets.py.) The output
until the failure must be a prefix of the output without a failure.
"""

import os
import socket
import subprocess
import sys
import tempfile
import threading

sys.path.insert(0, os.path.join(os.path.dirname(os.path.abspath(__file__)), "..", "harness"))
from checks import CSM, GREETING, Checks  # noqa: E402
from commands import preloaded  # noqa: E402
from peers import free_port, line_of, started  # noqa: E402
from alloc_failures import ASKED, ASKING, HOST, LIMIT, LINES, SCRIPT, SERVER_HOST, answer, received  # noqa: E402

# The bytes that a peer sends, and the response of the server.
HELLO, ANSWERED = bytes.fromhex("00e1" "010101" "01e202"), bytes.fromhex(CSM + "a14501" + GREETING + "01e302")

# Number of calls of the server's sockets that fail in turn. Three peers cause no more calls of a kind.
CALLS = 9


def setting(shim, **set_):
    """Returns the environment of a program over devices with these settings. The calls are not recorded."""
    return {**os.environ, "LD_PRELOAD": shim, "DEVICES_TOLD": "-1",
            **{name: str(value) for name, value in set_.items()}}


def ran(command, stream, environment):
    """Runs a command with standard input from a file. Returns its status, its output and its error output."""
    with tempfile.TemporaryFile() as file:
        file.write(stream)
        file.seek(0)
        done = subprocess.run(command, stdin=file, capture_output=True, env=environment, timeout=LIMIT)
    return done.returncode, done.stdout, done.stderr


def check_script(checks, server, shim):
    """Checks a script whose reads and writes fail, each call in turn."""

    def play(**set_):
        return ran([server, "--script", "-", "-d", "2"], SCRIPT, setting(shim, **set_))

    whole, events = (0, LINES, b""), LINES.count(b"\n")
    for set_ in ({}, {"READ_BY": 1}, {"READ_BY": 7}, {"WRITE_TAKING": 1}, {"WRITE_TAKING": 5},
                 {"READ_BY": 1, "WRITE_TAKING": 1}):
        checks.same(f"a script, {set_}", play(**set_), whole)
    unread = (3, b"", b"coap-server: cannot read\n")
    for count in range(len(SCRIPT) // 10 + 2):
        checks.same(f"a script, read {count} fails", play(READ_BY=10, READ_FAILS=count), unread)
    for room in range(len(LINES)):
        checks.same(f"a script, room for {room} bytes", play(WRITE_ROOM=room),
                    (3, LINES[:room], b"coap-server: cannot write\n"))
    checks.same("a script, room for all", play(WRITE_ROOM=len(LINES)), whole)
    ends = [sum(map(len, LINES.splitlines(keepends=True)[:count])) for count in range(events + 1)]
    for count in range(events):
        checks.same(f"a script, write {count} fails", play(WRITE_FAILS=count),
                    (3, LINES[: ends[count]], b"coap-server: cannot write\n"))


def requested(client, words, stream, environment):
    """Runs a client with a peer that responds as a server does. Returns the result of the run, and the bytes that the
    peer received."""
    got = []
    with socket.create_server((HOST, 0)) as listener:
        peer = threading.Thread(target=answer, args=(listener, got))
        peer.start()
        done = ran([client, *words, "coap+tcp://%s:%d/x" % listener.getsockname()], stream, environment)
        # Wakes the peer if no client came.
        listener.shutdown(socket.SHUT_RDWR)
        peer.join()
    return done, b"".join(got)


def check_client_streams(checks, client, shim):
    """Checks a client whose reads of the payload and writes of the response fail, each call in turn."""
    words = ["-m", "put", "-f", "-", "-t", "0", "-O", "2048,0x0102", "-w"]

    def play(**set_):
        return requested(client, words, b"a b", setting(shim, **set_))[0]

    for set_ in ({}, {"READ_BY": 1}, {"WRITE_TAKING": 1}):
        checks.same(f"a client, {set_}", play(**set_), (0, b"hi\n", b""))
    for count in range(4):
        checks.same(f"a client, read {count} fails", play(READ_BY=1, READ_FAILS=count),
                    (3, b"", b"coap-client: cannot read\n"))
    for room in range(3):
        checks.same(f"a client, room for {room} bytes", play(WRITE_ROOM=room),
                    (3, b"hi\n"[:room], b"coap-client: cannot write\n"))
    checks.same("a client, the first write fails", play(WRITE_FAILS=0), (3, b"", b"coap-client: cannot write\n"))


# The error output of a client whose connection fails or ends.
STOPPED = b"stopped 11\ncoap-client: the connection ended before the last response\n"


def check_client_socket(checks, client, shim):
    """Checks a client whose connection fails or ends, at each call in turn."""
    whole = ((0, b"hi\n", b""), ASKED)
    for name, fault in (("RECV_FAILS", STOPPED), ("RECV_ENDS", STOPPED), ("SEND_FAILS", STOPPED)):
        count = 0
        while (found := requested(client, ASKING, b"", setting(shim, **{name: count}))) != whole:
            (status, written, said), got = found
            checks.same(f"a client, {name} {count}", (status, written, said, ASKED.startswith(got)),
                        (3, b"", fault, True))
            count += 1
            if count > 20:
                break
        checks.same(f"a client, {name}: some calls fail, and not all", 1 <= count <= 20, True)


def conversation(address):
    """Returns the bytes that a peer of a server receives until all requests are answered, or the connection ends."""
    with socket.create_connection(address, LIMIT) as peer:
        peer.sendall(HELLO[:5])
        reported = received(peer, ANSWERED[: len(ANSWERED) - 3])
        if reported == ANSWERED[: len(ANSWERED) - 3]:
            peer.sendall(HELLO[5:])
            reported += received(peer, ANSWERED[-3:])
        return reported


def check_server_socket(checks, server, shim):
    """Checks a server with a connection that fails or ends, at each call in turn. All other connections must be
    served."""
    for name in ("RECV_FAILS", "RECV_ENDS", "SEND_FAILS"):
        cut = 0
        for count in range(CALLS):
            port = free_port(SERVER_HOST)
            command = [server, "-A", SERVER_HOST, "-p", str(port)]
            with started(command, stdin=subprocess.DEVNULL, stderr=subprocess.PIPE,
                         env=setting(shim, **{name: count})) as process:
                checks.same("it listens", b"listening" in line_of(process.stderr), True)
                reported = [conversation((SERVER_HOST, port)) for _ in range(3)]
                checks.same(f"a server still runs, {name} {count}", process.poll(), None)
                process.kill()
            fronts = [it for it in reported if it != ANSWERED]
            checks.same(f"a server, {name} {count}: at most one is truncated", len(fronts) <= 1, True)
            checks.same(f"a server, {name} {count}: its output is a prefix",
                        [it for it in fronts if not ANSWERED.startswith(it)], [])
            cut += len(fronts)
        checks.same(f"a server, {name}: each of three connections is truncated at least once", cut >= 3, True)


def main(server, client):
    checks, server, client = Checks(), os.path.abspath(server), os.path.abspath(client)
    with tempfile.TemporaryDirectory(prefix="devices-") as room:
        shim = preloaded("devices", room)
        check_script(checks, server, shim)
        check_client_streams(checks, client, shim)
        check_client_socket(checks, client, shim)
        check_server_socket(checks, server, shim)
    return checks.end("devices")


if __name__ == "__main__":
    sys.exit(main(*sys.argv[1:]))
