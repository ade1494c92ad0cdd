"""Checks how a gateway ends, and the last lines of its log."""

import fcntl
import re
import signal
import socket
import struct
import termios
import time

from gateways import (
    CONTENT, CREATED, GET, IF_MATCH, LIMIT, PREFIX, PUT, TIMEOUT, UNAVAILABLE, URI_PATH, Setting, encode, soon,
)
from peers import LOCAL, accepts
from signals import RELEASE, SETTINGS, end_of, signals


def check_end(checks, program):
    """Checks that a gateway that ends answers its writes, sends a Release, and writes what is queued."""
    with Setting(program, 1, words=["--pending", "64"]) as setting:
        gateway = setting.gateways[0]
        peer, reader = (setting.stack.enter_context(gateway.peer()) for _ in range(2))
        large = bytes(range(250)) * 240
        checks.same("a large resource", peer.code(PUT, f"{PREFIX}/large", payload=large), CREATED)
        # More than the sockets and the queue have room for, until the peer reads.
        reader.socket.setsockopt(socket.SOL_SOCKET, socket.SO_RCVBUF, 65536)
        reads = [reader.send(GET, f"{PREFIX}/large") for _ in range(150)]
        setting.broker.process.send_signal(signal.SIGSTOP)
        write = peer.send(PUT, f"{PREFIX}/a", payload=b"a")
        # Requests are processed in order.
        checks.same("the write is under way", peer.code(GET, "time"), CONTENT)
        gateway.note_end()
        began = time.monotonic()
        gateway.process.terminate()
        checks.same("it listens no longer", soon(lambda: accepts(gateway.port), False), False)
        late = peer.send(PUT, f"{PREFIX}/b", payload=b"b")
        checks.same("a later write", peer.wait(late).code, UNAVAILABLE)
        setting.broker.process.send_signal(signal.SIGCONT)
        checks.same("the write that was under way", peer.wait(write).code, CREATED)
        ended = [(end_of(it) is not None, signals(it)) for it in (reader, peer)]
        checks.same("both peers have a Release", ended, 2 * [(True, [SETTINGS, RELEASE])])
        checks.same("it ends within a second", (gateway.process.wait(LIMIT), time.monotonic() - began < 1.5), (0, True))
        found = {it.payload == large for token in reads for it in reader.received[token]}
        checks.same("the queued responses are whole", (found, reader.left), ({True}, b""))
        checks.same("the broker has the write", setting.broker.retained().get(f"{PREFIX}/a"), b"a")
        gateway.start()
        with gateway.peer() as peer, gateway.peer() as deaf:
            setting.broker.process.send_signal(signal.SIGSTOP)
            write = peer.send(PUT, f"{PREFIX}/a", payload=b"c")
            waits = peer.send(PUT, f"{PREFIX}/a", [(IF_MATCH, b"")], b"d")
            checks.same("two writes are under way, of which one waits for the other", peer.code(GET, "time"), CONTENT)
            deaf.socket.sendall(encode(GET, b"d", [(URI_PATH, b"shared"), (URI_PATH, b"large")]) * 200)
            checks.same("a peer that reads nothing does not delay others", peer.code(GET, "time"), CONTENT)
            began = time.monotonic()
            checks.same("the end", gateway.stop(), 0)
            checks.same("it ends within a second again", time.monotonic() - began < 1.5, True)
            checks.same("a write whose echo did not come", peer.wait(write).code, TIMEOUT)
            checks.same("one that was not published", peer.wait(waits).code, UNAVAILABLE)
            checks.same("its Release", (end_of(peer) is not None, signals(peer)), (True, [SETTINGS, RELEASE]))
            setting.broker.process.send_signal(signal.SIGCONT)


def check_end_of_input(checks, program):
    """Checks that a gateway that ends writes the whole responses to a peer that has ended its input."""
    with Setting(program, 1, words=["--pending", "256"]) as setting, setting.gateways[0].peer() as peer:
        gateway, large = setting.gateways[0], bytes(range(250)) * 240
        checks.same("a large resource", peer.code(PUT, f"{PREFIX}/large", payload=large), CREATED)
        tokens, is_sent = [], True
        # Until a response waits in the queue of the gateway, since the systems of both sides have no room for it.
        while is_sent and len(tokens) < 200:
            tokens.append(peer.send(GET, f"{PREFIX}/large"))
            is_sent = soon(lambda: taken_by_system(peer.socket) >= len(tokens) * len(large), True, 0.3)
        checks.same("responses that no peer has read", 1 < len(tokens) < 200, True)
        peer.socket.shutdown(socket.SHUT_WR)
        with gateway.peer() as other:
            checks.same("the gateway has read the end", other.code(GET, "time"), CONTENT)
        gateway.note_end()
        gateway.process.terminate()
        checks.same("it listens no longer", soon(lambda: accepts(gateway.port), False), False)
        checks.same("the connection ends", end_of(peer) is not None, True)
        found = [it.payload == large for token in tokens for it in peer.received[token]]
        checks.same("whole responses", (found, peer.left), (len(tokens) * [True], b""))
        checks.same("the end", gateway.process.wait(LIMIT), 0)


def taken_by_system(connection):
    """Returns the bytes to a socket that are in the systems of both sides."""
    here, there = (it[1] for it in (connection.getsockname(), connection.getpeername()))
    readable = struct.unpack("=i", fcntl.ioctl(connection, termios.FIONREAD, bytes(4)))[0]
    with open("/proc/net/tcp", encoding="ascii") as file:
        for words in map(str.split, file):
            if words[1].endswith(f":{there:04X}") and words[2].endswith(f":{here:04X}"):
                return readable + int(words[4].split(":")[0], 16)
    return readable


def check_log_end(checks, program):
    """Checks that the log says how many lines it left out, although no further line comes, and at the end."""
    with Setting(program, 1) as setting:
        gateway = setting.gateways[0]
        flood(gateway)
        checks.same("lines that are written or counted", soon(lambda: lines_of(gateway), 2 * FLOOD), 2 * FLOOD)
        before = gateway.log().count("lines left out: ")
        flood(gateway)
        with gateway.peer() as peer:
            checks.same("the peers before this one were accepted", peer.code(GET, "time"), CONTENT)
        checks.same("the end", gateway.stop(), 0)
        checks.same("a line on those that were left out", gateway.log().count("lines left out: ") > before, True)


# More connections than have lines in a second.
FLOOD = 300


def flood(gateway):
    """Opens and closes many connections: two lines each."""
    for _ in range(FLOOD):
        socket.create_connection((LOCAL, gateway.port), LIMIT).close()


def lines_of(gateway):
    """Returns the number of lines on connections that were written, or left out and counted."""
    log = gateway.log()
    written, left_out = (re.findall(it, log) for it in (r"connection \d+ (?:opened|ended)", r"lines left out: (\d+)"))
    return len(written) + sum(map(int, left_out))
