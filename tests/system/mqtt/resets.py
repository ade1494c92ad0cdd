"""Checks resets and ends of connections, and calls of the system that fail."""

import errno
import fcntl
import re
import signal
import socket
import struct
import termios
import time

from checks import ABORTS, CSM
from commands import preloaded
from gateway_checks import run
from gateways import (
    CHANGED, CONTENT, CREATED, GET, IF_MATCH, PREFIX, PUT, TIMEOUT, URI_PATH, URI_QUERY, Gateway, Setting, encode, soon,
)
import messages
from peers import LOCAL, free_port, processor_time, read_to_end, reset
from scripted import stopped, taken
from signals import end_of


def check_reset(checks, program):
    """Checks that the requests before a reset are processed, also more than one buffer of them."""
    # A gateway that was stopped for 5 seconds leaves the broker. On a busy machine the check begins anew then.
    is_in_time = any(is_reset_in_time(checks, program) for _ in range(10))
    checks.same("stopped for less than 4 seconds", is_in_time, True)


def is_reset_in_time(checks, program):
    """Makes the checks of check_reset. Returns false, after the first one, if the gateway was stopped for too long."""
    with Setting(program, 1, words=["--pending", "256", "--max-message", "1152", "--max-sent", "1152"]) as setting:
        gateway, (other,) = setting.gateways[0], setting.peers()
        with gateway.peer() as peer:
            checks.same("a request", peer.code(GET, "time"), CONTENT)
            stopped = time.monotonic()
            gateway.process.send_signal(signal.SIGSTOP)
            for at in range(50):
                peer.send(PUT, f"{PREFIX}/{at}", payload=bytes(900))
            has_all = soon(lambda: unacknowledged(peer.socket), 0) == 0
            reset(peer.socket)
            gateway.process.send_signal(signal.SIGCONT)
            if time.monotonic() > stopped + 4:
                return False
        checks.same("the system of the gateway has all bytes", has_all, True)
        found = soon(lambda: [other.code(GET, f"{PREFIX}/{at}") for at in range(50)], 50 * [CONTENT])
        checks.same("writes before a reset", found.count(CONTENT), 50)
        checks.same("the connection has ended", gateway.says(" ended"), True)
    return True


def unacknowledged(connection):
    """Returns the number of sent bytes that the other side has not acknowledged."""
    return struct.unpack("=i", fcntl.ioctl(connection, termios.TIOCOUTQ, bytes(4)))[0]


def check_close(checks, program):
    """Checks that a connection that the gateway stops receives all responses and the Abort, and ends without a reset
    because of unread bytes."""
    with Setting(program, 1) as setting, socket.socket() as peer:
        gateway, (other,), large = setting.gateways[0], setting.peers(), bytes(range(250)) * 240
        checks.same("a large resource", other.code(PUT, f"{PREFIX}/large", payload=large), CREATED)
        # The responses wait in the system of the gateway.
        peer.setsockopt(socket.SOL_SOCKET, socket.SO_RCVBUF, 4096)
        peer.connect((LOCAL, gateway.port))
        # The gateway is stopped, so that it finds all bytes at once, which are more than it reads at once.
        gateway.process.send_signal(signal.SIGSTOP)
        reads = encode(GET, b"g", [(URI_PATH, PREFIX.encode()), (URI_PATH, b"large")]) * 2
        peer.sendall(bytes.fromhex(CSM) + reads + bytes.fromhex("f0ffffffff01") + bytes(100_000))
        gateway.process.send_signal(signal.SIGCONT)
        checks.same("the connection has ended", gateway.says(" ended"), True)
        got, end = read_to_end(peer)
        found = [messages.parse(it) for it in messages.split(got)[0]]
        checks.same("whole responses", [it[3] == large for it in found if it[1] == b"g"], [True, True])
        abort = bytes.fromhex(ABORTS["message too large"])
        checks.same("the Abort, and the end", (got[-len(abort):], end), (abort, "the end"))


def check_half_closed(checks, program):
    """Checks that a peer that has ended its input gets the responses to its writes, and then the end."""
    with Setting(program, 1) as setting:
        gateway, (other,), at = setting.gateways[0], setting.peers(), f"{PREFIX}/a"
        for name, code in (("a creation", CREATED), ("a change", CHANGED)):
            with gateway.peer() as peer:
                token = peer.send(PUT, at, payload=b"1")
                peer.socket.shutdown(socket.SHUT_WR)
                checks.same(name, peer.wait(token).code, code)
                checks.same(f"the connection ends after {name}", end_of(peer) is not None, True)
        with gateway.peer() as peer:
            with stopped(setting.broker):
                first = other.send(PUT, at, payload=b"2")
                taken(other)
                second = peer.send(PUT, at, [(IF_MATCH, b"")], b"3")
                peer.socket.shutdown(socket.SHUT_WR)
                taken(other)
            checks.same("a request that waits for another one", [other.wait(first).code, peer.wait(second).code],
                        [CHANGED, CHANGED])
            checks.same("the connection ends after it", end_of(peer) is not None, True)
        with gateway.peer() as peer, gateway.peer() as slow:
            with stopped(setting.broker):
                # A response after an hour does not count.
                slow.send(GET, "async", [(URI_QUERY, b"3600")])
                tokens = [it.send(PUT, at, payload=b"4") for it in (peer, slow)]
                began, used = time.monotonic(), processor_time(gateway.process)
                for it in (peer, slow):
                    it.socket.shutdown(socket.SHUT_WR)
                taken(other)
                checks.same("writes without an echo", [it.wait(token).code for it, token in zip((peer, slow), tokens)],
                            2 * [TIMEOUT])
                checks.same("processor time meanwhile", processor_time(gateway.process) - used < 0.5, True)
                checks.same("both connections end", [end_of(it) is not None for it in (peer, slow)], [True, True])
                checks.same("within the deadline, and some seconds", time.monotonic() - began < 20, True)
        checks.same("another write", soon(lambda: other.code(PUT, at, payload=b"5"), CHANGED), CHANGED)


def check_failing_calls(checks, program):
    """Checks a listening socket that cannot be made, and connections that cannot be accepted."""
    with Setting(program, 0) as setting:
        library, errors = preloaded("fail_calls", setting.folder), f"{setting.folder}/errors"
        port = free_port()
        done = run(["env", f"LD_PRELOAD={library}", "FAIL_IPV6=1", program, "-A", "::1", "-p", str(port)])
        checks.same("no socket", (done.returncode, done.stderr),
                    (3, f"coap-mqtt: cannot listen at [::1]:{port}: Address family not supported by protocol\n"))
        set_error(errors, 0)
        before = ["sh", "-c", f'exec 9<{errors}; exec env LD_PRELOAD={library} FAIL_ACCEPT=9 "$@"', "sh"]
        with Gateway(program, setting.broker, setting.folder, 1, before=before) as gateway, gateway.peer() as peer:
            checks.same("a peer", peer.code(GET, "time"), CONTENT)
            set_error(errors, 1)
            used = processor_time(gateway.process)
            with gateway.peer() as waits:
                text = "connections not accepted: Operation not permitted"
                checks.same("it tries again", gateway.says(text, 3), True)
                times = [float(it) for it in re.findall(r"(?m)^\S+:(\d\d\.\d{3})Z .*not accepted", gateway.log())]
                gaps = [(second - first) % 60 for first, second in zip(times, times[1:])]
                checks.same("once a second", all(it > 0.5 for it in gaps) or gaps, True)
                checks.same("processor time meanwhile", processor_time(gateway.process) - used < 0.5, True)
                token = waits.send(GET, "time")
                set_error(errors, 0)
                checks.same("the next peer is served", waits.wait(token).code, CONTENT)
        before[-2] = before[-2].replace("FAIL_ACCEPT", "FAIL_EPOLL")
        words = ["--connections", "1"]
        with Gateway(program, setting.broker, setting.folder, 2, words, before) as gateway:
            with gateway.peer() as peer:
                checks.same("the only peer", peer.code(GET, "time"), CONTENT)
                set_error(errors, errno.ENOSPC)
            checks.same("it has ended", gateway.says(" ended"), True)
            set_error(errors, 0)
            with gateway.peer() as peer:
                checks.same("a peer after a listener that could not be watched", peer.code(GET, "time"), CONTENT)


def set_error(name, number):
    with open(name, "wb") as file:
        file.write(struct.pack("=B", number))
