"""Checks peers that are silent or read nothing."""

import contextlib
import ctypes
import os
import re
import signal
import socket
import time

from checks import CSM
from gateways import (
    CHANGED, CONTENT, CREATED, GET, LIMIT, OBSERVE, PREFIX, PUT, TIMEOUT, URI_PATH, Gateway, Setting, encode, soon,
)
import messages
from peers import LOCAL
from signals import PING, PONG, RELEASE, SETTINGS, end_of, signals


def check_idle(checks, program):
    """Checks that silent peers end, and no others."""
    with Setting(program, 0) as setting, contextlib.ExitStack() as stack:
        quick, patient, plain = (stack.enter_context(Gateway(program, setting.broker, setting.folder, at, words))
                                 for at, words in enumerate((["--idle", "3"], ["--idle", "60"], []), 1))
        writer = stack.enter_context(patient.peer())
        checks.same("a resource", writer.code(PUT, f"{PREFIX}/a", payload=b"1"), CREATED)
        checks.same("a large one", writer.code(PUT, f"{PREFIX}/large", payload=bytes(60_000)), CREATED)
        opened = time.monotonic()
        mute = stack.enter_context(socket.create_connection((LOCAL, patient.port)))
        others = [stack.enter_context(socket.create_connection((LOCAL, it.port))) for it in (plain, quick)]
        observer, pings, silent, deaf = (stack.enter_context(quick.peer()) for _ in range(4))
        soon(lambda: observer.get(f"{PREFIX}/a"), (CONTENT, b"1", None))
        token = observer.send(GET, f"{PREFIX}/a", [(OBSERVE, b"")])
        checks.same("an observer", observer.wait(token).payload, b"1")
        requested = time.monotonic()
        checks.same("a silent peer with a CSM", silent.code(GET, "time"), CONTENT)
        # More than the sockets and the queue have room for.
        deaf.socket.sendall(encode(GET, b"d", [(URI_PATH, PREFIX.encode()), (URI_PATH, b"large")]) * 500)
        began, waits = time.monotonic(), stack.enter_context(quick.peer())
        setting.broker.process.send_signal(signal.SIGSTOP)
        write = waits.send(PUT, f"{PREFIX}/b", payload=b"2")
        ended, pongs = None, []
        while time.monotonic() < began + 9:
            pings.socket.sendall(bytes([1, PING, 7]))
            pongs.append(pings.wait(b"\7").code)
            notified = observer.wait(token, 0.5)
            ended = ended or end_of(silent, 0.5)
        checks.same("a peer with Pings stays", set(pongs), {PONG})
        checks.same("the observer stays", notified, None)
        checks.same("the silent peer ends after its time", ended is not None and ended - requested >= 3, True)
        checks.same("it has a Release", signals(silent), [SETTINGS, RELEASE])
        for name, it in (("one that reads nothing", deaf.socket), ("one without a CSM", others[1])):
            checks.same(f"{name} ends too", quick.says(f"connection {number_of(quick, it)} ended\n"), True)
        checks.same("a peer with a write under way stays", waits.wait(write).code, TIMEOUT)
        setting.broker.process.send_signal(signal.SIGCONT)
        ends = [read_end(it) for it in (mute, others[1])]
        took = time.monotonic() - opened
        checks.same("a peer without a CSM ends after 10 seconds", (ends[0], 10 <= took < 16), ((1, True), True))
        checks.same("one that is silent too, without a Release", ends[1], (1, True))
        checks.same("a silent peer with a CSM stays for its time", writer.get(f"{PREFIX}/a")[1], b"1")
        checks.same("all peers stay without --idle", stays_open(others[0]), True)
        checks.same("a write", soon(lambda: writer.code(PUT, f"{PREFIX}/a", payload=b"3"), CHANGED), CHANGED)
        checks.same("the observer is notified", observer.wait(token).payload, b"3")


def number_of(gateway, connection):
    """Returns the number of a connection in the log of its gateway."""
    port = connection.getsockname()[1]
    return re.search(rf"connection (\d+) opened by {LOCAL}:{port}\n", gateway.log())[1]


def read_end(connection):
    """Reads a connection to its end. Returns the number of messages, and true if the first one is a CSM."""
    connection.settimeout(LIMIT)
    found = b""
    while piece := connection.recv(65536):
        found += piece
    return len(messages.split(found)[0]), found[:8].hex() == CSM


def stays_open(connection):
    connection.setblocking(False)
    with contextlib.suppress(BlockingIOError):
        while piece := connection.recv(65536):
            pass
        return piece is None
    return True


# Numbers of Linux: the system call pidfd_getfd, and the option of TCP.
PIDFD_GETFD, TCP_USER_TIMEOUT = 438, 18


def sockets_to(process, port):
    """Returns copies of the sockets of a process that are connected to this port."""
    handle, found = os.pidfd_open(process.pid), []
    for name in os.listdir(f"/proc/{process.pid}/fd"):
        copy = ctypes.CDLL(None, use_errno=True).syscall(PIDFD_GETFD, handle, int(name), 0)
        if copy < 0:
            raise OSError(ctypes.get_errno(), "pidfd_getfd")
        with contextlib.suppress(OSError):
            it = socket.socket(fileno=os.dup(copy))
            if it.family == socket.AF_INET and it.getpeername()[1] == port:
                found.append(it)
        os.close(copy)
    os.close(handle)
    return found


def check_silent_reader(checks, program):
    """Checks that the system ends a connection whose peer reads nothing for two minutes."""
    with Setting(program, 1) as setting:
        peer, = setting.peers()
        checks.same("a request", peer.code(GET, "time"), CONTENT)
        found = sockets_to(setting.gateways[0].process, peer.socket.getsockname()[1])
        values = [it.getsockopt(socket.IPPROTO_TCP, TCP_USER_TIMEOUT) for it in found]
        checks.same("TCP_USER_TIMEOUT", values, [120_000])
        for it in found:
            it.close()
