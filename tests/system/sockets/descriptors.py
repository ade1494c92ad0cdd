"""Checks the options of sockets, sockets without space, and closed standard descriptors."""

import contextlib
import itertools
import os
import socket
import subprocess
import time

from both_programs import GREETED, HELLO
from checks import CSM
from peers import LIMIT, LOCAL, Server, client, free_port, is_silent, read_bytes, read_to_end, started
from waits import Waits


def check_room(checks, programs):
    """Checks that both programs continue to write as soon as the socket has space again."""
    with Waits(at_most=200) as waits, Server(programs.server) as server:
        for count in range(4):
            done = client(programs.client, ["-B", "5", server.uri()], **waits.how(SENDS_WITHOUT_ROOM=str(count)))
            checks.same("a client whose socket is full %d times" % count, done, (0, b"coap+tcp", b""))
            checks.same("a client waits less than a second, %d times: %.2f s" % (count, waits.passed()),
                        waits.passed() < 0.9, True)
            checks.same("a client sends without delay", [result for _, result in waits.calls("nodelay")], [1])
    # More bytes than the system buffers between the two.
    body, count = bytes(65_000), 100
    with Waits() as waits, Server(programs.server, ["-d", "1"], **waits.how()) as server:
        client(programs.client, ["-m", "put", "-f", "-", server.uri("/a")], body)
        checks.same("a server sends without delay", [result for _, result in waits.calls("nodelay")], [1])
        with server.connect() as peer:
            peer.sendall(bytes.fromhex(CSM) + bytes.fromhex("210102b161") * count)
            waits.until_idle()
            taken = sum(result for _, result in waits.calls("send") if result > 0)
            checks.same("a peer that does not read does not receive all bytes", taken < count * len(body), True)
            checks.same("after it reads, the peer receives the rest", len(read_bytes(peer, count * len(body))),
                        count * len(body))


# The options of TCP keep-alive that both programs set, and the seconds of silence before the first probe.
KEEP_ALIVE = {"keepalive": [1], "keepidle": [60], "keepintvl": [10], "keepcnt": [5]}
KEEP_IDLE = 60


def keep_alive(waits):
    """Returns the options of TCP keep-alive that a program set, with their values."""
    return {name: [value for _, value in waits.calls(name)] for name in KEEP_ALIVE}


def probe_in(local, remote):
    """Returns the seconds until the system probes the peer of the connection between two local ports, or None if it
    does not."""
    ends = time.monotonic() + LIMIT / 3
    while time.monotonic() < ends:
        with open("/proc/net/tcp", encoding="ascii") as file:
            rows = [line.split() for line in file.readlines()[1:]]
        for row in rows:
            ports = [int(row[it].split(":")[1], 16) for it in (1, 2)]
            # Timer 2 is that of keep-alive, with hundredths of a second. Another one runs while the peer has not
            # acknowledged all bytes.
            timer, left = (int(it, 16) for it in row[5].split(":"))
            if ports == [local, remote] and timer == 2:
                return left / 100
        time.sleep(0.05)
    return None


def check_alive(checks, programs):
    """Checks that both programs let the system probe silent peers: the options, and the timers of an accepted and of a
    connected socket."""
    with Waits() as waits, Server(programs.server, **waits.how()) as server, server.connect() as peer:
        peer.sendall(HELLO)
        read_bytes(peer, len(GREETED))
        checks.same("the options of the server", keep_alive(waits), KEEP_ALIVE)
        left = probe_in(server.port, peer.getsockname()[1])
        checks.same("an accepted socket is probed in %s s" % left,
                    left is not None and KEEP_IDLE - 10 < left <= KEEP_IDLE + 1, True)
    with Waits() as waits, socket.create_server((LOCAL, 0)) as listener:
        words = [programs.client, "-B", "10", "coap+tcp://%s:%d/" % listener.getsockname()]
        with started(words, stderr=subprocess.PIPE, **waits.how()) as process, listener.accept()[0] as peer:
            read_bytes(peer, len(CSM) // 2)
            checks.same("the options of the client", keep_alive(waits), KEEP_ALIVE)
            left = probe_in(peer.getpeername()[1], peer.getsockname()[1])
            checks.same("the socket of a client is probed in %s s" % left,
                        left is not None and KEEP_IDLE - 10 < left <= KEEP_IDLE + 1, True)
            process.kill()


def closing(numbers):
    """Returns a function that closes these descriptors in a program before it begins."""
    return lambda: [os.close(number) for number in numbers]


def check_closed(checks, programs):
    """Checks programs whose standard descriptors are closed: no socket may get their numbers."""
    body = b"out of the way"
    for numbers in [it for count in (1, 2, 3) for it in itertools.combinations(range(3), count)]:
        with socket.create_server((LOCAL, 0)) as listener:
            listener.settimeout(LIMIT)
            words = [programs.client, "-m", "put", "-f", "-", "-w", "coap+tcp://%s:%d/x" % listener.getsockname()]
            with started(words, stdin=subprocess.PIPE, stdout=subprocess.PIPE, stderr=subprocess.PIPE,
                         preexec_fn=closing(numbers)) as process:
                # A pipe without a reader fails when it is closed.
                with contextlib.suppress(BrokenPipeError):
                    process.stdin.write(body)
                    process.stdin.close()
                with listener.accept()[0] as peer:
                    held = [os.readlink("/proc/%d/fd/%d" % (process.pid, number)) for number in numbers]
                    peer.sendall(bytes.fromhex("00e1"))
                    payload = b"" if 0 in numbers else b"\xff" + body
                    requested = bytes.fromhex(CSM + ("210301b178" if 0 in numbers else "d1040301b178")) + payload
                    got = read_bytes(peer, len(requested))
                    # 4.04 with a payload, which the client writes to standard error.
                    peer.sendall(bytes.fromhex("318401ff6869"))
                    more, _ = read_to_end(peer)
                checks.same("a client without %r: open files" % (numbers,), held, ["/dev/null"] * len(numbers))
                checks.same("a client without %r: bytes at its peer" % (numbers,), got + more, requested)
                said = b"" if 2 in numbers else b"4.04 hi\n"
                checks.same("a client without %r" % (numbers,),
                            (process.wait(LIMIT), process.stdout.read(), process.stderr.read()), (2, b"", said))
        check_closed_server(checks, programs, numbers)
    done = subprocess.run([programs.server, "--stdio"], stderr=subprocess.PIPE, preexec_fn=closing([0, 1]),
                          timeout=LIMIT)
    checks.same("--stdio without standard streams", (done.returncode, done.stderr), (0, b""))


def check_closed_server(checks, programs, numbers):
    """Checks a server whose descriptors with these numbers are closed when it begins."""
    port = free_port()
    with started([programs.server, "-A", LOCAL, "-p", str(port)], stdin=subprocess.DEVNULL, stdout=subprocess.DEVNULL,
                          stderr=subprocess.DEVNULL, preexec_fn=closing(numbers)) as process:
        peer = accepted_at(port)
        with peer:
            peer.sendall(HELLO)
            checks.same("a server without %r: bytes at a peer" % (numbers,), read_bytes(peer, len(GREETED)), GREETED)
            checks.same("a server without %r: no more bytes" % (numbers,), is_silent(peer), True)
            held = [os.readlink("/proc/%d/fd/%d" % (process.pid, number)) for number in range(3)]
            checks.same("a server without %r: open files" % (numbers,), held, ["/dev/null"] * 3)
        process.kill()


def accepted_at(port):
    """Returns a connection to a server of this machine, as soon as it accepts one."""
    ends = time.monotonic() + LIMIT
    while True:
        try:
            return socket.create_connection((LOCAL, port), LIMIT)
        except ConnectionRefusedError:
            if time.monotonic() > ends:
                raise
            time.sleep(0.01)
