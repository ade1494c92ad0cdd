"""Checks that a server accepts, serves and ends many connections."""

import contextlib
import errno
import itertools
import os
import random
import re
import signal
import socket
import time

from both_programs import GREETED, HELLO
from checks import ABORTS, CSM
from peers import Server, is_silent, read_bytes, read_to_end
from waits import Waits

PING, PONG = bytes.fromhex("00e2"), bytes.fromhex("00e3")


def check_files(checks, programs):
    """Checks a server with a low limit on open files. Without a free descriptor it accepts no connection, tries again
    after a second, whatever else arrives, and uses no processor time. After a connection closes, it accepts again. The
    log has each kind of failed call."""
    failing = {"WAITS_FAILING": 1, "ACCEPTS_ABORTED": 2}
    with (Waits(**failing) as waits, Server(programs.server, ["--log", "1"], files=16, **waits.how()) as server,
          contextlib.ExitStack() as stack):
        peers = []
        while len(peers) < 16:
            peer = stack.enter_context(server.connect())
            peer.sendall(HELLO)
            peers.append(peer)
            if is_silent(peer):
                break
            read_bytes(peer, len(GREETED))
        checks.same("some peers are served, and not all", 1 < len(peers) < 16, True)
        before = server.processor_time()
        checks.same("the last peer is not served before a connection closes", is_silent(peers[-1], 1.2), True)
        checks.same("no processor time is used", server.processor_time() - before < 0.2, True)
        pongs = []
        for _ in range(10):
            peers[0].sendall(PING)
            pongs.append(read_bytes(peers[0], len(PONG)))
        checks.same("others are served", pongs, [PONG] * 10)
        peers[0].close()
        checks.same("the last peer is served", read_bytes(peers[-1], len(GREETED)), GREETED)
        accepts = waits.calls("accept")
        pauses = [later - at for (at, result), (later, _) in zip(accepts, accepts[1:]) if result == -errno.EMFILE]
        checks.same("the server tries again after a second",
                    (len(pauses) > 1, [it for it in pauses if not 0.99 < it < 1.9]), (True, []))
        os.set_blocking(server.process.stderr.fileno(), False)
        texts = re.findall(r"Z coap-server: (.*): (\d+) so far\n", (server.process.stderr.read() or b"").decode())
        reported = {text: [int(number) for it, number in texts if it == text] for text, _ in texts}
        starved = reported.pop("connections not accepted for lack of descriptors or memory", [])
        checks.same("failed calls in the log", reported, {"failed waits": [1], "connections not accepted": [1, 2]})
        checks.same("calls without a descriptor in the log", (len(starved) > 1, starved),
                    (True, list(range(1, len(starved) + 1))))


def check_close(checks, programs):
    """Checks that a connection that the server stops receives the Abort and ends, without a reset because of unread
    bytes."""
    with Server(programs.server) as server, server.connect() as peer:
        # The server is stopped, so that it finds all bytes at once.
        server.process.send_signal(signal.SIGSTOP)
        peer.sendall(bytes.fromhex("00e1" "f0ffffffff01") + bytes(50_000))
        server.process.send_signal(signal.SIGCONT)
        checks.same("a message that is too large", read_to_end(peer),
                    (bytes.fromhex(CSM + ABORTS["message too large"]), "the end"))
        time.sleep(0.1)
        checks.same("no reset", peer.getsockopt(socket.SOL_SOCKET, socket.SO_ERROR), 0)


def check_connections(checks, programs):
    """Checks that the server serves as many connections as --connections allows, and one more only after one of them
    ends."""
    for count in (1, 9, 256):
        with Server(programs.server, ["--connections", str(count)]) as server, contextlib.ExitStack() as stack:
            peers = [stack.enter_context(server.connect()) for _ in range(count + 1)]
            for it in peers:
                it.sendall(HELLO)
            greeted = itertools.takewhile(lambda it: read_bytes(it, len(GREETED)) == GREETED, peers[:count])
            served = sum(1 for _ in greeted)
            checks.same("--connections %d: served connections" % count, served, count)
            checks.same("--connections %d: one more is not served" % count, is_silent(peers[count]), True)
            peers[0].close()
            checks.same("--connections %d: it is served after one leaves" % count,
                        read_bytes(peers[count], len(GREETED)), GREETED)


def check_urgent(checks, programs):
    """Checks a byte of urgent data at each place of a request: the bytes around it must be read."""
    request, answered = HELLO[2:], GREETED[len(CSM) // 2 :]
    with Server(programs.server) as server, server.connect() as peer:
        peer.setsockopt(socket.IPPROTO_TCP, socket.TCP_NODELAY, 1)
        peer.sendall(HELLO)
        checks.same("an answer", read_bytes(peer, len(GREETED)), GREETED)
        for place in range(len(request) + 1):
            # The server is stopped, so that it finds all bytes at once.
            server.process.send_signal(signal.SIGSTOP)
            for bytes_, flag in ((request[:place], 0), (b"!", socket.MSG_OOB), (request[place:], 0)):
                peer.send(bytes_, flag)
            server.process.send_signal(signal.SIGCONT)
            checks.same("urgent data after %d bytes of a request" % place, read_bytes(peer, len(answered)), answered)
        before = server.processor_time()
        checks.same("no more bytes arrive", is_silent(peer, 1), True)
        checks.same("no busy waiting", server.processor_time() - before < 0.2, True)


def ask_each(checks, name, peers):
    """Checks that each of these connections has a response to a request before the next one makes a request. Returns
    true if all have."""
    request, answered = HELLO[2:], GREETED[len(CSM) // 2 :]
    late = []
    for place, peer in peers:
        peer.sendall(request)
        if read_bytes(peer, len(answered)) != answered:
            late.append(place)
            break
    checks.same(name, late, [])
    return not late


def check_sleepers(checks, programs):
    """Checks that each of 250 connections is answered after a pause, alone and beside 70 active ones, also after others
    have ended.

    While no other peer makes a request, nothing but the event of its own socket wakes a connection. The first missing
    answer ends the check, since a wait for it takes LIMIT seconds.
    """
    order = random.Random(5)
    with Server(programs.server, ["--connections", "256"]) as server, contextlib.ExitStack() as stack:
        peers = {place: stack.enter_context(server.connect()) for place in range(250)}
        for peer in peers.values():
            peer.sendall(HELLO)
        are_answered = all(read_bytes(it, len(GREETED)) == GREETED for it in peers.values())
        checks.same("all are answered", are_answered, True)
        if not are_answered:
            return
        shuffled = order.sample(sorted(peers.items()), len(peers))
        if not ask_each(checks, "each in turn", shuffled):
            return
        active = dict(shuffled[:70])
        idle = shuffled[70:]
        for waking in idle[:40]:
            for peer in active.values():
                peer.sendall(HELLO[2:] * 3)
            if not ask_each(checks, "a connection that wakes beside 70", [waking]):
                return
            answers = {read_bytes(it, 3 * (len(GREETED) - len(CSM) // 2)) for it in active.values()}
            wanted = {GREETED[len(CSM) // 2 :] * 3}
            checks.same("the 70", answers, wanted)
            if answers != wanted:
                return
        for place in (0, 100, 249):
            peers.pop(place).close()
            if not ask_each(checks, "each after connection %d has ended" % place,
                            order.sample(sorted(peers.items()), len(peers))):
                return
        peers.update((place, stack.enter_context(server.connect())) for place in (300, 301, 302))
        for place in (300, 301, 302):
            peers[place].sendall(HELLO)
            checks.same("a connection in a free place", read_bytes(peers[place], len(GREETED)), GREETED)
        ask_each(checks, "each beside three new ones", order.sample(sorted(peers.items()), len(peers)))
