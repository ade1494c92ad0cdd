#!/usr/bin/env python3
"""Checks a server with peers that cause as much cost as they can, over sockets, and the service for other peers.

    tests/system/flood.py bin/coap-server [observers|puts|slow ..]

- observers: a peer registers the maximum number of observers on all paths and never reads, while another one makes
  10,000 PUTs. Each PUT must be answered, and the resident memory must stay the same. (`make bench` reports the PUTs per
  second.)
- puts: many peers PUT representations of the maximum size, and of one byte more, at more paths than the server allows.
- slow: a peer observes /time and requests 60,000 bytes repeatedly until the server accepts no more. Then it reads 100
  bytes at a time, while another peer is served. All its bytes must arrive, in order.
"""

import contextlib
import os
import select
import socket
import sys
import time

sys.path.insert(0, os.path.join(os.path.dirname(os.path.abspath(__file__)), "..", "harness"))
import messages  # noqa: E402
from checks import CSM, Checks  # noqa: E402
from peers import LOCAL as HOST  # noqa: E402
from peers import PACKET, ROOM, Server, resident  # noqa: E402
from message_syntax import requested, uint  # noqa: E402

# Seconds for each wait, and for a response to a client beside a slow peer.
LIMIT = 20
ANSWERED_IN = 2

# Codes and options.
GET, PUT, CREATED, CHANGED, CONTENT, NOT_ACCEPTABLE, TOO_LARGE = 0x01, 0x03, 0x41, 0x44, 0x45, 0x86, 0x8D
OBSERVE, SIZE1 = 6, 60

# The CSM of a peer with the same limits as the server.
SETTINGS = bytes.fromhex(CSM)

# Maximum growth of the resident memory in bytes, over all PUTs but the first ones. A list of the PUTs would need more.
PUTS, WARM = 10_000, 500
GROWTH = 256 * 1024

# Maximum number of bytes of a representation.
MOST = 65_000


class Peer(messages.Stream):
    """A connection that reads messages one by one. A narrow one has small socket buffers."""

    def __init__(self, address, is_narrow=False):
        super().__init__(socket.socket())
        if is_narrow:
            self.socket.setsockopt(socket.SOL_SOCKET, socket.SO_RCVBUF, ROOM)
            self.socket.setsockopt(socket.SOL_SOCKET, socket.SO_SNDBUF, ROOM)
            self.socket.setsockopt(socket.IPPROTO_TCP, socket.TCP_MAXSEG, PACKET)
        self.socket.settimeout(LIMIT)
        self.socket.connect(address)
        self.socket.sendall(SETTINGS)

    def __enter__(self):
        return self

    def __exit__(self, *_):
        self.socket.close()

    def answer(self, token):
        """Returns the next message with a token."""
        while True:
            message = self.next()
            if message[1] == token:
                return message

    def ask(self, stream, token):
        """Sends a request and reads until its response arrives."""
        self.socket.sendall(stream)
        return self.answer(token)


@contextlib.contextmanager
def serving(checks, server, words):
    """Yields the process of a listening server, and its address."""
    with Server(server, words) as running:
        checks.same("the server listens", running.said, f"coap-server: listening on {HOST}:{running.port}\n")
        yield running.process, (HOST, running.port)
        checks.same("the server still runs", running.process.poll(), None)


def observe_all(peer, paths, count):
    """Registers `count` observers, on one path after the other, and reads nothing."""
    for number in range(count):
        peer.socket.sendall(requested(GET, number.to_bytes(2, "big"), paths[number % len(paths)], [(OBSERVE, b"")]))


def put_often(peer, paths, first, last):
    """Makes PUTs with the numbers of a range, on one path after the other, each after the response to the one before.
    Returns the codes."""
    codes = set()
    for number in range(first, last):
        token = uint(number) or b"\0"
        codes.add(peer.ask(requested(PUT, token, paths[number % len(paths)], payload=b"%d" % number), token)[0])
    return codes


def check_observers(checks, server):
    """Checks 10,000 PUTs beside a peer that observes every path and never reads."""
    paths = [f"/{number}" for number in range(16)]
    with serving(checks, server, ["-d", "16", "--observers", "256"]) as (process, address):
        with Peer(address) as good, Peer(address, is_narrow=True) as silent:
            checks.same("resources created", put_often(good, paths, 0, 16), {CREATED})
            observe_all(silent, [*paths, "/time"], 256)
            checks.same("the first PUTs", put_often(good, paths, 16, WARM), {CHANGED})
            before, began = resident(process), time.monotonic()
            checks.same("all PUTs are answered", put_often(good, paths, WARM, PUTS), {CHANGED})
            seconds, after = time.monotonic() - began, resident(process)
            checks.same("resident memory stays the same", after - before if after - before > GROWTH else 0, 0)
            code, _, _, payload = good.ask(requested(GET, b"\1\2\3", paths[(PUTS - 1) % 16]), b"\1\2\3")
            checks.same("the last PUT is stored", (code, payload), (CONTENT, b"%d" % (PUTS - 1)))
    print(f"beside 256 observers that are never read: {(PUTS - WARM) / seconds:,.0f} PUTs a second, "
          f"{before // 1024:,} kB resident, then {after // 1024:,} kB")


def greatest_puts(peer, number):
    """Returns the codes of two PUTs of the maximum size at the peer's own path, and of one with a byte more."""
    codes = []
    for token, size in ((b"\1", MOST), (b"\2", MOST), (b"\3", MOST + 1)):
        code, _, options, _ = peer.ask(requested(PUT, token, f"/{number}", payload=b"x" * size), token)
        codes.append((code, dict(options).get(SIZE1)))
    return codes


def check_puts(checks, server):
    """Checks PUTs of the maximum size from 64 peers, with a limit of 16 resources."""
    with (serving(checks, server, ["-d", "16", "--connections", "64"]) as (process, address),
          contextlib.ExitStack() as stack):
        peers = [stack.enter_context(Peer(address)) for _ in range(64)]
        # All first PUTs are sent before any response is read.
        for number, peer in enumerate(peers):
            peer.socket.sendall(requested(PUT, b"\0", f"/{number}", payload=b"%d" % number))
        first = [peer.answer(b"\0")[0] for peer in peers]
        checks.same("resources created up to the limit", [first.count(it) for it in (CREATED, NOT_ACCEPTABLE)],
                    [16, 48])
        large = (TOO_LARGE, uint(MOST))
        for number, (peer, made) in enumerate(zip(peers, first)):
            stored = (CHANGED if made == CREATED else NOT_ACCEPTABLE, None)
            checks.same(f"PUTs of peer {number}", greatest_puts(peer, number), [stored, stored, large])
        kept = first.index(CREATED)
        code, _, _, payload = peers[-1].ask(requested(GET, b"\4", f"/{kept}"), b"\4")
        checks.same("a stored representation is complete", (code, payload == b"x" * MOST), (CONTENT, True))
        print(f"64 peers, 16 resources of {MOST:,} bytes: {resident(process) // 1024:,} kB resident")


# The requested bytes, in which each position is identifiable. Each request has an unknown elective option of 4,000
# bytes, so that a few requests fill the socket buffers of the server.
BODY = b"".join(b"%06d" % number for number in range(10_000))
PADDING = (65_000, b"p" * 4_000)


def ask_until_full(peer):
    """Requests the resource until the server accepts no more. Returns the number of requests, and the unsent rest of
    the last one."""
    count, rest = 0, b""
    peer.socket.setblocking(False)
    while select.select([], [peer.socket], [], 1)[1]:
        if not rest:
            rest, count = requested(GET, count.to_bytes(4, "big"), "/big", [PADDING]), count + 1
        with contextlib.suppress(BlockingIOError):
            rest = rest[peer.socket.send(rest) :]
    peer.socket.settimeout(LIMIT)
    return count, rest


def read_slowly(slow, count, rest, beside):
    """Reads all responses 100 bytes at a time, and sends the rest of the last request. Returns the responses, and the
    times received."""
    answers, moments = [], []
    while len(answers) < count:
        code, token, options, payload = slow.next(100)
        if token == b"time":
            moments.append((int(payload), OBSERVE in [number for number, _ in options]))
        elif code == CONTENT:
            answers.append((int.from_bytes(token, "big"), payload))
            beside()
        if rest and select.select([], [slow.socket], [], 0)[1]:
            rest = rest[slow.socket.send(rest) :]
    return answers, moments


class Beside:
    """A client beside others, which records its longest wait."""

    def __init__(self, address):
        self.peer, self.slowest, self.answers = Peer(address), 0, set()

    def __call__(self):
        began = time.monotonic()
        code, _, _, payload = self.peer.ask(requested(GET, b"\7", ""), b"\7")
        self.answers.add((code, payload))
        self.slowest = max(self.slowest, time.monotonic() - began)


def check_slow(checks, server):
    """Checks a peer that reads 100 bytes at a time, after it sent many requests without reading."""
    with serving(checks, server, ["-d", "1"]) as (process, address):
        beside = Beside(address)
        with beside.peer, Peer(address, is_narrow=True) as slow:
            checks.same("the resource", beside.peer.ask(requested(PUT, b"\1", "/big", payload=BODY), b"\1")[0], CREATED)
            before = resident(process)
            slow.socket.sendall(requested(GET, b"time", "/time", [(OBSERVE, b"")]))
            count, rest = ask_until_full(slow)
            beside()
            after = resident(process)
            answers, moments = read_slowly(slow, count, rest, beside)
        checks.same("the responses exceed the queue", count * len(BODY) > 131_072, True)
        checks.same("resident memory is bounded", after - before if after - before > 131_072 + 65_536 + GROWTH else 0,
                    0)
        checks.same("all responses arrive in order", [number for number, _ in answers], list(range(count)))
        checks.same("each response is complete", [payload == BODY for _, payload in answers], [True] * count)
        checks.same("times arrive in order", (moments == sorted(moments), {is_reported for _, is_reported in moments}),
                    (True, {True}))
        checks.same("the client beside it", beside.answers, {(CONTENT, b"coap+tcp")})
        checks.same("the client is answered in time", beside.slowest if beside.slowest > ANSWERED_IN else 0, 0)
    print(f"{count} requests of {len(BODY):,} bytes unread; {len(moments)} times; the client beside it waited "
          f"{beside.slowest:.3f} s at most")


CHECKS = {"observers": check_observers, "puts": check_puts, "slow": check_slow}


def main(server, *named):
    checks = Checks()
    for name in named or CHECKS:
        try:
            CHECKS[name](checks, os.path.abspath(server))
        except (OSError, messages.Malformed) as trouble:
            checks.same(name, repr(trouble), "no trouble")
    return checks.end("flood")


if __name__ == "__main__":
    sys.exit(main(*sys.argv[1:]))
