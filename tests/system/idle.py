#!/usr/bin/env python3
"""Checks that a server with --idle ends silent connections, and no others.

    tests/system/idle.py bin/coap-server

Five servers run side by side for 16 seconds:

- `--idle 5`: 256 silent peers, of which every second one sends a CSM, beside a peer that makes a request every second.
  All silent peers must be gone, and those that sent a CSM must have a Release. The server has room for 256 connections,
  so the last silent peer waits for a place.
- `--idle 5`: an observer, a peer that waits for a delayed response, and a peer that sends a Ping every 3 seconds must
  stay. A peer that requests much and never reads must be gone.
- `--idle 5`: peers that have just received a delayed response must stay. The server has no other peers.
- `--idle 60`: a peer that sends no CSM must be gone after 10 to 14 seconds, and a silent peer with a CSM must stay.
- No `--idle`: silent peers must stay.
"""

import contextlib
import os
import socket
import sys
import time

sys.path.insert(0, os.path.join(os.path.dirname(os.path.abspath(__file__)), "..", "harness"))
import messages  # noqa: E402
from checks import CSM, GREETING, Checks  # noqa: E402
from message_syntax import requested, uint  # noqa: E402
from peers import Server, is_silent  # noqa: E402

# Seconds after which all silent peers must be gone, between two Pings, and between two requests of the good peer.
WINDOW, PING_EVERY, ASK_EVERY = 16, 3, 1

# Seconds until the good peer must have its response, also on a busy machine.
SOON = 2

# Seconds until the last silent peer but one must have its place. They are fewer than 5, so that no other peer is gone.
ROOM = 4

# Seconds until the delayed responses: one that is more than the whole run, and others. After these, a peer is silent
# for at most 3 seconds, and for less than 5 on a busy machine.
DELAY, DELAYS = 30, (13, 14)

SETTINGS, RELEASE, PING, PONG = (bytes.fromhex(it) for it in ("00e1", "00e4", "00e2", "00e3"))
OWN = bytes.fromhex(CSM)

# A CSM with a Max-Message-Size of 65,536 bytes, so that the large representation is sent.
LARGE_SETTINGS = bytes.fromhex("40e1" "23010000")

# A delayed response: 2.05 with the token 05, Content-Format 0 and the payload `done`.
DONE = bytes.fromhex("614505c0ff" "646f6e65")

# Codes and options.
GET, PUT, OBSERVE, URI_QUERY = 0x01, 0x03, 6, 15

# Bytes of the representation that the peer requests which never reads.
BIG = 60_000


class Peer(messages.Stream):
    """A connection to a server, which keeps the bytes that it received."""

    def __init__(self, server, settings=SETTINGS, room=None):
        super().__init__(socket.socket())
        self.ended = None
        if room:
            self.socket.setsockopt(socket.SOL_SOCKET, socket.SO_RCVBUF, room)
        self.socket.settimeout(20)
        self.socket.connect((server.host, server.port))
        self.socket.sendall(settings)

    def ask(self, code, token, *words, **more):
        self.socket.sendall(requested(code, bytes([token]), *words, **more))

    def look(self):
        """Reads what has arrived, and notes the end of the connection with its time."""
        self.socket.setblocking(False)
        with contextlib.suppress(BlockingIOError):
            while self.ended is None:
                try:
                    piece = self.socket.recv(65_536)
                except ConnectionError:
                    piece = b""
                self.left += piece
                if not piece:
                    self.ended = time.monotonic()
        self.socket.settimeout(20)
        return self

    def next(self):
        """Returns the next frame after the server's CSM, and waits for it."""
        while (frame := self.frame()) == OWN:
            pass
        return frame


def sockets_of(server):
    """Returns the number of open sockets of a server."""
    folder = f"/proc/{server.process.pid}/fd"
    count = 0
    for name in os.listdir(folder):
        with contextlib.suppress(FileNotFoundError):
            count += os.readlink(f"{folder}/{name}").startswith("socket:")
    return count


def fill(peer):
    """Requests the large representation until the server accepts no more."""
    peer.socket.settimeout(1)
    requests = b"".join(requested(GET, bytes([token]), "/big") for token in range(256))
    with contextlib.suppress(TimeoutError):
        for _ in range(400):
            peer.socket.sendall(requests)


def serve(checks, peer):
    """Makes a request of the good peer, and returns the seconds until its response."""
    began = time.monotonic()
    peer.ask(GET, 7, "/")
    checks.same("the good peer is served", peer.next().hex().endswith(GREETING), True)
    return time.monotonic() - began


def check(checks, program):
    many = ["--idle", "5", "--connections", "256"]
    with (Server(program, many) as crowded, Server(program, ["--idle", "5", "-d", "4"]) as mixed,
          Server(program, ["--idle", "60"]) as patient, Server(program) as plain,
          Server(program, ["--idle", "5"]) as quiet):
        good = Peer(crowded)
        silent = [Peer(crowded, SETTINGS if at % 2 else b"") for at in range(256)]
        serve(checks, good)
        waits = [is_silent(silent[-2].socket, ROOM), is_silent(silent[-1].socket)]
        checks.same("the last silent peer, and no other, waits for a place", waits, [False, True])
        serve(checks, good)
        writer, observer = Peer(mixed), Peer(mixed)
        writer.ask(PUT, 1, "/big", payload=bytes(BIG))
        checks.same("the representation is stored", writer.next()[1], 0x41)
        writer.ask(PUT, 2, "/x", payload=b"1")
        checks.same("another representation is stored", writer.next()[1], 0x41)
        observer.ask(GET, 3, "/x", [(OBSERVE, uint(0))])
        checks.same("the observer is registered", observer.next()[1], 0x45)
        deaf = Peer(mixed, LARGE_SETTINGS, room=4_096)
        fill(deaf)
        pings, delayed = Peer(mixed), Peer(mixed)
        delayed.ask(GET, 5, "/async", [(URI_QUERY, b"%d" % DELAY)])
        answered = [Peer(quiet) for _ in DELAYS]
        for peer, delay in zip(answered, DELAYS):
            peer.ask(GET, 5, "/async", [(URI_QUERY, b"%d" % delay)])
        opened = time.monotonic()
        mute, mild = Peer(patient, b""), Peer(patient)
        stays = [Peer(plain, it) for it in (b"", SETTINGS)]
        began, asked, pinged, slow = time.monotonic(), 0, 0, 0
        while (passed := time.monotonic() - began) < WINDOW:
            if passed >= asked * ASK_EVERY:
                asked += 1
                slow += serve(checks, good) > SOON
            if passed >= pinged * PING_EVERY:
                pinged += 1
                pings.socket.sendall(PING)
                checks.same("a Pong for each Ping", pings.next(), PONG)
            mute.look()
            time.sleep(0.1)
        checks.same("the good peer waits for no response", slow, 0)
        gone = [peer.look().ended is not None for peer in silent]
        checks.same("all silent peers are gone", gone.count(False), 0)
        checks.same("the server has closed their sockets", sockets_of(crowded), 2)
        checks.same("silent peers with a CSM have a Release", {peer.left for peer in silent[1::2]}, {OWN + RELEASE})
        checks.same("silent peers without a CSM have none", {peer.left for peer in silent[::2]}, {OWN})
        checks.same("a peer that writes is released too", writer.look().ended is not None, True)
        checks.same("a peer that never reads is gone", sockets_of(mixed), 4)
        got = [(peer.look().ended, peer.left) for peer in answered]
        checks.same("peers stay after a delayed response", got, [(None, OWN + DONE)] * len(DELAYS))
        checks.same("a peer with a pending response stays", (delayed.look().ended, delayed.left), (None, OWN))
        again = Peer(mixed)
        again.ask(PUT, 4, "/x", payload=b"2")
        checks.same("the representation is changed", again.next()[1], 0x44)
        checks.same("the observer is notified", observer.next()[-2:], b"\xff2")
        checks.same("a peer without a CSM is gone after 10 seconds",
                    mute.ended is not None and 10 <= mute.ended - opened <= 14, True)
        checks.same("a silent peer stays for the whole time of --idle", mild.look().ended, None)
        checks.same("without --idle all peers stay", [peer.look().ended for peer in stays], [None, None])


def main():
    checks = Checks()
    check(checks, os.path.abspath(sys.argv[1]))
    return checks.end()


if __name__ == "__main__":
    sys.exit(main())
