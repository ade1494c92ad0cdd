"""Checks the records of servers with 64 peers of all kinds, also of a server that is killed."""

import contextlib
import random
import re
import selectors
import signal
import socket
import subprocess
import tempfile
import time

from greeted_peers import (
    ACCEPT, CONTENT_FORMAT, CUSTODY, DELETE, GET, IF_MATCH, IF_NONE_MATCH, OBSERVE, OSCORE, PEER_SETTINGS, PING, PUT,
    URI_QUERY,
)
from message_syntax import encoded, requested, uint
from peers import LIMIT, Server, reset, resident, soon
from records import frames_in, joined, record_in, replay

# The options of a server with many peers. Its queues are small, so that slow readers fill them, and their memory is in
# use early in a run.
PEERS, RESOURCES, QUEUE = 64, 16, 4_608
WORDS = ["--connections", str(PEERS), "-d", str(RESOURCES), "--max-message", "2048", "--max-sent", "1152", "--queue",
         str(QUEUE)]

# Numbers of peers by their kind. The others are hostile or observe.
GOOD, SLOW, BROKEN_OFF = 34, 4, 8

# Bytes of the socket buffer of a slow reader, of its packets, and of one read.
NARROW, PACKET, SIP = 4_096, 1_460, 512

# Growth of resident memory that passes, in kB. The kernel counts the pages of a process in batches.
GROWTH = 256

# A line of a record after its header.
LINE = re.compile(rb"open|in \d+ (?:[0-9a-f]{2})+|drain \d+ \d+|tick \d+|(?:end|release|drop) \d+")


def some_message(chance):
    """Returns a random message of a well-behaved peer: mostly a request for a resource that all peers share."""
    token, path, kind = (chance.randbytes(chance.randrange(9)), "r%d" % chance.randrange(RESOURCES + 2),
                         chance.randrange(16))
    if kind < 5:
        return requested(GET, token, path)
    if kind < 9:
        options = chance.choice([[], [], [], [(CONTENT_FORMAT, uint(60))], [(IF_NONE_MATCH, b"")], [(IF_MATCH, b"")]])
        return requested(PUT, token, path, options, chance.randbytes(chance.randrange(1, 60)))
    return [
        requested(GET, token, "time"),
        requested(GET, token, ""),
        requested(DELETE, token, path),
        requested(GET, token, ".well-known/core"),
        requested(GET, token, "async", [(URI_QUERY, b"%d" % chance.randrange(3))]),
        requested(GET, token, path, chance.choice([[(ACCEPT, uint(60))], [(OSCORE, b"")]])),
        encoded(PING, token, chance.choice([[], [(CUSTODY, b"")]]), b""),
    ][kind - 9]


def messages(chance, pool, count):
    """Returns the bytes of a CSM and of random messages of a pool, together this number."""
    return PEER_SETTINGS + b"".join(chance.choices(pool, k=count - 1))


def listings(count):
    """Returns the bytes of a CSM and of requests with long responses."""
    return PEER_SETTINGS + requested(GET, b"\x2a", ".well-known/core") * (count - 1)


def observations(chance, count):
    """Returns the bytes of a CSM and of requests that observe, or that end an observation."""
    paths = ["time", *("r%d" % it for it in range(6))]
    said = [requested(GET, bytes([it % 20]), chance.choice(paths), [(OBSERVE, uint(chance.choice([0, 0, 0, 1])))])
            for it in range(count - 1)]
    return PEER_SETTINGS + b"".join(said)


# The bytes of hostile peers: the server ends the connection, or waits for the rest of a message.
HOSTILE = [
    bytes.fromhex("00e1" "010101" "414501ff"),
    bytes.fromhex("010101"),
    bytes.fromhex("10e110"),
    bytes.fromhex("00e1" "f0ffffff0003"),
    bytes.fromhex("00e1" "0f01"),
    bytes.fromhex("00e1" "00c0"),
    bytes.fromhex("00e1" "010101" "00e5"),
    bytes.fromhex("00e1" "010101" "00e4"),
    bytes.fromhex("00e1" "0d01ff"),
    bytes.fromhex("00e1" "410301b161"),
    b"GET / HTTP/1.1\r\nHost: a\r\n\r\n",
    bytes.fromhex("16030100"),
    b"",
]


class Peer:
    """A connection, with the bytes to be sent and those received.

    `number` is that of the connection in the server. A slow reader reads `sip` bytes at once. A peer breaks off as soon
    as it has received `breaks_at` bytes. If it `stays`, it does not end its output itself.
    """

    def __init__(self, server, number, stream, sip=None, breaks_at=None, stays=False):
        self.number, self.stream, self.sip, self.breaks_at, self.stays = number, stream, sip, breaks_at, stays
        self.sent, self.got, self.end = 0, bytearray(), None
        self.socket = socket.socket()
        if sip:
            self.socket.setsockopt(socket.SOL_SOCKET, socket.SO_RCVBUF, NARROW)
            self.socket.setsockopt(socket.IPPROTO_TCP, socket.TCP_MAXSEG, PACKET)
        self.socket.settimeout(LIMIT)
        self.socket.connect((server.host, server.port))
        self.socket.setblocking(False)
        if not stream:
            self.finish()

    def events(self):
        """Returns the events that the peer waits for."""
        return selectors.EVENT_READ | (selectors.EVENT_WRITE if self.sent < len(self.stream) else 0)

    def send(self):
        """Sends bytes, as far as the socket accepts them."""
        try:
            self.sent += self.socket.send(self.stream[self.sent : self.sent + 2_048])
        except BlockingIOError:
            pass
        except ConnectionError:
            self.sent = len(self.stream)

    def finish(self):
        """Ends the output, so that the server ends the connection."""
        with contextlib.suppress(OSError):
            self.socket.shutdown(socket.SHUT_WR)

    def read(self):
        """Reads bytes that have arrived, and notes the end of the connection."""
        try:
            piece = self.socket.recv(self.sip or 65_536)
        except BlockingIOError:
            return
        except ConnectionError:
            self.end = "a reset"
            return
        self.got += piece
        if not piece:
            self.end = "the end"
        elif self.breaks_at is not None and len(self.got) >= self.breaks_at:
            self.end = "broken off"
            reset(self.socket)

    def serve(self, events):
        """Sends and receives, as far as these events allow."""
        if events & selectors.EVENT_WRITE:
            self.send()
            if self.sent == len(self.stream) and not self.stays:
                self.finish()
        if events & selectors.EVENT_READ:
            self.read()


def crowd(server, count, seed):
    """Opens the connections of 64 peers of all kinds. Those that send all their messages, and no bad one, send at least
    this number together."""
    chance, each = random.Random(seed), -(-count // (GOOD + SLOW))
    pool = [some_message(chance) for _ in range(2_000)]
    kinds = [{"stream": messages(chance, pool, each)} for _ in range(GOOD)]
    kinds += [{"stream": messages(chance, pool, each), "breaks_at": chance.randrange(1, 8 * each)}
              for _ in range(BROKEN_OFF)]
    kinds += [{"stream": listings(each), "sip": SIP} for _ in range(SLOW)]
    kinds += [{"stream": observations(chance, 60), "stays": True}
              for _ in range(PEERS - GOOD - SLOW - BROKEN_OFF - len(HOSTILE))]
    kinds += [{"stream": it} for it in HOSTILE]
    chance.shuffle(kinds)
    return [Peer(server, number, **kind) for number, kind in enumerate(kinds, 1)]


def talk(peers, watch):
    """Sends and receives until all connections have ended. Peers that stay end their output after all others have
    ended.

    `watch` is called often, with the number of all bytes received.
    """
    ends = time.monotonic() + 8 * LIMIT
    with selectors.DefaultSelector() as selector:
        for peer in peers:
            selector.register(peer.socket, peer.events(), peer)
        while (left := [key.data for key in selector.get_map().values()]) and time.monotonic() < ends:
            if all(it.stays for it in left):
                for peer in left:
                    peer.finish()
            for key, events in selector.select(1):
                peer = key.data
                peer.serve(events)
                if peer.end is not None:
                    selector.unregister(peer.socket)
                elif peer.events() != key.events:
                    selector.modify(peer.socket, peer.events(), peer)
            watch(sum(len(it.got) for it in peers))
    for peer in peers:
        peer.socket.close()


def crowded(checks, server, count, record=None):
    """Runs 64 peers at a server, and checks its memory. If a name is given, the server has a record. Returns the
    peers."""
    memory = []

    def watch(received):
        if received > len(memory) * 4 * count:
            memory.append(resident(running.process) // 1024)

    with Server(server, [*WORDS, *(["--record", record] if record else [])]) as running:
        peers = crowd(running, count, seed=1)
        talk(peers, watch)
        if record:
            checks.same("the record has the end of each connection",
                        soon(lambda: record_in(record).text.count(b"\ndrop ") == PEERS), True)
    name = "with a record" if record else "without a record"
    print(f"resident memory {name}: {memory} kB")
    early, late = memory[: len(memory) // 3], memory[len(memory) // 3 :]
    checks.same(f"the memory {name} does not grow", (len(early) > 1, max(late) - max(early) <= GROWTH), (True, True))
    return peers


def check_peers(checks, server, count=100_000):
    """Checks that the replay of a record of 64 peers gives the bytes that each received, and that recording takes no
    memory."""
    with tempfile.TemporaryDirectory() as folder:
        crowded(checks, server, count)
        peers = crowded(checks, server, count, record=f"{folder}/record")
        record = record_in(f"{folder}/record")
        checks.same("the record ends with a whole line", record.torn, b"")
        checks.same("the form of its lines", [it for it in record.lines if not LINE.fullmatch(it)][:3], [])
        status, outputs, said = replay(server, record.command())
        checks.same("the replay", (status, said), (0, b""))
    accepted, ends = joined(record.lines, b"in "), {}
    number = sum(frames_in(it) for it in accepted.values())
    checks.same(f"at least {count} messages: {number}", number >= count, True)
    for peer in peers:
        ends[peer.end] = ends.get(peer.end, 0) + 1
        got, wanted, taken = bytes(peer.got), outputs.get(peer.number, b""), accepted.get(peer.number, b"")
        checks.same(f"peer {peer.number}: the record has a front of what it sent", peer.stream.startswith(taken), True)
        if peer.end == "the end":
            checks.same(f"peer {peer.number}: the replay has what it received", (len(got), got == wanted),
                        (len(wanted), True))
        else:
            checks.same(f"peer {peer.number}, {peer.end}: the replay begins with what it received",
                        wanted.startswith(got), True)
        if len(peer.stream) > 1_000 and peer.breaks_at is None:
            checks.same(f"peer {peer.number}: the record has all that it sent", len(taken), len(peer.stream))
    print(f"ends of the peers: {ends}; {sum(len(it.got) for it in peers)} bytes received; record of {len(record.text)} "
          "bytes")
    checks.same("peers that received all", ends.get("the end", 0) >= 50, True)
    checks.same("peers that broke off", ends.get("broken off", 0) >= 4, True)


def check_killed(checks, server, count=30_000):
    """Checks the record of a server that is killed in the middle: its whole lines replay, and lack at most the last
    turn."""
    with tempfile.TemporaryDirectory() as folder:
        name = f"{folder}/record"
        with Server(server, [*WORDS, "--record", name]) as running:
            peers = crowd(running, count, seed=2)
            talk(peers, lambda received: received > 10 * count and running.end())
            checks.same("the server was killed", running.process.wait(LIMIT), -signal.SIGKILL)
        record = record_in(name)
        status, outputs, said = replay(server, ["--script", "-", *record.options()], record.whole)
        checks.same("the replay of its whole lines", (status, said), (0, b""))
        lacks = 0
        for peer in peers:
            got, wanted = bytes(peer.got), outputs.get(peer.number, b"")
            checks.same(f"killed: peer {peer.number}", got.startswith(wanted) or wanted.startswith(got), True)
            lacks = max(lacks, len(got) - len(wanted))
        # A turn writes at most the queue of a connection.
        checks.same(f"the record lacks at most a turn ({lacks} bytes of a connection)", lacks <= QUEUE, True)
        print(f"killed: record of {len(record.text)} bytes, replay of {sum(map(len, outputs.values()))} bytes")
        for cut in (1, 4):
            with open(f"{folder}/torn", "wb") as it:
                it.write(record.whole[:-cut])
            done = subprocess.run([server, "--script", f"{folder}/torn", *record.options()], capture_output=True,
                                  timeout=8 * LIMIT)
            wanted = b"coap-server: bad script line %d\n" % record.whole.count(b"\n")
            checks.same(f"a record without its last {cut} bytes", (done.returncode, done.stdout, done.stderr),
                        (1, b"", wanted))
