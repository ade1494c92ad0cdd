"""Hostile peers, and the bytes that each must receive."""

import asyncio
import contextlib
import random
import socket

import messages
from checks import ABORTS
from known_messages import (
    ABORT, BURST, FLOOD, GET_ROOT, ONE_PING, OWN_SETTINGS, PEER_SETTINGS, PONGS, RELEASE, ROOT, SETTINGS,
)
from peers import LIMIT, PACKET, ROOM, reset

EACH = 25

GREATEST = 65_536


def aborted(text):
    """Returns the Abort with this text."""
    return bytes.fromhex(ABORTS[text])


class Peer:
    """A hostile connection."""

    def __init__(self, is_narrow=False):
        self.connection = socket.socket()
        self.connection.setblocking(False)
        if is_narrow:
            self.connection.setsockopt(socket.SOL_SOCKET, socket.SO_RCVBUF, ROOM)
            self.connection.setsockopt(socket.SOL_SOCKET, socket.SO_SNDBUF, ROOM)
            self.connection.setsockopt(socket.IPPROTO_TCP, socket.TCP_MAXSEG, PACKET)
        self.greeting = b""

    async def open(self, address):
        """Connects, and waits for the CSM of the server."""
        await asyncio.get_running_loop().sock_connect(self.connection, address)
        self.greeting = await self.read(len(OWN_SETTINGS))

    async def send(self, stream):
        """Sends bytes, as far as the server accepts them."""
        with contextlib.suppress(ConnectionError):
            await asyncio.get_running_loop().sock_sendall(self.connection, stream)

    def end(self):
        """Ends the output of the connection."""
        with contextlib.suppress(OSError):
            self.connection.shutdown(socket.SHUT_WR)

    async def read(self, size):
        """Returns `size` bytes, or fewer at the end of the connection."""
        got, loop = b"", asyncio.get_running_loop()
        with contextlib.suppress(ConnectionError):
            while len(got) < size and (piece := await loop.sock_recv(self.connection, size - len(got))):
                got += piece
        return got

    async def rest(self):
        """Returns all bytes until the end of the connection."""
        pieces = []
        with contextlib.suppress(ConnectionError):
            while piece := await asyncio.get_running_loop().sock_recv(self.connection, 65536):
                pieces.append(piece)
        return b"".join(pieces)


# The attacks, one function for each kind. Each begins after the CSM of the server, and returns the bytes received until
# the end of the connection, and the expected bytes.


async def slow(peer, number, over):
    """Sends one byte a second."""
    for byte in PEER_SETTINGS + GET_ROOT:
        await peer.send(bytes([byte]))
        await asyncio.sleep(1)
    peer.end()
    return await peer.rest(), ROOT


async def broken_off(peer, number, over):
    """Resets the connection within a message."""
    await peer.send(PEER_SETTINGS + b"\xe1\x03\x6e" + bytes(number * 40))
    reset(peer.connection)
    return b"", b""


async def half_closed(peer, number, over):
    """Sends a request, and ends its output."""
    await peer.send(PEER_SETTINGS + GET_ROOT)
    peer.end()
    return await peer.rest(), ROOT


async def too_long(peer, number, over):
    """Sends many bytes of a message that is one byte too long, or longer than the memory of any machine."""
    head = b"\xe0\xfe\xf0\x01" if number % 2 else b"\xf0\xff\xff\xff\xff\x01"
    await peer.send(PEER_SETTINGS + head + bytes(GREATEST))
    return await peer.rest(), aborted("message too large")


async def long_token(peer, number, over):
    """Sends a token length of nibble 15, or a token of 65 bytes or more."""
    head = [b"\x0f", b"\x0d\x01\x34", b"\x0e\x01\x00\x00"][number % 3]
    await peer.send(PEER_SETTINGS + head + GET_ROOT)
    return await peer.rest(), aborted("bad token length")


async def unsettled(peer, number, over):
    """Sends a request before its CSM."""
    await peer.send(GET_ROOT + PEER_SETTINGS)
    return await peer.rest(), aborted("CSM expected")


async def send_pings(peer, over):
    """Sends Pings until `over` is set, and then ends its output. Returns the number of bytes sent."""
    sent = 0
    await peer.send(PEER_SETTINGS)
    while sent < len(FLOOD) and not over.is_set():
        await peer.send(FLOOD[sent:sent + BURST * ONE_PING])
        sent += BURST * ONE_PING
    peer.end()
    return sent


async def flooding(peer, number, over):
    """Sends Pings, and reads nothing until all others are done. Then every Ping must have its Pong."""
    sending = asyncio.create_task(send_pings(peer, over))
    try:
        await over.wait()
        return await peer.rest(), PONGS[:await sending]
    finally:
        sending.cancel()


async def rambling(peer, number, over):
    """Sends random bytes, the same in each run. Every second peer begins with a CSM."""
    chance = random.Random(number)
    stream = (PEER_SETTINGS if number % 2 else b"") + chance.randbytes(chance.randrange(1, 2000))
    await peer.send(stream)
    peer.end()
    return last_text(await peer.rest()), earned(stream)


KINDS = [slow, broken_off, half_closed, too_long, long_token, unsettled, flooding, rambling]


def last_text(got):
    """Returns the text of the Abort at the end of the bytes received, or an empty text. Returns malformed bytes
    unchanged."""
    try:
        frames, left = messages.split(got)
        parsed = [messages.parse(frame) for frame in frames]
    except messages.Malformed:
        return got
    if left or ABORT in [code for code, *_ in parsed[:-1]]:
        return got
    return parsed[-1][3].decode(errors="replace") if parsed and parsed[-1][0] == ABORT else ""


def judged(frame, is_open):
    """Returns the text of the Abort that a message must cause, or an empty text."""
    try:
        code, _, options, _ = messages.parse(frame)
    except messages.Malformed:
        return "bad message"
    if any(number > 65535 for number, _ in options):
        return "bad message"
    if code >> 5 in (1, 6):
        return "reserved code"
    if code not in (0, SETTINGS, ABORT) and not is_open:
        return "CSM expected"
    return ""


def earned(stream):
    """Returns the text of the Abort that a stream must cause, or an empty text. Options of signalling messages are not
    checked."""
    is_open = False
    while stream:
        try:
            size = messages.length_of(stream)
        except messages.Malformed:
            return "bad token length"
        if size is not None and size > GREATEST:
            return "message too large"
        if size is None or len(stream) < size:
            return ""
        frame, stream = stream[:size], stream[size:]
        if text := judged(frame, is_open):
            return text
        code = messages.parse(frame)[0]
        if code in (RELEASE, ABORT):
            return ""
        is_open = is_open or code == SETTINGS
    return ""


async def act(kind, number, address, peer, over):
    """Makes one connection of a hostile peer. Returns the error in the bytes received, or an empty text."""
    with peer.connection:
        if not peer.greeting:
            await peer.open(address)
        if peer.greeting != OWN_SETTINGS:
            return "greeting %r" % peer.greeting
        got, wanted = await kind(peer, number, over)
        return "" if got == wanted else "received %r, not %r" % (got[-100:], wanted[-100:])


async def attack(kind, number, address, peer, over, acts):
    """Repeats the attack of a hostile peer on new connections until `over` is set. Returns the first error, or an empty
    text."""
    trouble = ""
    try:
        while not trouble:
            trouble = await asyncio.wait_for(act(kind, number, address, peer, over), 2 * LIMIT)
            acts.release()
            peer = Peer()
            if over.is_set():
                break
    except (OSError, asyncio.TimeoutError) as caught:
        trouble = repr(caught)
    return trouble


async def open_all(checks, address):
    """Opens all hostile connections at once, and waits for the CSM of the server on each."""
    peers = [(kind, number, Peer(kind is flooding)) for kind in KINDS for number in range(EACH)]
    opened = await asyncio.gather(*(asyncio.wait_for(it.open(address), LIMIT) for _, _, it in peers),
                                  return_exceptions=True)
    checks.same("hostile connections at once", [repr(it) for it in opened if it], [])
    return peers
