"""Checks the timeouts of silent peers, and peers that send little or never read."""

import contextlib
import time

from libcoap_over_tls import observing
from peers import LOCAL as HOST
from proxies import BODY, CHANGED, CONTENT, CREATED, GET, OWN_SETTINGS, PING, PONG, PUT, Stream, connect, spelled

# Timeouts in seconds: for a silent connection, before the first message, and in the TLS handshake.
TUNNEL, FIRST, HANDSHAKE = 3, 1, 2

IDLE = [
    ("timeout tunnel 15m", "timeout tunnel %ds" % TUNNEL),
    ("inspect-delay 10s", "inspect-delay %ds" % FIRST),
    ("timeout client 10s", "timeout client %ds" % HANDSHAKE),
    ("timeout server 10s", "timeout server %ds" % FIRST),
]


def lasted(got, least):
    """Returns the bytes received before the end of a connection, and true if the end came after its timeout."""
    stream, seconds = got
    return stream, seconds is not None and seconds >= least - 0.5 or seconds


def check_idle(checks, setting):
    """Checks peers that become silent, at each point of a connection."""
    with setting.front(places=IDLE) as front:
        with Stream(connect(front.port)) as mute:
            checks.same("a peer that is silent before TLS", lasted(mute.end(), HANDSHAKE), (b"", True))
        taken = front.taken()
        with front.peer() as peer:
            checks.same("a peer that is silent after its handshake", lasted(peer.end(), FIRST), (b"", True))
        checks.same("connections of these peers at the server", front.taken() - taken, 0)
        with front.greeted(HOST) as peer:
            checks.same("a peer that becomes silent", lasted(peer.end(), TUNNEL), (b"", True))


def check_alive(checks, setting):
    """Checks peers that send little, for twice the timeout of a silent connection.

    One peer sends Pings. Another one is an observer that sends nothing, but is notified of changes. The third is
    libcoap's client, which observes a resource that does not change, and sends Pings.
    """
    with contextlib.ExitStack() as stack:
        front = stack.enter_context(setting.front(places=IDLE))
        pings, observes = (stack.enter_context(front.greeted(HOST)) for _ in range(2))
        changes = stack.enter_context(Stream(connect(front.ports["one"])))
        changes.greet()
        checks.same("a resource to observe", changes.ask(spelled(PUT, b"p", "seen", payload=b"0")),
                    (CREATED, b"p", b""))
        checks.same("its observer", observes.ask(spelled(GET, b"o", "seen", True)), (CONTENT, b"o", b"0"))
        printed = stack.enter_context(observing(front, "/who", ["-K", "1"]))
        checks.same("libcoap's observer", printed([b"one"]), [b"one"])
        began, troubles, number = time.monotonic(), [], 0
        while time.monotonic() - began < 2 * TUNNEL and not troubles:
            number += 1
            state, token = b"%d" % number, bytes([number])
            got = changes.ask(spelled(PUT, b"p", "seen", payload=state)), observes.next()
            got += (pings.ask(bytes([1, PING]) + token),)
            wanted = (CHANGED, b"p", b""), (CONTENT, b"o", state), (PONG, token, b"")
            troubles += [(number, got)] if got != wanted else []
            time.sleep(TUNNEL / 6)
        checks.same("missing notifications and Pongs", troubles, [])
        checks.same("number of changes", number > 2 or number, True)
        changes.ask(spelled(PUT, b"p", "who", payload=b"new"))
        checks.same("libcoap's observer is notified of a change afterwards", printed([b"one", b"new"]),
                    [b"one", b"new"])


def check_unread(checks, setting):
    """Checks a peer that sends requests and never reads."""
    with contextlib.ExitStack() as stack:
        front = stack.enter_context(setting.front(places=[("tcp-ut 1m", "tcp-ut 2s")]))
        stores = stack.enter_context(Stream(connect(front.ports["one"])))
        peer = stack.enter_context(front.greeted(HOST))
        stores.greet()
        put = b"\xb4body\xff" + BODY
        got = stores.ask(b"\xe0" + (len(put) - 269).to_bytes(2, "big") + bytes([PUT]) + put)
        checks.same("a stored body", got, (CREATED, b"", b""))
        # The peer has the limits of the server, and the buffers on the path are too small for all responses.
        peer.socket.sendall(OWN_SETTINGS + spelled(GET, b"g", "body") * 1000)
        checks.same("the peer is connected at first", front.counts("coaps")["scur"], "1")
        checks.same("the peer is disconnected", front.wait(lambda: front.counts("coaps")["scur"] == "0"), True)
