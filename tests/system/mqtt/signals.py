"""Signalling messages, and ends of connections, that several checks of the operation need."""

import contextlib
import time

from gateways import LIMIT

# Codes of signalling messages.
SETTINGS, PING, PONG, RELEASE = 0xE1, 0xE2, 0xE3, 0xE4


def signals(peer):
    """Returns the codes of the signalling messages without a token that a peer received."""
    return [it.code for it in peer.received[b""]]


def end_of(peer, seconds=LIMIT):
    """Returns the time when the connection of a peer ends, or None if it does not end within these seconds."""
    ends = time.monotonic() + seconds
    with contextlib.suppress(OSError):
        while time.monotonic() < ends:
            peer.read(ends - time.monotonic())
        return None
    return time.monotonic()
