"""Checks that a connection to the broker stays while messages of others come before what it waits for."""

import contextlib
import time

from connections import StrictBroker, alone
from gateways import CREATED, LIMIT, PREFIX, PUT, soon
from scripted_broker import SUBSCRIBE, packet
from unsuitable import puback

# Seconds of messages, which are more than a step of a connection has without them.
LONG = 13


def send_messages(broker):
    """Sends a message each second, as a broker does that has queued many for a slow connection."""
    for at in range(LONG):
        broker.message(f"{PREFIX}/other", b"%d" % at)
        time.sleep(1)


def check_late_record(checks, program):
    """Checks a broker that sends many messages before the record of the owner."""
    kept = []

    def hold(published):
        if not published.is_retained:
            return None
        kept.append(published)
        return b""

    with StrictBroker(b"", hold) as broker, contextlib.ExitStack() as stack:
        gateway = alone(stack, program, broker)
        checks.same("the record is on its way", soon(lambda: len(kept), 1), 1)
        send_messages(broker)
        broker.send(kept[0].again() + puback(kept[0]))
        checks.same("it listens", gateway.says("listening on"), True)
        checks.same("connections", broker.connections, 1)


class LateBroker(StrictBroker):
    """A broker that does not answer the second subscription until `answer` is called."""

    later = None

    def handle(self, connection, head, body):
        if head >> 4 == SUBSCRIBE and self.subscribed and not self.later:
            self.later = body[:2]
        else:
            super().handle(connection, head, body)

    def answer(self):
        with self.lock:
            again = b"".join(it.again() for it in self.retained.values())
            self.connection.sendall(packet(0x90, self.later + b"\0\1") + again)


def check_late_subscription(checks, program):
    """Checks a broker that sends many messages before its answer to a later subscription."""
    with LateBroker() as broker, contextlib.ExitStack() as stack:
        gateway = alone(stack, program, broker, words=["--reread", "1"])
        checks.same("it listens", gateway.says("listening on"), True)
        checks.same("it reads again", soon(lambda: broker.later is not None, True, LIMIT + 30), True)
        send_messages(broker)
        with gateway.peer() as peer:
            checks.same("a write meanwhile", peer.code(PUT, f"{PREFIX}/a", payload=b"1"), CREATED)
        broker.answer()
        checks.same("it has read all", gateway.says(" resources", 2), True)
        checks.same("connections", broker.connections, 1)
