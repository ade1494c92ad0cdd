"""Brokers, gateways and texts that several checks of the connection to the broker need."""

import struct
import tempfile
import threading
import time

from commands import preloaded
from gateway_checks import FakeSetting, write_file
from gateways import LIMIT, Gateway
from scripted_broker import CONNECT, ScriptedBroker, packet

# A CONNACK that the gateway is not authorised.
REFUSAL = packet(0x20, b"\0\x87\0")


class StrictBroker(ScriptedBroker):
    """A broker that refuses a number of connections. `properties` are those of its later CONNACKs. `reply` returns the
    bytes for a publication of the gateway for itself, or None for the usual ones. `connects` has a pair for each
    CONNECT: its time and its client identifier."""

    def __init__(self, properties=b"", reply=lambda published: None, refusals=0):
        super().__init__()
        self.connack = packet(0x20, b"\0\0" + bytes([len(properties)]) + properties)
        self.reply, self.refusals, self.connects, self.changed = reply, refusals, [], threading.Condition()

    def handle(self, connection, head, body):
        if head >> 4 != CONNECT:
            super().handle(connection, head, body)
            return
        with self.changed:
            # The client identifier follows the properties, whose length has one byte.
            start = 11 + body[10]
            length = int.from_bytes(body[start:start + 2], "big")
            self.connects.append((time.monotonic(), body[start + 2:start + 2 + length].decode()))
            self.changed.notify_all()
            connection.sendall(REFUSAL if len(self.connects) <= self.refusals else self.connack)

    def take(self, connection, published):
        reply = self.reply(published)
        if reply is None:
            super().take(connection, published)
        else:
            connection.sendall(reply)

    def connected(self, count):
        """Waits for a number of connections, and returns the first ones."""
        with self.changed:
            self.changed.wait_for(lambda: len(self.connects) >= count, LIMIT)
            return self.connects[:count]


def alone(stack, program, broker, gateway=7, words=(), before=()):
    """Starts a gateway of a broker that is no mosquitto. Does not wait until it listens."""
    folder = stack.enter_context(tempfile.TemporaryDirectory(prefix="coap-mqtt-"))
    write_file(f"{folder}/password", "x\n")
    started = Gateway(program, FakeSetting(broker.port, folder), folder, gateway, words, before)
    started.start(waits=False)
    stack.push(started)
    return started


def write_number(name, number):
    with open(name, "wb") as file:
        file.write(struct.pack("=q", number))


def stepped(folder, clock="CLOCK_STEP"):
    """Returns the words that run a program with a clock that the test sets, and the name of the file with its step."""
    library, step = preloaded("clock_step", folder), f"{folder}/step"
    write_number(step, 0)
    return ["sh", "-c", f'exec 9<{step}; exec env LD_PRELOAD={library} {clock}=9 "$@"', "sh"], step
