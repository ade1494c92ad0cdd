"""Brokers of MQTT that are none, and bytes that no broker sends."""

import contextlib
import random
import socket
import threading
import time

from gateways import LIMIT
from peers import LOCAL

# CONNACK and SUBACK of MQTT 5. The first subscription of libmosquitto has the packet identifier 1.
CONNACK, SUBACK = bytes.fromhex("2003000000"), bytes.fromhex("900400010001")


def publication(topic, payload, flags=0x31):
    """Returns a PUBLISH packet of QoS 0 without properties."""
    body = len(topic).to_bytes(2, "big") + topic + b"\0" + payload
    head, left = b"", len(body)
    while True:
        left, digit = left >> 7, left & 127
        head += bytes([digit | (128 if left else 0)])
        if not left:
            return bytes([flags]) + head + body


NOISE = random.Random(5683)

# Brokers that are none, by what they send after the bytes of the gateway, and the text that the log has for it.
FALSE_BROKERS = {
    "nothing": ([], "no connection within 10 seconds"),
    "nothing, in place of TLS": ([], "no connection within 10 seconds"),
    "garbage in place of TLS": ([NOISE.randbytes(5000)], "broker: "),
    "only CONNACK": ([CONNACK], "no answer to the subscription within 10 seconds"),
    "no marker": ([CONNACK, SUBACK], "the marker did not come within 10 seconds"),
    "garbage": ([NOISE.randbytes(5000)], "broker: "),
    "a long packet": ([b"\x30\xff\xff\xff\x7f" + NOISE.randbytes(5000)], "broker: "),
    "a packet that never ends": ([b"\x30\xff\xff\xff\xff\xff"], "broker: "),
    "a refused connection": ([bytes.fromhex("2003008700")], "refused the connection: "),
    "a refused subscription": ([CONNACK, bytes.fromhex("900400010087")], "refused the subscription: "),
    "MQTT 3.1.1": ([bytes.fromhex("20020001")], "broker: "),
    "garbage after CONNACK": ([CONNACK, NOISE.randbytes(5000)], "broker: "),
    "garbage after SUBACK": ([CONNACK, SUBACK, NOISE.randbytes(5000)], "broker: "),
    "a topic that is no UTF-8": ([CONNACK, SUBACK, publication(b"shared/\xff", b"x")], "broker: "),
    "an empty topic": ([CONNACK, SUBACK, publication(b"", b"x")], "broker: "),
    "messages of others": ([CONNACK, SUBACK, b"".join(publication(b"other/%d" % at, b"x") for at in range(300))],
                           "ignored: "),
    "a DISCONNECT": ([CONNACK, SUBACK, bytes.fromhex("e0018b")], "ended the connection: "),
    "CONNACK again": ([CONNACK, SUBACK + 100 * CONNACK], "sent a second CONNACK"),
    "messages before SUBACK": ([CONNACK, publication(b"shared/a", b"x")],
                               "no answer to the subscription within 10 seconds"),
}


class FalseBroker:
    """Accepts connections, and sends the given pieces, each after bytes of the gateway."""

    def __init__(self, pieces):
        self.listener, self.pieces, self.ends = socket.create_server((LOCAL, 0)), pieces, False
        self.port = self.listener.getsockname()[1]
        self.thread = threading.Thread(target=self.run, daemon=True)

    def run(self):
        self.listener.settimeout(0.2)
        held = []
        while not self.ends:
            with contextlib.suppress(OSError):
                connection = self.listener.accept()[0]
                held.append(connection)
                connection.settimeout(3)
                for piece in self.pieces:
                    connection.recv(65536)
                    connection.sendall(piece)
        for connection in held:
            connection.close()
        self.listener.close()

    def __enter__(self):
        self.thread.start()
        return self

    def __exit__(self, *_):
        self.ends = True
        self.thread.join(LIMIT)


class Relay:
    """Relays connections to a broker, at most a number of bytes a second, and can send bytes of its own to the gateway.
    While `open` is not set, it relays no new connection."""

    def __init__(self, port, rate=None):
        self.listener, self.to, self.rate = socket.create_server((LOCAL, 0)), port, rate
        self.gateways, self.ends = [], False
        self.port, self.open = self.listener.getsockname()[1], threading.Event()
        self.open.set()

    def __enter__(self):
        threading.Thread(target=self.run, daemon=True).start()
        return self

    def __exit__(self, *_):
        self.ends = True
        self.listener.close()

    def run(self):
        while not self.ends:
            # A connection ends at once if the broker is away.
            with contextlib.suppress(OSError), contextlib.ExitStack() as stack:
                gateway = stack.enter_context(self.listener.accept()[0])
                self.open.wait()
                broker = socket.create_connection((LOCAL, self.to), LIMIT)
                stack.pop_all()
                self.gateways.append(gateway)
                for one, other in ((gateway, broker), (broker, gateway)):
                    threading.Thread(target=self.copy, args=(one, other), daemon=True).start()

    def cut(self):
        """Ends the connections."""
        for it in self.gateways:
            with contextlib.suppress(OSError):
                it.shutdown(socket.SHUT_RDWR)

    def copy(self, one, other):
        with contextlib.suppress(OSError):
            while piece := one.recv(self.rate // 10 if self.rate else 65536):
                other.sendall(piece)
                time.sleep(0.1 if self.rate else 0)
        for it in (one, other):
            with contextlib.suppress(OSError):
                it.shutdown(socket.SHUT_RDWR)


# Bytes that end a connection to the broker at once, if they are not part of a packet. Each has the text of the log.
INJECTED = {
    NOISE.randbytes(100): "connection failed: ",
    NOISE.randbytes(5000): "connection failed: ",
    bytes(64): "connection failed: ",
    b"\x30\xff\xff\xff\xff\x01": "connection failed: ",
    b"\x32\x08\x00\x01a\x00\x00\x02\x7f\x01": "connection failed: ",
    b"\xe0\x01\x80": "ended the connection: ",
    publication(b"shared/\xff", b"x"): "connection failed: Malformed UTF-8",
}
