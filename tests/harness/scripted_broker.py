"""A broker of MQTT 5 whose answers a test chooses, one by one."""

import contextlib
import socket
import threading
import time

from gateways import LIMIT
from peers import LOCAL

CONNECT, PUBLISH, PUBACK, SUBSCRIBE, PINGREQ, DISCONNECT = 1, 3, 4, 8, 12, 14

# Fate of a publication: the reason of its PUBACK, or None for no PUBACK, and whether it is sent back.
TAKEN = (0, True)


def counted(number):
    """Returns a number as a variable byte integer."""
    text = b""
    while True:
        number, digit = number >> 7, number & 127
        text += bytes([digit | (128 if number else 0)])
        if not number:
            return text


def read_count(data, at):
    """Reads a variable byte integer. Returns it and the place after it, or None if more bytes are needed."""
    value = 0
    for step in range(4):
        if at + step >= len(data):
            return None
        value |= (data[at + step] & 127) << 7 * step
        if data[at + step] < 128:
            return value, at + step + 1
    raise ValueError("a count of more than four bytes")


def packet(head, body):
    return bytes([head]) + counted(len(body)) + body


class Published:
    """A PUBLISH packet of the gateway."""

    def __init__(self, head, body):
        length = int.from_bytes(body[:2], "big")
        self.topic, at, self.number = body[2:2 + length].decode(), 2 + length, None
        if head & 6:
            self.number, at = body[at:at + 2], at + 2
        size, start = read_count(body, at)
        self.properties, self.payload = body[at:start + size], body[start + size:]
        self.is_retained = bool(head & 1)

    def again(self):
        """Returns the packet that sends it back, with QoS 0."""
        topic = self.topic.encode()
        return packet(0x30 | self.is_retained, len(topic).to_bytes(2, "big") + topic + self.properties + self.payload)


class ScriptedBroker:
    """Serves one gateway at a time. `decide` returns the fate of a publication of a resource, such as TAKEN. Those that
    are not sent back are in `kept`."""

    def __init__(self, decide=lambda published: TAKEN):
        self.listener, self.decide = socket.create_server((LOCAL, 0)), decide
        self.port, self.ends = self.listener.getsockname()[1], False
        self.retained, self.published, self.kept = {}, [], []
        self.subscribed, self.connections, self.connection = [], 0, None
        self.keeps_markers, self.lock = False, threading.RLock()
        self.thread = threading.Thread(target=self.run, daemon=True)

    def __enter__(self):
        self.thread.start()
        return self

    def __exit__(self, *_):
        self.ends = True
        self.listener.close()
        if self.connection:
            with contextlib.suppress(OSError):
                self.connection.shutdown(socket.SHUT_RDWR)
        self.thread.join(LIMIT)

    def run(self):
        self.listener.settimeout(0.2)
        while not self.ends:
            with contextlib.suppress(OSError), self.listener.accept()[0] as connection:
                connection.settimeout(None)
                connection.setsockopt(socket.IPPROTO_TCP, socket.TCP_NODELAY, 1)
                self.connection, self.connections = connection, self.connections + 1
                self.serve(connection)

    def serve(self, connection):
        data = b""
        while piece := connection.recv(65536):
            data += piece
            while (found := read_count(data, 1) if len(data) > 1 else None) and len(data) >= sum(found):
                size, start = found
                head, body, data = data[0], data[start:start + size], data[start + size:]
                with self.lock:
                    self.handle(connection, head, body)

    def handle(self, connection, head, body):
        kind = head >> 4
        if kind == CONNECT:
            connection.sendall(packet(0x20, b"\0\0\0"))
        elif kind == SUBSCRIBE:
            self.subscribed.append(time.monotonic())
            again = b"".join(it.again() for it in self.retained.values())
            connection.sendall(packet(0x90, body[:2] + b"\0\1") + again)
        elif kind == PINGREQ:
            connection.sendall(b"\xd0\0")
        elif kind == PUBLISH:
            self.take(connection, Published(head, body))

    def take(self, connection, published):
        is_own = "/%gateway-" in published.topic
        is_kept = self.keeps_markers and not published.is_retained
        reason, is_sent = (0, not is_kept) if is_own else self.decide(published)
        if not is_own:
            self.published.append(published)
        if published.is_retained and (reason or 0) < 0x80:
            self.retained[published.topic] = published
            if not published.payload:
                del self.retained[published.topic]
        if reason is not None:
            connection.sendall(packet(0x40, published.number + (bytes([reason]) + b"\0" if reason else b"")))
        if is_sent:
            connection.sendall(published.again())
        else:
            self.kept.append(published)

    def send(self, data):
        """Sends bytes to the gateway."""
        with self.lock:
            self.connection.sendall(data)

    def message(self, topic, payload, properties=b"\0"):
        """Sends a retained message of another publisher."""
        topic = topic.encode()
        self.send(packet(0x31, len(topic).to_bytes(2, "big") + topic + properties + payload))

    def release(self):
        """Sends the first message back that was kept."""
        with self.lock:
            self.connection.sendall(self.kept.pop(0).again())
