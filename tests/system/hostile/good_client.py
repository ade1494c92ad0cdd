"""The well-behaved client, and its requests."""

import socket
import time

import messages
from known_messages import PEER_SETTINGS, SETTINGS

# Maximum seconds for a response to the well-behaved client.
ANSWERED_IN = 2

# The codes of CoAP that the peers use.
GET, PUT, CREATED, CHANGED, CONTENT = 0x01, 0x03, 0x41, 0x44, 0x45

OBSERVE, URI_PATH = 6, 11


def request(code, token, options, payload=b""):
    """Returns a request whose options and payload fit into 12 bytes."""
    rest = options + (b"\xff" + payload if payload else b"")
    return bytes([len(rest) << 4 | len(token), code]) + token + rest


def path_option(last, segment):
    """Returns the option Uri-Path after an option with the number `last`."""
    return bytes([URI_PATH - last << 4 | len(segment)]) + segment


class GoodClient:
    """A client that sends one request after the other on one connection."""

    def __init__(self, address):
        self.connection = socket.create_connection(address, ANSWERED_IN)
        self.connection.sendall(PEER_SETTINGS)
        self.left = b""
        self.got = []
        self.slowest = 0

    def next(self, ends):
        """Returns the token of the next message, and its code, whether it has Observe, and its payload."""
        while not self.got:
            self.connection.settimeout(max(ends - time.monotonic(), 0.001))
            piece = self.connection.recv(4096)
            if not piece:
                raise ConnectionError("the connection ended")
            frames, self.left = messages.split(self.left + piece)
            self.got += [messages.parse(frame) for frame in frames]
        code, token, options, payload = self.got.pop(0)
        return token, (code, OBSERVE in [number for number, _ in options], payload)

    def ask(self, stream, count):
        """Sends a request, and returns the next messages by their tokens, without a CSM."""
        began = time.monotonic()
        self.connection.sendall(stream)
        answers = {}
        while len(answers) < count:
            token, answer = self.next(began + ANSWERED_IN)
            if answer[0] != SETTINGS:
                answers[token] = answer
        self.slowest = max(self.slowest, time.monotonic() - began)
        return answers


TIME = path_option(0, b"time")
STORED = path_option(0, b"good")
OBSERVED = bytes([OBSERVE << 4]) + path_option(OBSERVE, b"good")

# The requests of the well-behaved client: it creates a resource and observes it. Then it changes it, reads it, and
# reads /time, in turn.
ROUNDS = 66
OBSERVER = b"\x00"


def good_requests():
    """Yields the 200 requests of the well-behaved client: name, bytes, and the expected messages, with `None` for a
    time."""
    yield "PUT", request(PUT, b"\x01", STORED, b"0"), {b"\x01": (CREATED, False, b"")}
    yield "observation", request(GET, OBSERVER, OBSERVED), {OBSERVER: (CONTENT, True, b"0")}
    for number in range(1, ROUNDS + 1):
        token, value = bytes([number]), b"%d" % number
        changed = {token: (CHANGED, False, b""), OBSERVER: (CONTENT, True, value)}
        yield "PUT", request(PUT, token, STORED, value), changed
        yield "GET", request(GET, token, STORED), {token: (CONTENT, False, value)}
        yield "GET of /time", request(GET, token, TIME), {token: (CONTENT, False, None)}


def moments_left_out(answers, moments):
    """Returns the messages with `None` for each payload that is one of these times."""
    return {token: (code, observe, None if payload in moments else payload)
            for token, (code, observe, payload) in answers.items()}


def be_good(address, acts):
    """Sends all requests, each after an attack of another hostile peer. Stops at the first request without a response
    in time. Returns the names of the requests with the messages received and expected, and the seconds of the slowest
    response."""
    client, answered, go_on = GoodClient(address), [], True
    with client.connection:
        for name, stream, wanted in good_requests():
            go_on = go_on and acts.acquire(timeout=ANSWERED_IN)
            before = int(time.time())
            try:
                answers = client.ask(stream, len(wanted))
            except (OSError, messages.Malformed) as trouble:
                return answered + [(name, repr(trouble), wanted)], client.slowest
            moments = [b"%d" % it for it in range(before, int(time.time()) + 1)]
            answered.append((name, moments_left_out(answers, moments), wanted))
    return answered, client.slowest
