"""Peers of a resource directory (RFC 9176): their requests, and the links of a lookup."""

import re

import messages
from message_syntax import requested, uint
from peers import LIMIT

# Codes and options of CoAP that the peers use.
GET, POST, PUT, DELETE = 1, 2, 3, 4
CREATED, DELETED, CHANGED, CONTENT = 0x41, 0x42, 0x44, 0x45
BAD_REQUEST, BAD_OPTION, NOT_FOUND, NOT_ALLOWED = 0x80, 0x82, 0x84, 0x85
NOT_ACCEPTABLE, FAILED, UNSUPPORTED, UNAVAILABLE = 0x86, 0x8C, 0x8F, 0xA3
IF_MATCH, LOCATION_PATH, CONTENT_FORMAT, URI_QUERY, ACCEPT = 1, 8, 12, 15, 17

LINK_FORMAT = 40

# Code and option of a CSM (RFC 8323 section 5.3).
CSM, MAX_MESSAGE_SIZE = 0xE1, 2

# Registrations of RFC 9176 section 5 and of its figures: the parameters and the links.
NODE = ["ep=node1", "base=coap://local-proxy-old.example.com"]
SENSORS = (b'</sensors/temp>;rt=temperature-c;if=sensor,'
           b'<http://www.example.com/sensors/temp>;anchor="/sensors/temp";rel=describedby')


def request(code, token, path, queries=(), payload=b"", content_format=None, more=()):
    """Returns the encoding of a request or a CSM. The path has its segments."""
    options = [(URI_QUERY, it.encode()) for it in queries] + list(more)
    if content_format is not None:
        options.append((CONTENT_FORMAT, uint(content_format)))
    return requested(code, token, path, options, payload)


class Peer(messages.Stream):
    """A connection to the directory. The CSMs were exchanged."""

    def __init__(self, server, size=None, tokens=0):
        """Announces a Max-Message-Size, if there is one. The first token is the number after `tokens`."""
        super().__init__(server.connect())
        self.tokens = tokens
        self.socket.settimeout(LIMIT)
        self.socket.sendall(request(CSM, b"", [], more=[] if size is None else [(MAX_MESSAGE_SIZE, uint(size))]))
        self.next()

    def send(self, code, path, *rest, **options):
        """Sends a request, and returns its token."""
        self.tokens += 1
        token = uint(self.tokens)
        self.socket.sendall(request(code, token, path, *rest, **options))
        return token

    def ask(self, code, path, *rest, **options):
        """Sends a request, and returns code, options and payload of its response."""
        token = self.send(code, path, *rest, **options)
        got = self.next()
        if got[1] != token:
            raise ConnectionError(f"not the response: {got!r:.100}")
        return got[0], got[2], got[3]

    def register(self, queries, links, content_format=LINK_FORMAT):
        """Registers an endpoint, and returns the code and the segments of the location."""
        code, options, _ = self.ask(POST, ["rd"], queries, links, content_format)
        return code, [value.decode() for number, value in options if number == LOCATION_PATH]

    def look(self, kind, *queries):
        """Looks up endpoints or resources, and returns the code and the text."""
        code, _, payload = self.ask(GET, ["rd-lookup", kind], queries)
        return code, payload.decode()

    def close(self):
        self.socket.close()


def links_of(text):
    """Returns the links of a text without commas and semicolons in quotes or targets: target, and set of attributes."""
    return sorted((re.match(r"<([^>]*)>", it)[1], frozenset(part.replace('"', "") for part in it.split(";")[1:]))
                  for it in text.split(",") if it)


def targets_of(text):
    return [target for target, _ in links_of(text)]
