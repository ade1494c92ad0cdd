"""Parses CoAP messages over a reliable transport (RFC 8323 section 3.2, RFC 8974 section 2.1) and describes them.

This module shares no code with the programs, so their output is read by an independent implementation.
"""

CODES = {
    0x00: "Empty", 0x01: "GET", 0x02: "POST", 0x03: "PUT", 0x04: "DELETE",
    0x41: "Created", 0x42: "Deleted", 0x43: "Valid", 0x44: "Changed", 0x45: "Content",
    0x80: "Bad Request", 0x82: "Bad Option", 0x84: "Not Found", 0x85: "Method Not Allowed",
    0x86: "Not Acceptable", 0x8C: "Precondition Failed", 0x8D: "Request Entity Too Large",
    0xA0: "Internal Server Error", 0xA1: "Not Implemented", 0xA3: "Service Unavailable",
    0xA5: "Proxying Not Supported",
    0xE1: "Capabilities and Settings", 0xE2: "Ping", 0xE3: "Pong", 0xE4: "Release", 0xE5: "Abort",
}

SIGNAL_OPTIONS = {
    (0xE1, 2): "Max-Message-Size", (0xE1, 4): "Block-Wise-Transfer", (0xE1, 6): "Extended-Token-Length",
    (0xE2, 2): "Custody", (0xE3, 2): "Custody",
    (0xE4, 2): "Alternative-Address", (0xE4, 4): "Hold-Off",
    (0xE5, 2): "Bad-CSM-Option",
}


# Name of each option of requests and responses, and whether its value is a number (RFC 7252 section 5.10).
OPTIONS = {
    1: ("If-Match", False), 3: ("Uri-Host", False), 4: ("ETag", False), 5: ("If-None-Match", False),
    6: ("Observe", True), 7: ("Uri-Port", True), 8: ("Location-Path", False), 11: ("Uri-Path", False),
    12: ("Content-Format", True), 14: ("Max-Age", True), 15: ("Uri-Query", False), 17: ("Accept", True),
    20: ("Location-Query", False), 35: ("Proxy-Uri", False), 39: ("Proxy-Scheme", False), 60: ("Size1", True),
}

TEXTS = {"Uri-Host", "Location-Path", "Uri-Path", "Uri-Query", "Location-Query", "Proxy-Uri", "Proxy-Scheme"}


class Malformed(Exception):
    """The bytes are not the encoding of a message."""


# Number of extension bytes and offset of each nibble, and the maximum token length (RFC 8974 section 2.1).
EXTENSIONS = {13: (1, 13), 14: (2, 269)}
GREATEST_TOKEN = 64


def token_at(nibble, later):
    """Returns the length of a token. `later` has the bytes after the code."""
    extension, least = EXTENSIONS.get(nibble, (0, nibble))
    return least + int.from_bytes(later[:extension], "big")


def length_of(stream):
    """Returns the message size that the first bytes of `stream` declare, or None if more bytes are needed."""
    if not stream:
        return None
    nibble, token_nibble = stream[0] >> 4, stream[0] & 15
    if token_nibble == 15:
        raise Malformed("token length of nibble 15")
    extension = {13: 1, 14: 2, 15: 4}.get(nibble, 0)
    code, later = 1 + extension, EXTENSIONS.get(token_nibble, (0, 0))[0]
    if len(stream) < (code + 1 + later if later else code):
        return None
    token = token_at(token_nibble, stream[code + 1:])
    if token > GREATEST_TOKEN:
        raise Malformed("token length %d" % token)
    number = int.from_bytes(stream[1:1 + extension], "big")
    length = number + {13: 13, 14: 269, 15: 65805}[nibble] if extension else nibble
    return code + 1 + later + token + length


def split(stream):
    """Returns the frames of a stream, and the bytes that are left."""
    frames = []
    while True:
        size = length_of(stream)
        if size is None or len(stream) < size:
            return frames, stream
        frames.append(stream[:size])
        stream = stream[size:]


def number_of(nibble, bytes_left):
    if nibble == 15:
        raise Malformed("reserved nibble")
    extension = {13: 1, 14: 2}.get(nibble, 0)
    if len(bytes_left) < extension:
        raise Malformed("cut option")
    if not extension:
        return nibble, bytes_left
    number = int.from_bytes(bytes_left[:extension], "big")
    return number + {13: 13, 14: 269}[nibble], bytes_left[extension:]


def parse(frame):
    """Returns code, token, options (number, value) and payload of a frame."""
    nibble, token_nibble = frame[0] >> 4, frame[0] & 15
    at = 1 + {13: 1, 14: 2, 15: 4}.get(nibble, 0)
    code, at = frame[at], at + 1
    token_length = token_at(token_nibble, frame[at:])
    at += EXTENSIONS.get(token_nibble, (0, 0))[0]
    token, rest = frame[at:at + token_length], frame[at + token_length:]
    options, number = [], 0
    while rest and rest[0] != 0xFF:
        first, rest = rest[0], rest[1:]
        delta, rest = number_of(first >> 4, rest)
        length, rest = number_of(first & 15, rest)
        number += delta
        if len(rest) < length:
            raise Malformed("cut option")
        options.append((number, rest[:length]))
        rest = rest[length:]
    if rest and len(rest) == 1:
        raise Malformed("empty payload")
    return code, token, options, rest[1:]


class Ended(ConnectionError):
    """A connection ended where a message should follow."""


class Stream:
    """A socket from which messages are read one by one. `left` has the bytes after the last one."""

    def __init__(self, socket):
        self.socket, self.left = socket, b""

    def frame(self, most=65_536):
        """Returns the next frame. Each read receives at most `most` bytes."""
        while (size := length_of(self.left)) is None or size > len(self.left):
            piece = self.socket.recv(most)
            if not piece:
                raise Ended("the connection ended")
            self.left += piece
        frame, self.left = self.left[:size], self.left[size:]
        return frame

    def next(self, most=65_536):
        """Returns code, token, options and payload of the next message."""
        return parse(self.frame(most))


def tell_option(code, number, value):
    """Returns a description of an option in a message with this code."""
    if code >> 5 == 7:
        name, is_number = SIGNAL_OPTIONS.get((code, number), "option %d" % number), number in (2, 6) and code == 0xE1
    else:
        name, is_number = OPTIONS.get(number, ("option %d" % number, False))
    if is_number:
        return "%s %d" % (name, int.from_bytes(value, "big"))
    if name in TEXTS:
        return "%s %r" % (name, value.decode(errors="replace"))
    return ("%s %s" % (name, value.hex())).strip()


def tell(frame):
    """Returns a description of a frame in one line."""
    code, token, options, payload = parse(frame)
    words = ["%d.%02d %s" % (code >> 5, code & 31, CODES.get(code, ""))]
    if token:
        words.append("token %s" % token.hex())
    words.extend(tell_option(code, number, value) for number, value in options)
    if payload:
        words.append("payload %r" % payload)
    return ", ".join(word.strip() for word in words)
