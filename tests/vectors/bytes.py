#!/usr/bin/env python3
"""Plays short streams on `coap-server --script -`, each after an empty CSM on its own connection, and compares the
results with a small model.

    tests/vectors/bytes.py bin/coap-server          all 256 streams of one byte, all 65,536 of two, and 4,194,304 of
                                                    the 16,777,216 of three
    tests/vectors/bytes.py bin/coap-server --all    all of these

The sample of three bytes has the first multiples of a step, modulo 2^24. The step is odd, so that no stream occurs
twice. The step is 2^24 divided by the golden ratio, so that the streams are evenly distributed.

The model is written from RFC 8323 (sections 3.2, 3.3, 3.4, 5) and RFC 7252 (sections 3.1, 5.4, 5.8, 5.10, 12). It
shares no code with the server, nor with the other parsers of these tests. The root is its only resource, because three
bytes can name no other existing one. No response exceeds the peer's limit, because no request can follow a
Max-Message-Size in three bytes. The RFCs leave some choices to the server: the texts of Aborts, the numbers of the
reasons, and the methods of the root. There the model follows the manual. The last line is 'N passed, M failed' for the
streams, and the status is 0 if M is 0.
"""

import os
import subprocess
import sys
from concurrent.futures import ProcessPoolExecutor

# Maximum size of a received message in these runs, and the CSM of the server.
GREATEST = 1_152
GREATEST_TOKEN = 64
OWN = "50e12204804140"
WORDS = ["--script", "-", "--max-message", str(GREATEST)]

SETTINGS = bytes.fromhex("00e1")

# The sample of streams of three bytes, and the maximum number of streams of one run of the program.
STEP = 10_368_889
SAMPLE = 1 << 22
ALL = 1 << 24
BATCH = 1 << 15

GREETING = b"coap+tcp"

# The reasons of a stop, with the texts of their Aborts. No Abort is sent after an Abort of the peer (RFC 8323 section
# 5.6).
FORMAT, TOO_LARGE, TOKEN_LENGTH, RESERVED, BAD_CSM, BAD_SIGNAL, ABORTED, RELEASED = 1, 2, 3, 4, 6, 7, 8, 9
TEXTS = {FORMAT: b"bad message", TOO_LARGE: b"message too large", TOKEN_LENGTH: b"bad token length",
         RESERVED: b"reserved code", BAD_CSM: b"bad CSM option", BAD_SIGNAL: b"bad signal option"}

# Signalling messages (RFC 8323 section 5), and codes of RFC 7252 section 12.1.
CSM, PING, PONG, RELEASE, ABORT = 0xE1, 0xE2, 0xE3, 0xE4, 0xE5
GET, DELETE = 1, 4
DELETED, CONTENT, BAD_OPTION, NOT_FOUND, NOT_ALLOWED, FAILED = 0x42, 0x45, 0x82, 0x84, 0x85, 0x8C

# Options of requests (RFC 7252 section 5.10, RFC 7641, but not RFC 7959): minimum and maximum length of a value, and
# whether it may repeat.
IF_MATCH, IF_NONE_MATCH, URI_PATH, CUSTODY = 1, 5, 11, 2
OPTIONS = {1: (0, 8, True), 3: (1, 255, False), 4: (1, 8, True), 5: (0, 0, False), 6: (0, 3, False), 7: (0, 2, False),
           8: (0, 255, True), 11: (0, 255, True), 12: (0, 2, False), 14: (0, 4, False), 15: (0, 255, True),
           17: (0, 2, False), 20: (0, 255, True), 35: (1, 1034, False), 39: (1, 255, False), 60: (0, 4, False)}


class Stop(Exception):
    """The connection stops for a reason. The Abort may name an option in Bad-CSM-Option. `taken` is the number of bytes
    taken of a message that is rejected by its first bytes."""

    def __init__(self, reason, option=None, taken=0):
        super().__init__(reason)
        self.reason, self.option, self.taken = reason, option, taken


def spelled(code, token=b"", options=b"", payload=b""):
    """Returns the encoding of a message with fewer than 269 bytes of options and payload (RFC 8323 section 3.2, RFC
    8974 section 2.1)."""
    body = options + (b"\xff" + payload if payload else b"")
    nibble, later = (len(token), b"") if len(token) < 13 else (13, bytes([len(token) - 13]))
    if len(body) < 13:
        return bytes([len(body) << 4 | nibble, code]) + later + token + body
    return bytes([13 << 4 | nibble, len(body) - 13, code]) + later + token + body


def front_size(stream):
    """Returns the size of the first message of a stream, or None if more bytes are needed (RFC 8323 section 3.2, RFC
    8974 section 2.1)."""
    if stream[0] & 15 == 15:
        raise Stop(TOKEN_LENGTH, taken=1)
    count, base = {13: (1, 13), 14: (2, 269), 15: (4, 65_805)}.get(stream[0] >> 4, (0, stream[0] >> 4))
    more, least = {13: (1, 13), 14: (2, 269)}.get(stream[0] & 15, (0, stream[0] & 15))
    stated = 1 + count + (1 + more if more else 0)
    if len(stream) < stated:
        return None
    token = least + int.from_bytes(stream[2 + count : 2 + count + more], "big")
    if token > GREATEST_TOKEN:
        raise Stop(TOKEN_LENGTH, taken=stated)
    size = 2 + count + more + token + base + int.from_bytes(stream[1 : 1 + count], "big")
    if size > GREATEST:
        raise Stop(TOO_LARGE, taken=stated)
    return size


def extended(nibble, rest):
    """Returns the number that a nibble and its extension encode, and the bytes after them (RFC 7252 section 3.1)."""
    if nibble < 13:
        return nibble, rest
    count, base = {13: (1, 13), 14: (2, 269), 15: (len(rest) + 1, 0)}[nibble]
    if len(rest) < count:
        raise Stop(FORMAT)
    return base + int.from_bytes(rest[:count], "big"), rest[count:]


def parts_of(frame):
    """Returns the code, the token and the options of a message. The payload is not read (RFC 8323 section 3.2, RFC 7252
    section 3.1)."""
    begin = 1 + {13: 1, 14: 2, 15: 4}.get(frame[0] >> 4, 0)
    length, later = extended(frame[0] & 15, frame[begin + 1 :])
    code, token, rest = frame[begin], later[:length], later[length:]
    options, number = [], 0
    while rest and rest[0] != 0xFF:
        first = rest[0]
        delta, rest = extended(first >> 4, rest[1:])
        length, rest = extended(first & 15, rest)
        number += delta
        if len(rest) < length or number > 65_535:
            raise Stop(FORMAT)
        options.append((number, rest[:length]))
        rest = rest[length:]
    if len(rest) == 1:
        raise Stop(FORMAT)
    return code, token, options


def recognised(options):
    """Returns the recognized options, and whether a critical one is not recognized (RFC 7252 sections 5.4.1 to
    5.4.5)."""
    found, is_strange = [], False
    for place, (number, value) in enumerate(options):
        least, most, repeats = OPTIONS.get(number, (1, 0, False))
        is_first = number not in [it for it, _ in options[:place]]
        if least <= len(value) <= most and (repeats or is_first):
            found.append((number, value))
        else:
            is_strange = is_strange or number % 2 == 1
    return found, is_strange


def response_code(code, found):
    """Returns the code of the response of a server that has the root alone (RFC 7252 sections 5.8 and 5.10.8)."""
    numbers = [number for number, _ in found]
    if code > DELETE:
        return NOT_ALLOWED
    if URI_PATH in numbers:
        return DELETED if code == DELETE else NOT_FOUND
    if code != GET:
        return NOT_ALLOWED
    is_failed = IF_NONE_MATCH in numbers or (IF_MATCH in numbers and (IF_MATCH, b"") not in found)
    return FAILED if is_failed else CONTENT


def response(code, token, options):
    """Returns the response to a request."""
    found, is_strange = recognised(options)
    answer = BAD_OPTION if is_strange else response_code(code, found)
    if answer != CONTENT:
        return spelled(answer, token)
    # Content-Format 0, text/plain (RFC 7252 section 12.3).
    return spelled(answer, token, b"\xc0", GREETING)


def signalled(code, token, options):
    """Returns the response to a signalling message, or raises the stop that it causes (RFC 8323 section 5)."""
    critical = [number for number, value in options if number % 2 or (code == CSM and number == 2 and len(value) > 4)]
    if code == ABORT:
        raise Stop(ABORTED)
    if critical and code in (CSM, PING, PONG, RELEASE):
        raise Stop(BAD_CSM if code == CSM else BAD_SIGNAL, critical[0] if code == CSM else None)
    if code == RELEASE:
        raise Stop(RELEASED)
    if code == PING:
        return spelled(PONG, token, b"\x20" if (CUSTODY, b"") in options else b"")
    return b""


def handled(frame):
    """Returns the response to a message on an open connection, or raises the stop that it causes (RFC 8323 sections
    3.3, 3.4 and 5)."""
    code, token, options = parts_of(frame)
    if code >> 5 in (1, 6):
        raise Stop(RESERVED)
    if code >> 5 == 7:
        return signalled(code, token, options)
    # Empty messages are ignored, and so are responses at a server.
    return response(code, token, options) if 0 < code < 32 else b""


def abort(stop):
    """Returns the Abort of a stop, if there is one (RFC 8323 section 5.6)."""
    if stop.reason not in TEXTS:
        return b""
    return spelled(ABORT, b"", b"" if stop.option is None else bytes([0x21, stop.option]), TEXTS[stop.reason])


def outcome(stream):
    """Returns the result of a stream after a CSM: the bytes taken, the output, the reason of the stop, and the bytes
    kept."""
    at, written = 0, b""
    while at < len(stream):
        try:
            size = front_size(stream[at:])
            if size is None or at + size > len(stream):
                break
            at += size
            written += handled(stream[at - size : at])
        except Stop as stop:
            return at + stop.taken, written + abort(stop), stop.reason, 0
    return len(stream), written, 0, len(stream) - at


def lines_of(number, stream):
    """Returns the events of a connection with this number, and the lines that they write."""
    taken, written, reason, kept = outcome(stream)
    phase = "open" if not reason else f"releasing {reason}" if reason == RELEASED else f"stopped {reason}"
    events = (f"open\ndrain {number}\nin {number} {(SETTINGS + stream).hex()}\ndrain {number}\nstatus {number}\n"
              f"drop {number}\n")
    stop = f" stop {reason}" if reason else ""
    lines = (f"open {number}\nout {number} {OWN}\nin {number} {taken + len(SETTINGS)}{stop}\n"
             f"out {number} {written.hex() or '-'}\n"
             f"status {number} {phase} kept {kept} waiting 0 pending 0 observers 0\ndrop {number}\n")
    return events, lines


def stream_of(size, place):
    """Returns a stream of this size. Streams of three bytes are in the order of the sample."""
    return (place * STEP % ALL if size == 3 else place).to_bytes(size, "big")


def play(program, size, places):
    """Plays streams in one run of the program. Returns their number, and a text for the first difference."""
    pairs = [lines_of(number, stream_of(size, place)) for number, place in enumerate(places, 1)]
    events, wanted = ("".join(parts) for parts in zip(*pairs))
    ran = subprocess.run([program, *WORDS], input=events, capture_output=True, text=True, timeout=600)
    if (ran.returncode, ran.stdout, ran.stderr) == (0, wanted, ""):
        return len(pairs), ""
    for (requested, line), found in zip(zip(events.splitlines(), wanted.splitlines()), ran.stdout.splitlines()):
        if line != found:
            return len(pairs), f"{requested}\n    wanted {line}\n    found  {found}"
    return len(pairs), f"status {ran.returncode}: {ran.stderr[:200]}"


def batches(counts):
    """Yields the sizes of streams, each with the numbers of the streams of one run."""
    for size, count in counts.items():
        for first in range(0, count, BATCH):
            yield size, range(first, min(first + BATCH, count))


def main(program, *words):
    counts = {1: 256, 2: 65_536, 3: ALL if "--all" in words else SAMPLE}
    passed = failed = 0
    with ProcessPoolExecutor(len(os.sched_getaffinity(0))) as pool:
        running = [pool.submit(play, os.path.abspath(program), *batch) for batch in batches(counts)]
        for count, wrong in (it.result() for it in running):
            passed, failed = passed + (0 if wrong else count), failed + (1 if wrong else 0)
            if wrong:
                print(wrong)
    print(f"{passed} passed, {failed} failed")
    return 1 if failed else 0


if __name__ == "__main__":
    sys.exit(main(*sys.argv[1:]))
