"""Checks that a log names exactly the messages that passed."""

import re
import socket
import subprocess

import messages
from log_lines import SERVER, SETTINGS, logging, settled, texts_of
from message_syntax import encoded
from peers import LIMIT, LOCAL

# A line for a message whose code has a name of one word: direction, code and token. A long message is cut.
PASSED = re.compile(
    r"connection 1 (in|out): (?:first \d+ of \d+ bytes: )?(\d\.\d\d) \w+(?: token ([0-9a-f]+))?(?: .*)?"
)

# The CSMs of both sides, in the order of the log.
CSM_OUT, CSM_IN = ("out", "7.01", None), ("in", "7.01", None)


def passed_in(texts):
    """Returns direction, code and token of each message of a log, in order."""
    return [found.groups() for it in texts if (found := PASSED.fullmatch(it))]


def requested(count, size):
    """Returns a PUT of a resource of this size and `count` GETs of it, each with a token of its own. Returns each
    request of the log too, with its response."""
    path, gets = [(11, b"a")], [bytes([at]) for at in range(1, count + 1)]
    stream = encoded(3, b"\0", path, bytes(size)) + b"".join(encoded(1, it, path, b"") for it in gets)
    pairs = [(("in", "0.01", it.hex()), ("out", "2.05", it.hex())) for it in gets]
    return stream, [(("in", "0.03", "00"), ("out", "2.01", "00")), *pairs]


def check_wraps(checks):
    """If a connection sends more bytes than its queue has, the log names every message in order, and its last line has
    the counts."""
    for limit, queue, count, size in (("65536", "131072", 40, 4_000), ("1152", "2000", 40, 300)):
        stream, pairs = requested(count, size)
        words = [SERVER, "--stdio", "--log", "3", "-d", "1", "--max-sent", limit, "--queue", queue]
        ran = subprocess.run(words, input=SETTINGS + stream, capture_output=True, timeout=LIMIT)
        texts, name = texts_of(ran.stderr), f"a queue of {queue} bytes"
        checks.same(f"{name} wraps", len(ran.stdout) > int(queue), True)
        checks.same(f"{name}: messages", passed_in(texts), [CSM_OUT, CSM_IN, *(it for pair in pairs for it in pair)])
        numbers = [f"{count + 2} messages, {len(it)} bytes" for it in (SETTINGS + stream, ran.stdout)]
        last = f"connection 1 ended: end of input; {numbers[0]} in; {numbers[1]} out"
        checks.same(f"{name}: last line", texts[-1:], [last])
        checks.same(f"{name}: number of lines", len(texts), 2 * (count + 2) + 2)


def check_parts(checks):
    """If a socket accepts only a part of the queued bytes, the log names exactly the messages that were sent."""
    count, size = 40, 2_000
    stream, pairs = requested(count, size)
    wanted = {"in": [CSM_IN, *(it for it, _ in pairs)], "out": [CSM_OUT, *(it for _, it in pairs)]}
    with logging("--log", "3", "-d", "1") as (_, port, name):
        with socket.socket() as peer:
            # With small packets and a small buffer of the peer, the system accepts few bytes of the server.
            peer.setsockopt(socket.SOL_SOCKET, socket.SO_RCVBUF, 2_048)
            peer.setsockopt(socket.IPPROTO_TCP, socket.TCP_MAXSEG, 536)
            peer.settimeout(LIMIT)
            peer.connect((LOCAL, port))
            peer.sendall(SETTINGS + stream)
            first = passed_in(settled(name, len(wanted["in"]) + 3, LIMIT))
            sent = [it for it in first if it[0] == "out"]
            checks.same("parts: received messages", [it for it in first if it[0] == "in"], wanted["in"])
            checks.same("parts: messages that were sent to a peer that does not read", sent, wanted["out"][: len(sent)])
            checks.same("parts: some messages are still queued", 0 < len(sent) < count, True)
            got, frames = b"", []
            while len(frames) < count + 2 and (piece := peer.recv(700)):
                got += piece
                frames = messages.split(got)[0]
            heads = [messages.parse(it)[:2] for it in frames]
            received = [("out", f"{code >> 5}.{code & 31:02}", token.hex() or None) for code, token in heads]
            checks.same("parts: messages that the peer received", received, wanted["out"])
        texts = settled(name, 2 * (count + 2) + 2, LIMIT)
        checks.same("parts: messages that were sent", [it for it in passed_in(texts) if it[0] == "out"], received)
        checks.same("parts: last line", texts[-1].partition("in; ")[2], f"{count + 2} messages, {len(got)} bytes out")
