"""Checks the messages of the C library, and its client with its server."""

import contextlib
import random

import messages
from c_examples import run
from c_streams import streams

# Events of the client in the mode `pair` of c_client.c.
EVENTS = """::1 3 1 70
kind 1 token 0 reason 0 option 0 custody 0
kind 2 token 300 reason 0 option 0 custody 0 code 65 token 2 ''
kind 3 token 301 reason 0 option 0 custody 0 code 69 token 2 4:1 6:0 12:0 'first'
kind 3 token 301 reason 0 option 0 custody 0 code 69 token 2 4:1 6:0 12:0 'second'
kind 5 token 302 reason 0 option 0 custody 1
kind 2 token 301 reason 0 option 0 custody 0 code 69 token 2 4:1 12:0 'second'
kind 2 token 303 reason 0 option 0 custody 0 code 132 token 2 ''
kind 7 token 0 reason 9 option 0 custody 0
phase 2 reason 9 waiting 0 outstanding 0
"""

RANDOM_FRAMES = 3000


def frames():
    """Returns frames of recorded streams, each also with a changed, a missing and an additional byte, and random
    bytes."""
    chance, found = random.Random(1), {b"", b"\x00\x45", b"\x0d\x45\x00" + bytes(13), b"\x0e\x45\x00\x00"}
    for sent, _ in streams():
        with contextlib.suppress(messages.Malformed):
            for frame in messages.split(sent)[0]:
                if frame:
                    at = chance.randrange(len(frame))
                    found |= {frame, frame[:at] + bytes([chance.randrange(256)]) + frame[at + 1:], frame[:-1],
                              frame + b"\0"}
    return [*sorted(found), *(chance.randbytes(chance.randrange(12)) for _ in range(RANDOM_FRAMES))]


def is_message(frame):
    """Returns true if the bytes encode a message, for an implementation of its own."""
    try:
        whole, _ = messages.split(frame)
        _, _, options, _ = messages.parse(frame)
        return whole == [frame] and all(number <= 65535 for number, _ in options)
    except (messages.Malformed, IndexError, ValueError):
        return False


def check_messages(checks, programs):
    """Reads and writes frames. Those that are messages are written as they were read, and others are refused."""
    given = frames()
    records = b"".join(len(it).to_bytes(2, "big") + it for it in given)
    for words in programs:
        ran = run([*words, "messages"], records)
        said = ran.stdout.decode().splitlines()
        checks.same(f"messages {words[0]}", (ran.returncode, ran.stderr, len(said)), (0, b"", len(given)))
        wrong = [frame.hex() for frame, line in zip(given, said) if (line == "0") != is_message(frame)]
        checks.same("messages that are accepted", wrong[:5], [])


def check_pair(checks, words):
    ran = run(words)
    got = ran.returncode, ran.stdout.decode(), ran.stderr
    checks.same(f"a client and a server {words[0]}", got, (0, EVENTS, b""))


def check_wraps(checks, words):
    """Reads the bytes of a client whose queue wraps: a CSM, and each PUT with its token and its payload, in order."""
    ran = run([*words, "wraps"])
    checks.same(f"a queue that wraps {words[0]}", (ran.returncode, ran.stderr), (0, b""))
    wanted = [(3, bytes([it]), bytes((it + at // 7) % 256 for at in range(3000))) for it in range(1, 101)]
    try:
        frames, rest = messages.split(ran.stdout)
        read = [(code, token, payload) for code, token, _, payload in map(messages.parse, frames[1:])]
    except (messages.Malformed, IndexError) as trouble:
        read, rest = [], trouble
    checks.same(f"messages of a queue that wraps {words[0]}", (len(read), read == wanted, rest), (100, True, b""))
