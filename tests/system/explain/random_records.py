"""Checks the lines for random bytes, messages and scripts."""

import os
import random
import re
import subprocess

from explained import LIMIT, SERVER, SETTINGS, explain, is_printable, message
from messages import parse, split
from workspace import ROOT

# Bytes of random values, and a table that makes them of random bytes: zero bytes, escapes, parts of invalid UTF-8,
# quotation marks, letters.
SPECIAL = b"\x00\x1b[\n\r\x7f\xff\xc3aZ%\"\\"
SPOILED = bytes(SPECIAL[it % len(SPECIAL)] for it in range(256))

# Numbers of the options in random messages: all that coap_print names, and others. Those of signalling messages are
# below 8.
NUMBERS = [1, 2, 3, 4, 5, 6, 7, 8, 9, 11, 12, 14, 15, 16, 17, 19, 20, 21, 23, 27, 28, 31, 35, 39, 60, 252, 255, 258,
           292, 65_001]
SIGNALLING = range(1, 8)

# Codes of random messages.
METHODS_AND_RESPONSES = [0x01, 0x02, 0x03, 0x04, 0x05, 0x06, 0x07, 0x1F, 0x41, 0x44, 0x45, 0x5F, 0x84, 0x9F, 0xA0, 0xBF]
SIGNALS = [0xE1, 0xE2, 0xE3, 0xE4, 0xE5, 0xE6]

# Number of random messages of one run, and minimum number of options of each name in all runs.
MESSAGES_OF_RUN, FEWEST = 10_000, 100


def check_random_bytes(checks):
    """Whatever is in a record, each line is printable ASCII."""
    chance = random.Random(5)
    for _ in range(200):
        lines = ["open"]
        for _ in range(chance.randrange(1, 30)):
            piece = bytes(chance.choice(b"\x00\x1b[\n\x7f\xff\xc3aZ%\"\\\x60\x01\xe1")
                          for _ in range(chance.randrange(1, 40)))
            lines.append(chance.choice([
                "in 1 " + SETTINGS.hex(), "in 1 " + piece.hex(), "open",
                "in %d %s" % (chance.randrange(1, 5), piece.hex()), "drain 1", "drain 2 5",
                "#" + piece.replace(b"\n", b"").decode("latin-1"), "put /%1b%ff 65535 " + piece.hex(),
                "put /\x1b[2J - -", "remove /\x1b[2J",
                "drop %d" % chance.randrange(1, 4), "end 1"]))
        status, said, error = explain(lines)
        checks.same("printable lines of %r" % lines, (status, is_printable(said), error), (0, True, ""))
    for _ in range(200):
        record = bytes(chance.choice(b"open\nin 1 00e1# options: --log\x1b\xff\x00")
                       for _ in range(chance.randrange(200)))
        status, said, error = explain(record)
        checks.same("printable lines of %r" % record, (status in (0, 1), is_printable(said), is_printable(error)),
                    (True, True, True))


def random_value(chance, most):
    """Returns a value of at most this length: special bytes, or random ones."""
    value = chance.randbytes(chance.randrange(most + 1))
    return value.translate(SPOILED) if chance.random() < 0.8 else value


def random_message(chance):
    """Returns the code of a random message, and the message."""
    code = chance.choice(SIGNALS if chance.random() < 0.2 else METHODS_AND_RESPONSES)
    numbers = sorted(chance.choices(SIGNALLING if code in SIGNALS else NUMBERS, k=chance.randrange(5)))
    return code, message(code, chance.randbytes(chance.randrange(9)),
                         [(it, random_value(chance, 12)) for it in numbers], random_value(chance, 70))


def message_script(chance, count):
    """Returns a script with this number of random messages, each signal on a connection that ends after it, and the
    codes of all its messages."""
    lines, codes, opened, is_open = ["# options: -d 1000"], [], 0, False
    for _ in range(count):
        if not is_open:
            opened, is_open = opened + 1, True
            lines += ["open", "in %d %s" % (opened, SETTINGS.hex())]
            codes.append(SETTINGS[-1])
        code, sent = random_message(chance)
        lines += ["in %d %s" % (opened, sent.hex()), "drain %d" % opened]
        codes.append(code)
        if code in SIGNALS:
            lines.append("drop %d" % opened)
            is_open = False
    return lines, ["%d.%02d" % (code >> 5, code & 31) for code in codes]


def check_random_messages(checks, count):
    """Whatever is in options and payloads, each line is printable ASCII, and no message and no kind of option is
    missing."""
    with open(os.path.join(ROOT, "crates/coap_print/src/tables.rt"), encoding="utf-8") as file:
        named = dict.fromkeys(re.findall(r'"([\w-]+)",\s+Format::', file.read()), 0)
    checks.same("number of named options", len(named), 33)
    chance = random.Random(8)
    for _ in range(count // MESSAGES_OF_RUN):
        lines, codes = message_script(chance, MESSAGES_OF_RUN)
        status, said, error = explain(lines)
        checks.same("random messages: status, and printable lines", (status, is_printable(said), error), (0, True, ""))
        checks.same("random messages: their codes", re.findall(r"(?m)^ *\d+  <-  (\d\.\d\d)", said) == codes, True)
        named = {name: number + said.count(" " + name) for name, number in named.items()}
    checks.same("random messages: missing options", [name for name, number in named.items() if number < FEWEST], [])


def random_script(chance):
    """Returns a script with requests on two connections, and its events in order."""
    lines, opened = ["open", "open", "in 1 00e1", "in 2 00e1"], 2
    for turn in range(chance.randrange(5, 60)):
        path = [(11, chance.choice([b"a", b"b", b"time", b".well-known"]))]
        code, options = chance.choice([1, 1, 2, 3, 4]), path
        if code == 1 and chance.random() < 0.4:
            options = [(6, b""), *path]
        payload = chance.randbytes(chance.randrange(80)) if code in (2, 3) else b""
        sent = message(code, bytes([turn]), options, payload)
        at = chance.randrange(len(sent) + 1)
        connection = chance.randrange(1, opened + 1)
        lines += ["in %d %s" % (connection, it.hex()) for it in (sent[:at], sent[at:]) if it]
        lines += chance.choice([[], ["drain %d" % connection], ["drain %d %d" % (connection, chance.randrange(1, 40))],
                                ["tick %d" % turn]])
    return lines + ["drain 1", "drain 2"]


def codes_in(stream):
    """Returns the codes of the messages in a stream, as text, and the number of bytes after the last one."""
    frames, rest = split(stream)
    return ["%d.%02d" % (code >> 5, code & 31) for code in (parse(it)[0] for it in frames)], len(rest)


def check_messages(checks, count):
    """The messages of random scripts are those that arrive, and those that the server sends for the same script."""
    chance = random.Random(6)
    for _ in range(count):
        lines = random_script(chance)
        script = "".join(it + "\n" for it in lines).encode()
        played = subprocess.run([SERVER, "-d", "3", "--script", "-"], input=script, capture_output=True, timeout=LIMIT)
        checks.same("status of the server", (played.returncode, played.stderr), (0, b""))
        streams = {(way, it): b"" for way in ("<-", "->") for it in (1, 2)}
        for line, output in zip(lines, played.stdout.decode().splitlines()):
            if line.startswith("in "):
                _, connection, sent = line.split()
                streams["<-", int(connection)] += bytes.fromhex(sent)[:int(output.split()[2])]
            elif output.startswith("out ") and not output.endswith("-"):
                _, connection, written = output.split()
                streams["->", int(connection)] += bytes.fromhex(written)
        status, said, error = explain(["# options: -d 3", *lines])
        checks.same("status for a random script", (status, error), (0, ""))
        for (way, connection), stream in streams.items():
            found = re.findall(r"(?m)^ *%d  %s  (\d\.\d\d) " % (connection, way), said)
            checks.same("messages %s of connection %d of %r" % (way, connection, lines), found, codes_in(stream)[0])
