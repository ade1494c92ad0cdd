"""Records of servers, their replays, and the error output and the memory of a server with a record."""

import contextlib
import os
import shlex
import subprocess
import time

from messages import Malformed, length_of
from peers import LIMIT

# Maximum number of bytes of a message before its token.
HEAD = 8


class Record:
    """The text of a record: the lines of its header, those after it, and what follows the last newline."""

    def __init__(self, text):
        self.text = text
        lines = text.split(b"\n")
        self.header, self.lines, self.torn = lines[:3], lines[3:-1], lines[-1]
        self.whole = text[: len(text) - len(self.torn)]

    def options(self):
        """Returns the words of the line of options."""
        return self.header[1].removeprefix(b"# options: ").decode().split(" ")

    def command(self):
        """Returns the words of the command line that replays the record, without the name of the program."""
        return shlex.split(self.header[2].removeprefix(b"# replay: coap-server ").decode())


def record_in(name):
    """Returns the record in a file."""
    with open(name, "rb") as it:
        return Record(it.read())


def joined(lines, word):
    """Returns the bytes of the lines that begin with a word, joined for each number of a connection."""
    found = {}
    for line in lines:
        if line.startswith(word):
            _, number, digits = line.split(b" ")
            found.setdefault(int(number), []).append(digits)
    return {number: bytes.fromhex(b"".join(pieces).decode()) for number, pieces in found.items()}


def frames_in(stream):
    """Returns the number of messages that are whole in a stream, up to a malformed one."""
    at, number = 0, 0
    with contextlib.suppress(Malformed):
        while (size := length_of(stream[at : at + HEAD])) is not None and at + size <= len(stream):
            at, number = at + size, number + 1
    return number


def replay(server, words, text=b""):
    """Runs a server with these words and this input. Returns its status, the output of each connection by its number,
    and its error output."""
    done = subprocess.run([server, *words], input=text, capture_output=True, timeout=8 * LIMIT)
    return done.returncode, joined(done.stdout.split(b"\n"), b"out "), done.stderr


def said_by(server, seconds=0.3):
    """Returns what a server has written to standard error since its first line, without waiting for its end."""
    time.sleep(seconds)
    os.set_blocking(server.process.stderr.fileno(), False)
    said = b""
    with contextlib.suppress(BlockingIOError):
        while piece := os.read(server.process.stderr.fileno(), 65_536):
            said += piece
    return said.decode()
