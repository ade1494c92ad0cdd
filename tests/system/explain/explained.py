"""Runs of coap-explain. The programs are the first arguments of the script."""

import re
import subprocess
import sys

from message_syntax import encoded

SERVER, EXPLAIN = sys.argv[1:3]

NAME = "coap-explain"

# Timeout of each run in seconds.
LIMIT = 300

# Maximum number of bytes of a line of the record without its newline, and of a line of the output.
LONGEST, WIDEST = 2_101_248, 1_024

SETTINGS = bytes.fromhex("00e1")

OPTIONS = ("# options: -d 2 --max-message 1152 --max-sent 1152 --queue 4608 --pending 16 --observers 16 --connections 3"
           " --starts 1795460853,5,0")


def message(code, token=b"", options=(), payload=b""):
    return encoded(code, token, list(options), payload)


def explain(record, *words):
    """Explains a record from standard input. Returns the status, the output and the error output."""
    given = record if isinstance(record, bytes) else "".join(line + "\n" for line in record).encode("latin-1")
    done = subprocess.run([EXPLAIN, *words, "-"], input=given, capture_output=True, timeout=LIMIT)
    return done.returncode, done.stdout.decode("latin-1"), done.stderr.decode("latin-1")


def faults(*lines):
    """Returns these lines as the program writes them to standard error."""
    return "".join("%s: %s\n" % (NAME, line) for line in lines)


def is_printable(text):
    """Returns true if a text has only lines of printable ASCII of limited length."""
    return re.fullmatch(r"(?:[\x20-\x7e]{0,%d}\n)*" % WIDEST, text) is not None
