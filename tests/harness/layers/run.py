"""Rows for runs of a client over a connection in memory: `ARGUMENTS | TIMES | READS => STATUS; OUT; ERR; WRITTEN`.

The arguments are those of the command line. The clock returns the times in order, and then the last one again. A read
returns bytes, or `later`, `end` or `failed`. Reads after the last one return `later`. One of these words can be before
the arguments:

- `deaf`: the connection accepts no bytes,
- `slow`: the connection accepts one byte a write,
- `torn`: writes to the connection fail,
- `shut`: writes to the connection report its end,
- `full`: the output accepts no bytes,
- `mute`: the error output accepts no bytes.

`{9*a}` in the arguments is 9 times `a`. OUT and ERR, the bytes written to both outputs, are text, with `\\n` for a
newline. Numbers and texts of errors are compared if the row has them.
"""

import re

from layers import Step
from layers.client import wanted_of
from layers.target import repeated
from message_syntax import spelled

# No row depends on those before it.
ALONE = True

# Words before the arguments, with the writes of the connection.
KINDS = {"deaf": "later", "slow": "one", "torn": "failed", "shut": "end", "full": "all", "mute": "all", "-": "all"}


def event_of(text):
    """Returns an event in the form of the probe."""
    line, moments, reads = spelled(text).split(" | ")
    line = repeated(line)
    kind, _, rest = line.partition(" ")
    kind, line = (kind, rest) if kind in KINDS else ("-", line)
    words = reads.split(" ") if reads else []
    counts = [word if word in ("later", "end", "failed") else str(len(word) // 2) for word in words]
    given = "".join(word for word in words if word not in ("later", "end", "failed"))
    return f"{kind} {KINDS[kind]} {moments.replace(' ', ',')} {','.join(counts) or '-'} {given or '-'} {line}"


def page(digits_):
    """Returns the text written to an output."""
    try:
        text = bytes.fromhex("" if digits_ == "-" else digits_).decode()
    except UnicodeDecodeError:
        return digits_
    return text.replace("\n", "\\n") or "-"


def reported_as(wanted):
    """Returns a function that converts a line to the form of the expected result."""

    def reported(line):
        *status, out, err, written = line.split()
        status = " ".join(status)
        if " (" not in wanted:
            status = re.sub(r" \d+ \(.*\)", "", status)
        return f"{status}; {page(out)}; {page(err)}; {written}"

    return reported


def steps(opening, rows):
    yield Step("= run", "")
    for row in rows:
        event, _, wanted = row.partition(" => ")
        yield Step(event_of(event), wanted_of(wanted), reported_as(wanted))


def struck(step, line, again, line_again):
    """Returns the differences after an allocation failure: nothing may be written."""
    return [] if "Memory" not in line or line.split()[-3:] == ["-"] * 3 else [f"{again}: {line}"]


def refused(event, line, again):
    """Returns the call whose allocation failed, and the state that is left."""
    return ("`run_client`", "nothing written") if "Memory" in line else ("`client_words`", "nothing")
