"""Rows for texts of scripts. The events are `read TEXT`, in which `|` is a newline, `bytes BYTES`, and `faults`.

The expected result has each event of the script before a semicolon, or `nothing` if there is none. If the script is
invalid, the result is the number and the text of the error. Text between two `'` is converted to hex digits. `{9*a}` is
9 times `a`.
"""

import re

from layers import Step
from layers.target import repeated
from message_syntax import bytes_of

# No row depends on those before it.
ALONE = True


def event_of(event):
    word, _, text = event.partition(" ")
    if word == "read":
        return "read " + text.replace("|", "\n").encode().hex()
    return f"read {bytes_of(text).hex()}" if word == "bytes" else event


def reported(line):
    """Returns the line of the probe with each semicolon next to its event, and the segments of a path in one word.

    Each event has only what it needs, and the Content-Format of a `Put` comes after its path."""
    line = re.sub(r"\b((?:Drain|Tick|End|Release|Drop|Status) \d+) -", r"\1", line)
    line = re.sub(r"\bPut (None|Some\(\d+\)) ((?:/\S+ )*)", r"Put \2\1 ", line)
    return re.sub(r"(/[0-9a-f-]+) (?=/)", r"\1", line.replace(" ;", ";")).strip() or "nothing"


def steps(opening, rows):
    yield Step("= script", "")
    for row in rows:
        event, _, wanted = row.partition(" => ")
        wanted = re.sub(r"'([^']*)'", lambda text: text[1].encode().hex(), repeated(wanted))
        yield Step(event_of(event), wanted, reported)


def refused(event, line, again):
    """Returns the call whose allocation failed, and the state that is left."""
    return "`script`", "nothing"
