"""Rows for configurations. `= SETTINGS` has the settings of all rows after it, and a row has further settings, each a
name and a number.

The expected result has all values as the accessors return them. First come the six limits of a connection. The limits
on connections, created resources, bytes of a representation and turns follow, and then the initial time, version and
connection number. If the configuration is invalid, the result is the name, the number and the text of the error. The
result of `starts` has the default initial values. `faults io` has the errors of a run, and `faults application` those
of the entries of an application.
"""

import re

from layers import Step, quoted

USUAL = {
    "max": 65_536, "sent": 65_536, "queue": 131_072, "pending": 16, "observers": 16, "outstanding": 16,
    "connections": 16, "dynamic": 0, "rep": 65_000, "turns": 1_000_000_000_000, "moment": 0, "versions": 0, "ids": 0,
}


def settings(text):
    words = text.split()
    return dict(zip(words[::2], map(int, words[1::2]), strict=True))


def reported(line):
    """Returns a line with the initial values as numbers alone."""
    return re.sub(r"Starts \{ moment: (\d+), versions: (\d+), ids: (\d+) \}", r"\1 \2 \3", quoted(line))


def steps(opening, rows):
    yield Step("= limits", "")
    for row in rows:
        event, _, wanted = row.partition(" => ")
        if event != "starts" and not event.startswith("faults "):
            values = {**USUAL, **settings(opening), **settings(event)}
            event = " ".join(["config", *(str(values[name]) for name in USUAL)])
            assert len(values) == len(USUAL), row
        yield Step(event, wanted, reported)
