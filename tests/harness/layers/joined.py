"""Rows for a client and a server that are connected in memory. `= pieces FROM TO` plays the rows once for each maximum
size of a slice in this range. `= cuts FROM TO` plays the rows once for each offset in this range, at which both streams
are split.

The events are `send`, `cancel` and `ping` of the client (layers/client.py), `put BYTES` at the path `a` and `tick TIME`
of the server, and `look`. After each event, bytes are passed in both directions until none is left. The result has the
result of the event or `-`, the events of the client in order, and the number of outstanding requests.
"""

import re

from layers import Step
from layers.client import cancelled, event_of, reported_as, wanted_of, with_codes

LOOKS = ("look",)

# More bytes than any stream has.
ALL = 1_000_000


def opened(opening):
    """Returns the openings for the probe, each with the maximum size of a slice and the offset of the split."""
    how, first, last = opening.split()
    for number in range(int(first), int(last) + 1):
        yield f"= joined {number} 0" if how == "pieces" else f"= joined {ALL} {number}"


def step(row):
    """Returns the step of a row."""
    event, _, wanted = row.partition(" => ")
    event, short = event_of(event), reported_as(wanted)

    def reported(line):
        line = re.sub(r"^true ", "- ", cancelled(event, with_codes(short(line))))
        return line.replace(" ,", ",").replace(" ;", ";")

    return Step(event, wanted_of(wanted), reported)


def steps(opening, rows):
    once = [step(row) for row in rows]
    for line in opened(opening):
        yield Step(line, "")
        yield from once
