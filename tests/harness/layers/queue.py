"""Rows for output queues: `= COUNT`. The events are `append BYTES`, `push BYTE`, `write COUNT`, `part` and `look`.

The line of a `part` begins with a prefix of the queued bytes. Then follow, for all events, the free space, the room,
the number of queued bytes, and these bytes.
"""

from layers import Step
from message_syntax import spelled

LOOKS = ("look", "part")


def steps(opening, rows):
    yield Step(f"= queue {opening}", "")
    for row in rows:
        event, _, wanted = row.partition(" => ")
        yield Step(spelled(event).removesuffix(" -"), spelled(wanted))


def refused(event, line, again):
    """Returns the call whose allocation failed, and the state that is left."""
    return "`OutQueue::new`", "nothing"
