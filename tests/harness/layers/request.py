"""Rows for the messages of requests. Each row, `METHOD TARGET` and fields of the request, is sent by a new client,
whose first token is 01.

The result is the message. The fields are those of the layer `client`.
"""

from layers import Step
from layers.client import event_of, opened, refused
from message_syntax import spelled

LOOKS = ("look",)


def message(line):
    """Returns the message of a line, if the token, the phase and the number of outstanding requests are as expected."""
    token, phase, outstanding, _, front = line.split()
    return front if (token, phase, outstanding) == ("01", "Open", "1") else line


def steps(opening, rows):
    for row in rows:
        event, _, wanted = row.partition(" => ")
        yield Step(opened(opening), "")
        yield Step("look", "- Waiting 0", lambda line: " ".join(line.split()[:-2]))
        yield Step("take 00e1", "2 ready Open 0", lambda line: " ".join(line.split()[:-2]))
        yield Step(event_of(f"send {event}"), spelled(wanted), message)
