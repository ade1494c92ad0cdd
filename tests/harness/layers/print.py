"""Rows for lines of text. The line of `describe BYTES` describes a message.

`line BYTES` gives three lines. The first has these bytes as hex digits and the text `c`. The second also has the
number 7, and the third the bytes `more`. `{9*a}` is 9 times `a`."""

from layers import Step
from layers.target import repeated
from message_syntax import spelled


def steps(opening, rows):
    yield Step("= print", "")
    for row in rows:
        event, _, wanted = row.partition(" => ")
        yield Step(spelled(event), repeated(wanted))
