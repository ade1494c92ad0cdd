"""Rows for framers: `= MAX`. The events are `next BYTES`, `each BYTES` (byte by byte), `hold BYTES`, `unread BYTES`,
`clear`, `raise MAX`, `look` and `copied`.

The result has the outcome of `Framer::next` and the number of bytes taken, or the maximum frame size, or the number of
bytes copied. Then follow the numbers of bytes kept and spent. A frame that is whole in its input slice is `Whole`, and
one from the buffer of the framer is `Frame`. The event `hold` passes the bytes after a whole frame while that frame is
borrowed, and has the frame after them in its result.

`cuts STREAM => FRAME..` splits a stream at each pair of offsets. The frames must be the same, and whole if they are not
split.
"""

import re

from layers import Step, quoted
from message_syntax import digits, spelled

LOOKS = ("look", "copied")


def reported_as(event):
    """Returns a function that converts the line of an event to the form of the expected result."""
    word = event.partition(" ")[0]

    def reported(line):
        what, largest, kept, spent, copied = re.fullmatch(r"(.*)max (\d+) (\d+) (\d+) (\d+)", quoted(line)).groups()
        kept = f"kept {kept} spent {spent}"
        if word in ("next", "each", "all", "hold"):
            return what + kept
        return what + (f"copied {copied} {kept}" if word == "copied" else f"max {largest} {kept}")

    return reported


def found_in(line):
    """Returns the outcomes of a line, the number of bytes taken, and the number of bytes kept."""
    what, _, kept = reported_as("all")(line).partition("left 0 kept ")
    found = re.findall(r"((?:Frame|Whole) [0-9a-f]+|More|\w+ \d+ \".*?\") taken (\d+)", what)
    return [it for it, _ in found], sum(int(taken) for _, taken in found), kept.split(" ")[0]


def piece(stream, ends, first, second):
    """Returns a step that passes a part of a stream of frames. Each frame must be found in the part that has its last
    byte."""
    given = [(begin, end) for begin, end in zip([0, *ends], ends) if first < end <= second]
    frames = [f"{'Whole' if first <= begin else 'Frame'} {stream[begin * 2 : end * 2]}" for begin, end in given]
    begun = max(end for end in (0, *ends) if end <= second)
    more = ["More"] if begun < second and first < second else []
    wanted = str((frames + more, second - first, str(second - begun)))
    return Step(f"all {stream[first * 2 : second * 2]}".strip(), wanted, lambda line: str(found_in(line)))


def cuts(stream, frames):
    """Returns steps that split a stream at each pair of offsets."""
    assert "".join(frames) == stream, "other frames than the stream has"
    ends = [sum(len(frame) // 2 for frame in frames[: count + 1]) for count in range(len(frames))]
    size = ends[-1]
    for first in range(size + 1):
        for second in range(first, size + 1):
            yield from (piece(stream, ends, *ends_of) for ends_of in ((0, first), (first, second), (second, size)))


def steps(opening, rows):
    yield Step(f"= frame {opening}", "")
    for row in rows:
        event, _, wanted = row.partition(" => ")
        if event.startswith("cuts "):
            yield from cuts(digits(event.removeprefix("cuts ")), [digits(frame) for frame in wanted.split()])
        else:
            yield Step(spelled(event).removesuffix(" -"), spelled(wanted), reported_as(event))


def refused(event, line, again):
    """Returns the call whose allocation failed, and the state that is left."""
    if event.startswith("raise "):
        return "`Framer::raise`", "the framer as before"
    return "`Framer::new`", "nothing"
