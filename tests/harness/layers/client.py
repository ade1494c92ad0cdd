"""Rows for clients. `= OUTSTANDING TOKENS`, or all six limits and the tokens, creates a client. The first row checks
and removes its CSM.

The events are:

- `take BYTES`,
- `send METHOD TARGET` and `cancel TOKEN TARGET`, followed by fields of the request: `observe`, `plain`, `format:N`,
  `accept:N`, `option:N:BYTES`, `payload:BYTES`,
- `ping custody` and `ping plain`,
- `forget TOKEN` and `release`,
- `announce SIZE`,
- `written COUNT` and `end`,
- `part`, whose result is a prefix of the queued bytes,
- `look`, which does nothing,
- `times N EVENT`, which repeats an event N times; each must return a token.

`{9*a}` in a target is 9 times `a`. The line of an event has its result or `-`, the phase, the number of outstanding
requests, and the queued bytes. These bytes are then removed, as written, unless `keep` is before the event. Numbers and
texts of errors are compared if the row has them.
"""

import re

from layers import Step
from layers.target import repeated
from message_syntax import digits, spelled

LOOKS = ("look", "part")

# Default limits of both programs, without that of outstanding requests.
USUAL = "65536 65536 131072 16 16"


def opened(opening):
    """Returns an opening with all limits."""
    return f"= client {opening if len(opening.split()) > 2 else f'{USUAL} {opening}'}"


def requested(words, token="-"):
    """Returns the fields of a request in the form of the probe."""
    fields = {"observe": "0", "plain": "0", **dict.fromkeys(("format", "accept", "option"), "65536"),
              "value": "-", "payload": "-"}
    for word in words:
        name, _, value = word.partition(":")
        if name == "option":
            fields["option"], _, fields["value"] = value.partition(":")
        elif name in fields:
            fields[name] = value or "1"
        else:
            raise ValueError(f"nothing is asked by {word}")
    parts = [digits("" if part == "-" else part) for part in (token, fields["value"], fields["payload"])]
    named = [fields[name] for name in ("observe", "plain", "format", "accept", "option")]
    return " ".join(["".join(parts) or "-", *named, str(len(parts[0]) // 2), str(len(parts[1]) // 2)])


def event_of(text):
    """Returns an event in the form of the probe."""
    keep, text = ("keep ", text[5:]) if text.startswith("keep ") else ("", text)
    word, *rest = text.split(" ")
    if word == "send":
        return f"{keep}send {rest[0]} {repeated(rest[1])} {requested(rest[2:])}"
    if word == "cancel":
        return f"{keep}send cancel {repeated(rest[1])} {requested(rest[2:], rest[0])}"
    return keep + spelled(text)


# Matches text in brackets that is not a message: the reason of a stop, or the text of an error.
BRACKETS = re.compile(r"(?:Releasing|Stopped)\(\w+(?:\(\d+\))?\)|\((?!iPATCH)[a-z][^()]*\)")


def wanted_of(text):
    """Returns the expected result in the form of the probe."""
    kept = BRACKETS.findall(text)
    parts = iter(kept)
    return re.sub("\0", lambda _: next(parts), spelled(BRACKETS.sub("\0", text)))


def reported_as(wanted):
    """Returns a function that converts a line to the form of the expected result."""
    if re.search(r" \([a-z]", wanted):
        return str.strip
    return lambda line: re.sub(r" \d+ \([^()]*\)", "", line).strip()


def with_codes(line):
    """Returns a line with the codes of messages as in `2.05`."""
    code = lambda it: f"{it[1]} {int(it[2]) >> 5}.{int(it[2]) & 31:02} "
    return re.sub(r"\b(response|notification) (\d+) ", code, line)


def cancelled(event, line):
    """Returns the line of an event, with the result `Ok` if it has cancelled an observation."""
    return re.sub(r"^- ", "Ok ", line) if event.removeprefix("keep ").startswith("send cancel ") else line


def step(row):
    """Returns the step of a row."""
    event, _, wanted = row.partition(" => ")
    event, short = event_of(event), reported_as(wanted)

    def reported(line):
        *words, count, front = cancelled(event, with_codes(short(line))).split(" ")
        return " ".join([*words, *([] if int(count) == len(front.strip("-")) // 2 else ["uneven"]), front])

    return Step(event, wanted_of(wanted), reported)


def given(line):
    """Returns `given` if a line begins with a token, otherwise the line."""
    return "given" if re.match(r"([0-9a-f]{2})+ ", line) else line


def steps(opening, rows):
    yield Step(opened(opening), "")
    for row in rows:
        times = re.fullmatch(r"times (\d+) (.*)", row)
        if times:
            yield from [Step(event_of(times[2]), "given", given)] * int(times[1])
        else:
            yield step(row)


def refused(event, line, again):
    """Returns the call whose allocation failed, and the state that is left."""
    if event.startswith("= "):
        return "`Client::open`", "nothing"
    if event.removeprefix("keep ").startswith("announce "):
        return "`Client::announce`", "the client as before"
    return "`Target::read`", "nothing, and the client as before"
