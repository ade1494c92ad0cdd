"""Rows for servers. `= TITLE NAME=VALUE ..` creates one. A row has a line of a script, and the line that the server
writes for it.

`deadline=10 answers=/rd:POST+DELETE,/lamp:PUT` creates one with an application, which answers these methods at the
paths that begin so, within 10 seconds.

Several events can be in one row with `|` between them, and are then replayed in one call. A line `request ..` follows
that of its `in` after `|`. `each 1..256 ROW` is a row for each of these numbers, with `{n}` for the number, and
`{token}` for the number as a token of two bytes. `meanwhile ROW` is played only if an allocation failed in the row
before it, before that row is repeated.
"""

import itertools
import re

from layers import Step
from message_syntax import CODES, spelled

LOOKS = ("status",)

MEANWHILE = "meanwhile "

# Settings in the order of the probe, with their defaults.
SETTINGS = {"max": 65536, "sent": 65536, "queue": 131072, "pending": 16, "observers": 16, "outstanding": 16,
            "connections": 16, "dynamic": 0, "rep": 65000, "turns": 1, "moment": 0, "versions": 0, "ids": 0}

# Beginnings of events that are single calls.
CALLS = ("take ", "written ", "announce ", "part ")

# Settings of a server with an application.
APPLICATION = {"deadline", "answers"}


def said_of(opening):
    """Returns the settings of an opening."""
    said = dict(word.split("=", 1) for word in opening.split() if "=" in word)
    strange = said.keys() - SETTINGS.keys() - APPLICATION
    if strange:
        raise KeyError(f"= {opening}: no {', '.join(sorted(strange))}")
    return said


def parts_of(text):
    """Returns the path, the methods and the attributes of an entry of an application. A count and `*` before a
    character repeat it."""
    text = re.sub(r"(\d+)\*(.)", lambda it: int(it[1]) * it[2], text)
    path, _, text = text.partition(":")
    methods, _, attributes = text.partition(";")
    return path, methods.split("+"), attributes


def entry_of(text):
    """Returns an entry of an application with the codes of its methods, and the attributes of its link, in hex
    digits."""
    path, methods, attributes = parts_of(text)
    return f"{path}:{''.join(f'{CODES[method]:02x}' for method in methods)}:{attributes.encode().hex()}"


def opened(said):
    """Returns the row that creates a server with these settings."""
    numbers = " ".join(str(said.get(name, usual)) for name, usual in SETTINGS.items())
    if "answers" not in said:
        return f"= serve - 0 {numbers}"
    return f"= serve {','.join(map(entry_of, said['answers'].split(',')))} {said['deadline']} {numbers}"


def spelled_lines(text):
    """Returns lines with `|` between them, converted to hex digits. The ` | ` within a message in words does not
    separate lines."""
    return "|".join(spelled(line) for line in re.split(r"(?<! )\|(?! )", text))


def each_of(row):
    """Returns the rows for a row that may begin with `each`."""
    if not row.startswith("each "):
        return [row]
    _, ends, row = row.split(" ", 2)
    first, last = map(int, ends.split(".."))
    return [row.replace("{n}", str(number)).replace("{token}", f"{number & 65535:04x}")
            for number in range(first, last + 1)]


def lines_of(rows):
    """Returns the events of rows and their lines, converted to hex digits."""
    rows = (row.partition(" => ") for several in rows if not several.startswith(MEANWHILE) for row in each_of(several))
    return [(spelled_lines(event), spelled_lines(line)) for event, _, line in rows]


def reported_as(event):
    """Returns a function that converts the line of an event to the form of the expected result."""
    return answer_of if event.startswith(CALLS) else str.strip


def meanwhile_of(rows):
    """Returns the steps to play if an allocation fails in the first of these rows."""
    later = itertools.takewhile(lambda row: row.startswith(MEANWHILE), rows[1:])
    return tuple(Step(*pair, reported_as(pair[0])) for pair in lines_of([row.removeprefix(MEANWHILE) for row in later]))


def answer_of(line):
    """Returns the line of a single call in the form of the rows: what was done, or the error."""
    taken = re.fullmatch(r"Ok\(Taken \{ bytes: (\d+), handled: (\w+)(?:\(.*\))? \}\)", line.strip())
    refused = re.fullmatch(r"Err\((\w+)(?: \{ bytes: (\d+) \})?\)", line.strip())
    if taken:
        return f"{taken[1]} {taken[2].lower()}"
    if refused:
        return " ".join([refused[1].lower(), *filter(None, [refused[2]])])
    return line.strip().replace("Ok(())", "ok")


def steps(opening, rows):
    said = said_of(opening)
    yield Step(opened(said), "")
    for place, row in enumerate(rows):
        for event, line in lines_of([row]):
            yield Step(event, line, reported_as(event), meanwhile_of(rows[place:]))


def ends_of(data):
    """Yields the end and the length of each frame that is whole in these bytes."""
    at = 0
    while at < len(data):
        form, token = data[at] >> 4, data[at] & 15
        more = max(0, form - 12) if form < 15 else 4
        length = (form if form < 13
                  else int.from_bytes(data[at + 1 : at + 1 + more], "big") + (13, 269, 65_805)[form - 13])
        size = 2 + more + token + length
        at += size
        if at <= len(data):
            yield at, size


def pending_in(line):
    """Returns the number of pending entries that a line of `status` reports."""
    found = re.search(r"pending (\d+)", line)
    return int(found[1]) if found else 0


def handed_end(data, handed):
    """Returns the end of the request with which this number of entries is pending: requests of the application, and
    Pings with Custody."""
    start = 0
    for end, _ in ends_of(data):
        frame, start = data[start:end], end
        form = frame[0] >> 4
        code = frame[1 + (0 if form < 13 else form - 12 if form < 15 else 4)]
        handed -= 0 < code < 32 or (code == 0xE2 and form > 0)
        if handed == 0:
            return end
    return len(data)


def again(play, events, index, found):
    """Returns the event to repeat after an allocation failure.

    If the row has several events, these are the failed one and those after it. Of an `in`, the bytes that were not
    taken are repeated. All bytes of the failed message but its last one are kept, and `status` reports their number. If
    the line of a request failed, all bytes up to the end of the request were taken, and one entry more is pending.
    """
    before = found[index].rpartition(" memory ")[2].strip()
    parts = events[index].split("|")
    if before.isdigit() and int(before) > 1:
        return "|".join(parts[int(before) - 1 :])
    if len(parts) > 1 or not events[index].startswith("in ") or not before.isdigit():
        return events[index]
    connection, digits = events[index].split(" ")[1:3]
    look = f"status {connection}"
    kept, data = re.search(r"kept (\d+)", play(events[: index + 1] + [look])[-1]), bytes.fromhex(digits)
    handed = pending_in(play(events[: index + 1] + [look])[-1]) - pending_in(play(events[:index] + [look])[-1])
    if handed > 0:
        left = data[handed_end(data, handed) :]
        return f"in {connection} {left.hex()}" if left else look
    for end, size in ends_of(data):
        if kept and size - 1 == int(kept[1]):
            return f"in {connection} {data[end - 1:].hex()}"
    return events[index]


def is_after_message(event, again):
    """Returns `true` if a part of an `in` that is repeated begins after a whole message."""
    whole, rest = (bytes.fromhex(it.split(" ")[2]) for it in (event, again))
    return len(whole) - len(rest) in [end for end, _ in ends_of(whole)]


def count_of(line):
    """Returns the number of bytes in a line `in CONNECTION COUNT`, and its words on a stop."""
    words = line.split(" ")
    return int(words[2]), words[3:]


def struck(step, line, again, line_again):
    """Returns the differences after an allocation failure.

    The lines must be those before the failure and those of the repeated events, and the bytes of an `in` must be
    counted once.
    """
    if "|" in step.event:
        reported = line.rpartition(" memory ")[0] + line_again if "memory" != line.strip() else line_again
        return [] if reported == step.wanted else [f"{step.event}: {reported}"]
    if step.event.startswith("in ") and again.startswith("status "):
        return [] if line_again.startswith(again) else [f"{again}: {line_again}"]
    if step.event.startswith("in ") and again != step.event:
        left = (len(step.event.split(" ")[2]) - len(again.split(" ")[2])) // 2
        # The lines of requests before the failure are lost.
        (first, *requests), (wanted, *others) = line_again.strip().split("|"), step.wanted.split("|")
        (count, stop), right = count_of(first), others[len(others) - len(requests) :] == requests
        return [] if right and (count + left, stop) == count_of(wanted) else [f"{again}: {line_again}"]
    return [] if step.reported(line_again) == step.wanted else [f"{again}: {line_again}"]


AS_BEFORE = "the server as before"
BUT_THE_LAST = "all bytes of the message but the last are accepted; it is not handled"


def refused(event, line, again):
    """Returns the call whose allocation failed, and the state that is left."""
    if event.startswith("= "):
        return "`Server::new`" if event.startswith("= serve - ") else "`Server::with_applications`", "nothing"
    if not line.rpartition("memory ")[2].strip().isdigit():
        return "`script`", "nothing"
    word = event.split(" ")[0]
    if "|" in event:
        return "`Server::replay` of several events", "the effects of the events before it, and their lines"
    if word == "in" and (again.startswith("status ") or is_after_message(event, again)):
        return ("`Server::replay` of an `in`, for the line of a request",
                "the bytes up to the end of the request are accepted; it is pending")
    if word == "in" and again != event:
        return "`Server::replay` of an `in` that stores", BUT_THE_LAST
    return f"`Server::replay` of {f'`{word}`' if word in ('open', 'put') else 'another event, for its line'}", AS_BEFORE
