"""Rows for runs of a server over a listener, connections and a clock in memory. `= SETTINGS` has settings for all
rows after it.

    SETTINGS; TIMES; CONNECTIONS => CALLS; BYTES ..

Settings are names of a configuration, each followed by a number. A word can be before them: `waits`, `polled`, or
`answer` for an application that answers GET and PUT of `/rd`. The clock returns the times in order, and then the last
one again. After `passes`, it begins at the time that follows, and advances in waits alone: a wait until a given time
ends at that time.

A connection is a word for its writes and words for its reads, with ` | ` between two connections. A read returns
bytes, as many `zeros` as the buffer has space for, `later`, `end` or `failed`, and `later` after the last word. A
write accepts `all` bytes or `one` byte, or is `late` once, or every write returns `end` or `failed`. Words separated
by commas name one write each, and the last one also names all later writes. A word `@3` before a word of either kind
makes the connection ready for it after 3 waits.

The expected result has the calls of the devices in order, and the bytes that each connection accepted. The calls are
written so:

- `+1`: the listener returned the first connection. `+-`: the listener had none.
- `1<5`: a read of the first connection returned 5 bytes. `1<later`: a read returned `later`.
- `1>19`: a write of 19 bytes accepted all. `1>19:1`: a write of 19 bytes accepted one.
- `~no` is no wait, `~6` is a wait until time 6 at most, and `~ever` is a wait until something is ready. `|` in place
  of `~` says that no connection may be opened. The calls have waits after `waits` and `answer` alone. Without these
  words, the connections are always ready.

Each run ends after the number of turns in the settings. After `answer`, the result ends with the numbers of requests,
of later responses that were accepted, and of connections that ended. `{3*a }` is 3 times `a `, and `{1..3 #a }` is
`1a 2a 3a `.
"""

import re

from layers import Step
from layers.stdio import LIMITS, settings
from layers.target import repeated
from message_syntax import bytes_of, spelled

# No row depends on those before it.
ALONE = True

HOW = ("waits", "polled", "answer")

# Reads of a connection that is never ready for one.
NEVER = "@18446744073709551615"

# Words for reads that return no bytes of the row.
READS = ("later", "end", "failed", "zeros")


def expanded(text):
    """Returns a text with its parts in braces repeated."""
    numbered = re.sub(r"\{(\d+)\.\.(\d+) ([^{}]*)\}",
                      lambda it: "".join(it[3].replace("#", str(at)) for at in range(int(it[1]), int(it[2]) + 1)), text)
    return repeated(numbered)


def wire_of(text):
    """Returns a connection for the probe, and the hex digits of its bytes."""
    writes, *reads = text.split(" ")
    writes = re.sub(r"\blate\b", "later", writes) + (",all" if writes.endswith("late") else "")
    given = [word for word in reads if word not in READS and word[0] != "@"]
    words = [str(len(word) // 2) if word in given else word for word in reads]
    return f"{writes} {','.join(words) or NEVER} {sum(map(len, given)) // 2}", "".join(given)


def event_of(text):
    """Returns the settings of a row, and its event for the probe."""
    opening, moments, *wires = spelled(expanded(text)).split("; ")
    how, _, rest = opening.partition(" ")
    how, said = (how, rest) if how in HOW else ("door", opening)
    wires = [wire_of(wire) for wire in (wires[0].split(" | ") if wires else [])]
    words = [how, "".join(given for _, given in wires) or "-", moments.replace(" ", ","), *(wire for wire, _ in wires)]
    return settings(said), " ".join(words)


def count_or_word(came):
    """Returns the number of the result of a call, such as `Bytes(5)`, or the word of a result that has none."""
    number = re.fullmatch(r"\w+\((\d+)\)", came)
    return number[1] if number else {"Forever": "ever"}.get(came, came.lower())


def call_of(words):
    """Returns the next call of a line in the form of the row, and removes its words."""
    word, place, handed, came = words[:4]
    del words[:4]
    if word == "open":
        return f"+{place if place != '0' else '-'}"
    handed, came = bytes_of(handed), count_or_word(came)
    if word == "wait":
        return ("~" if place == "1" else "|") + came
    if word == "read":
        return f"{place}<{came}"
    return (f"{place}>{len(handed)}:{came}" if came.isdigit() and int(came) != len(handed)
            else f"{place}>{len(handed) if came.isdigit() else came}")


def reported(line):
    """Returns the line of the probe in the form of the row: calls, the bytes that connections accepted, and the result
    unless it is `Turns`."""
    words, calls, written = line.split(), [], {}
    while words and words[0] in ("open", "read", "write", "wait"):
        if words[0] == "write" and words[3].startswith("Bytes("):
            written[int(words[1])] = written.get(int(words[1]), "") + words[2][: 2 * int(words[3][6:-1])]
        calls.append(call_of(words))
    accepted = [f"{place} {written.get(place) or '-'}" for place in range(1, max(written, default=0) + 1)]
    counts = re.fullmatch(r"\((\d+), (\d+), (\d+)\) (.*)", " ".join(words))
    result = re.sub(r"^(?:Err\()?(\w+)\)*$", r"\1", counts[4] if counts else " ".join(words))
    received = f" requests {counts[1]} accepted {counts[2]} ends {counts[3]}" if counts else ""
    result = (result.removeprefix("Turns") + received).strip()
    return "; ".join([" ".join(calls) or "-", *accepted, *([result] if result else [])])


def steps(opening, rows):
    last = ""
    for row in rows:
        event, _, wanted = row.partition(" => ")
        said, event = event_of(event)
        said = {**settings(opening), **said}
        create = "= stdio " + " ".join(str(said.get(name, usual)) for name, usual in LIMITS.items())
        if create != last:
            yield Step(create, "")
        last = create
        yield Step(event, spelled(expanded(wanted)), reported)


def struck(step, line, again, line_again):
    """Returns the differences after an allocation failure: the calls before it must be the first ones of a run without
    a failure."""
    before = re.sub(r"(?:\(\d+, \d+, \d+\) )?Err\(Memory\).*", "", line).strip()
    return [] if line_again.startswith(before) else [f"{again}: {line}"]


def refused(event, line, again):
    """Returns the call whose allocation failed, and the state that is left."""
    return "`serve_door`", "a prefix of the input and output with memory"
