"""Rows for links. `= ROLE` with the six limits creates a link. With a name in place of these, the CSM of the link is
checked and removed too.

The name `small` is a link of a server with the smallest limits. The names `usual` and `usual-client` have the default
limits. After a name, a number (at most 255) makes the peer announce that Max-Message-Size, and `open` makes it send a
CSM without options. The first row can follow at once, after ` | `.

The events are:

- `hear` with a message from the peer, and `reply` with a response,
- `hold` with a token and the time of the delayed response, `due` with a time,
- `await` with the token of a request for the application and its deadline, `respond` with the application's response,
  as a message or as other bytes,
- `request` with `plain` or `observe` and a message, `cancel` with a message that has the token,
- `ping` (`plain`, `custody`), `release`, `announce` with a Max-Message-Size,
- `reject` (`format`, `large`, `token`), `end` (`cut`, `whole`),
- `write` with a number of bytes, `part`, whose result is a prefix of the queued bytes,
- `count` of pending and outstanding entries, `token`, whose result is the maximum token length of the peer, `look`,
  which does nothing.

The line has the result of the event (for `announce`, the current size), or `-`. Then follow the phase, the
Max-Message-Size of the peer, the free queue space, whether the link is ready and whether finished, and the queued
bytes.
"""

import re

from layers import Step
from message_syntax import digits

# Queries.
LOOKS = ("look", "count", "token", "part")

LIMITS = {
    "small": "server 1152 1152 1152 16 16 16",
    "usual": "server 65536 65536 131072 16 16 16",
    "usual-client": "client 65536 65536 131072 16 16 16",
}

# Rows that check the first queued bytes of a link, and remove them.
FIRST = {
    "small": ("look => - Waiting 1152 1145 unready unfinished 50e12204804140",
              "write 7 => - Waiting 1152 1152 ready unfinished -"),
    "usual": ("look => - Waiting 1152 131064 ready unfinished 60e1230100004140",
              "write 8 => - Waiting 1152 131072 ready unfinished -"),
}

FREE = {"small": 1_152, "usual": 131_072}


def announcement(peer, free):
    """Returns the row in which the peer announces this Max-Message-Size, or none, and the link opens."""
    if peer == "open":
        return f"hear 00e1 => Opened Open 1152 {free} ready unfinished -"
    csm = "10e120" if peer == "0" else f"20e121{int(peer):02x}"
    return f"hear {csm} => Opened Open {peer} {free} ready unfinished -"


def first_of(opening):
    """Returns the role and the limits of an opening, and the first rows."""
    name, _, peer = opening.partition(" ")
    if name not in LIMITS:
        return opening, []
    kind = name.partition("-")[0]
    return LIMITS[name], [*FIRST[kind], *([announcement(peer, FREE[kind])] if peer else [])]


def event_of(text):
    """Returns the line for the probe: the event, its bytes, and its last word."""
    word, _, rest = text.partition(" ")
    if word in ("hear", "reply", "cancel", "respond"):
        return f"{word} {digits(rest)}"
    if word == "request":
        how, _, message = rest.partition(" ")
        return f"{word} {digits(message)} {how}"
    if word in ("due", "ping", "reject", "end", "announce", "write"):
        return f"{word} - {rest}"
    return text


def wanted_of(text):
    """Returns the expected result, with hex digits for the queued bytes."""
    found = re.fullmatch(r"(.* (?:un)?finished) (.+)", text)
    return f"{found[1]} {digits(found[2])}" if found else text


# Matches the words that describe the state of a link in a line of the probe.
STATE = re.compile(r"(.*) (\S+) (\d+) (\d+) (true|false) (true|false) (\d+) (\S+)")


def reported_as(event):
    """Returns a function that converts the line of an event to the form of the expected result."""
    names = {"count": "pending {} outstanding {}", "token": "token {}"}.get(event.partition(" ")[0])

    def reported(line):
        result, phase, peer, free, ready, finished, count, front = STATE.fullmatch(line.strip()).groups()
        result = names.format(*result.split()) if names else result
        ready = "ready" if ready == "true" else "unready"
        finished = "finished" if finished == "true" else "unfinished"
        uneven = "" if int(count) == len(front.strip("-")) // 2 else " another count waits"
        return f"{result} {phase} {peer} {free} {ready} {finished}{uneven} {front}"

    return reported


def steps(opening, rows):
    opening, _, row = opening.partition(" | ")
    limits, first = first_of(opening)
    yield Step(f"= link {limits}", "")
    for row in [*first, *([row] if row else []), *rows]:
        event, _, wanted = row.partition(" => ")
        yield Step(event_of(event), wanted_of(wanted), reported_as(event))


def refused(event, line, again):
    """Returns the call whose allocation failed, and the state that is left."""
    return "`Link::open`", "nothing"
