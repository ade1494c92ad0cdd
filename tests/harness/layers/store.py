"""Rows for stores. `= RESOURCES BYTES VERSION` creates one for this number of resources of this number of bytes, after
a version.

- `GET /a => 2.05 etag=01 | 'x'` is a request without a token: a method, options and, after ` | `, its payload. An
  option is `/a` for a segment of the path, or `accept=32` for another option. `16#/a` is 16 of the same. The result has
  the code of the response, and `Put` or `Delete` if the request is a change. Then follow `Add` or `Drop` if it affects
  the observer, each option, and the payload. With `do` before the request, the change is applied.
- `ask MESSAGE => MESSAGE`, `make MESSAGE => MESSAGE` and `at TIME MESSAGE => MESSAGE` have whole messages. `make`
  applies the change.
- `put /a format=0 | 'x' => 1` is `Store::put` at a path, with a format or none. The result is the version or the error.
- `remove /a => Ok(())` is `Store::remove`.
- `state 10 /a => version=1 format=0 | 'x'` is the state at time 10, or `absent`.
- `notify 10 /a format=0 => ..` is the notification at time 10 to an observer with this format.
- `path /a / => key 61 - same requested` is the `PathKey` of the segments, or `none`. The result has the segments and
  whether the copy of the key is equal. Last comes whether the key is the path of a request with these options.
- `listed => ..` has the part of the listing after the built-in resources. `0..500` are the resources `0` to `499`,
  `bytes` is `x` followed by each byte, and other words are parts of the listing themselves.
- `each 1000 ..` before a row plays it for each number below 1,000. `{n}` is the number, `{hex}` its byte, and `{etag}`
  the ETag of the next version.
"""

import re

import messages
from layers import Step
from message_syntax import OPTIONS, bytes_of, code_of, encoded, spelled, uint

# Queries.
LOOKS = ("ask", "state", "notify", "path")

NUMBERS = {"path": 11, "query": 15, "format": 12, **{name: number for name, (number, _) in OPTIONS.items()}}

BUILT_IN = "</>;ct=0,</time>;ct=0;obs,</async>;ct=0"

# The bytes that a listing has without percent-encoding (RFC 3986 section 2.3).
UNRESERVED = b"ABCDEFGHIJKLMNOPQRSTUVWXYZabcdefghijklmnopqrstuvwxyz0123456789-._~"

LISTING = encoded(1, b"", [(11, b".well-known"), (11, b"core")], b"").hex()


def options_of(words):
    """Returns the options that words name, in the order of the words."""
    options = []
    for word in words:
        count, mark, one = word.rpartition("#")
        name, equals, value = one.partition("=")
        if equals:
            option = (NUMBERS[name] if name in NUMBERS else int(name), bytes_of(value))
        else:
            option = (NUMBERS["path"], one[1:].encode())
        options += [option] * (int(count) if mark else 1)
    return options


def payload_of(text):
    return bytes_of(text) if text else b""


def request_of(text):
    """Returns the hex digits of a request without a token."""
    head, _, payload = text.partition(" | ")
    words = head.split()
    code = int(words[0]) if words[0].isdigit() else code_of(words[0])
    return encoded(code, b"", options_of(words[1:]), payload_of(payload)).hex()


def parts_of(line):
    """Returns the parts of the line of a plan, by name."""
    digits = lambda it: bytes(map(int, it[1].replace(",", " ").split())).hex() or "-"
    line = re.sub(r"Some\(\[([0-9, ]*)\]\)", digits, line)
    head, tail = (part.split() for part in re.split(r"(?:^| ); ", line))
    code, change, watch, delay, etag, form, age, *location = head
    size1, payload, again = tail
    if again != change:
        raise ValueError(line)
    plan = {"code": int(code), "change": change, "watch": watch, "payload": payload_of(payload)}
    plan["location"] = list(map(bytes_of, location))
    for name, value in (("held", delay), ("etag", etag), ("format", form), ("max-age", age), ("size1", size1)):
        if value != "None":
            plan[name] = some(value)
    return plan


def some(value):
    """Returns the number of an optional one that is present."""
    return value.removeprefix("Some(").removesuffix(")")


def response_of(line, token):
    """Returns the hex digits of the response with this token that a plan describes."""
    plan = parts_of(line)
    options = [(4, bytes_of(plan["etag"]))] if "etag" in plan else []
    options += [(8, segment) for segment in plan["location"]]
    for name, number in (("format", 12), ("max-age", 14), ("size1", 60)):
        if name in plan:
            options.append((number, uint(int(plan[name]))))
    return encoded(plan["code"], token, options, plan["payload"]).hex()


def reported_plan(line):
    """Returns the line of a plan in the form of the rows, with hex digits for bytes."""
    plan = parts_of(line)
    text = f"{plan['code'] >> 5}.{plan['code'] & 31:02}"
    text += "".join(f" {plan[name]}" for name in ("change", "watch") if plan[name] != "-")
    text += "".join(f" {name}={plan[name]}" for name in ("held", "etag", "format", "max-age") if name in plan)
    text += (" location=" + "".join(f"/{segment.hex() or '-'}" for segment in plan["location"]) if plan["location"]
             else "")
    text += f" size1={plan['size1']}" if "size1" in plan else ""
    return text + (f" | {plan['payload'].hex()}" if plan["payload"] else "")


def reported_state(line):
    """Returns the line of a state in the form of the rows."""
    if not line.strip():
        return "absent"
    version, form, payload = line.split()
    text = f"version={version}" + (f" format={some(form)}" if form != "None" else "")
    return text + (f" | {payload}" if payload != "-" else "")


def reported_path(line):
    """Returns the segments of a key and what it is compared with, in the form of the rows."""
    if line.strip() == "none":
        return "none"
    *segments, same, requested = line.split()
    same, requested = "same" if same == "true" else "other", "asked" if requested == "true" else "not asked"
    return " ".join(["key", *segments, same, requested])


def reported_answer(line):
    """Returns the result of `Store::put` in the form of the rows: the version, `memory` or the error."""
    return re.sub(r"^(?:Ok|Err)\((\w+)\)", lambda it: it[1].replace("Memory", "memory"), line).strip()


def reported_listing(line):
    """Returns the text of a listing, whose plan must have a format and no other option."""
    head, _, payload = reported_plan(line).partition(" | ")
    return bytes.fromhex(payload).decode() if head == "2.05 format=40" else line


def wanted_of(text):
    """Returns the expected plan or state of a row, with hex digits for bytes."""
    head, bar, payload = text.partition(" | ")
    words = []
    for word in head.split():
        name, equals, value = word.partition("=")
        if name == "etag":
            value = bytes_of(value).hex()
        elif name == "location":
            value = "".join(f"/{bytes_of(segment).hex() or '-'}" for segment in value[1:].split("/"))
        words.append(name + equals + value)
    return " ".join(words) + (bar + bytes_of(payload).hex() if bar else "")


def entries(words):
    """Returns the text of a listing for the words of a row."""
    text = ""
    for word in words.split():
        low, dots, high = word.partition("..")
        if dots:
            text += "".join(f",</{number}>;obs" for number in range(int(low), int(high)))
        elif word == "bytes":
            text += "".join(f",</x{chr(byte) if byte in UNRESERVED else f'%{byte:02X}'}>;obs" for byte in range(256))
        else:
            text += word
    return text


def exchange(word, rest, wanted):
    """Returns the step of a row with whole messages."""
    moment, rest = rest.split(" ", 1) if word == "at" else ("0", rest)
    sent = bytes_of(rest)
    event = f"make {sent.hex()}" if word == "make" else f"ask {sent.hex()} {moment}"
    return Step(event, bytes_of(wanted).hex(), lambda line: response_of(line, messages.parse(sent)[1]))


def inside(word, rest, wanted):
    """Returns the step of a row that is a call of the embedding program with a path."""
    head, _, payload = f" {rest}".partition(" | ")
    words = head.split()
    moment = words.pop(0) if word in ("state", "notify") else ""
    form = "".join(it[7:] for it in words if it.startswith("format=")) or "65536"
    path = options_of(it for it in words if not it.startswith("format="))
    event = " ".join([word, encoded(3, b"", path, payload_of(payload)).hex(), moment or "0", form])
    reported = {"state": reported_state, "notify": reported_plan}.get(word)
    if reported:
        return Step(event, wanted_of(wanted), reported)
    if word == "path":
        return Step(event, spelled(wanted), reported_path)
    return Step(event, wanted, reported_answer if word == "put" else str.strip)


def step_of(row):
    event, _, wanted = row.partition(" => ")
    word, _, rest = event.partition(" ")
    if word == "listed":
        return Step(f"ask {LISTING}", BUILT_IN + entries(wanted), reported_listing)
    if word in ("make", "ask", "at"):
        return exchange(word, rest, wanted)
    if word in ("put", "remove", "state", "notify", "path"):
        return inside(word, rest, wanted)
    made, text = word == "do", event.removeprefix("do ")
    return Step(("make " if made else "ask ") + request_of(text), wanted_of(wanted), reported_plan)


def each(count, row):
    """Yields the row for each number below a count."""
    for number in range(count):
        plain = row.replace("{n}", str(number)).replace("{hex}", f"{number:02x}")
        yield plain.replace("{etag}", uint(number + 1).hex())


def steps(opening, rows):
    yield Step(f"= store {opening}", "")
    for row in rows:
        if row.startswith("each "):
            _, count, row = row.split(" ", 2)
            yield from (step_of(one) for one in each(int(count), row))
        else:
            yield step_of(row)


# Calls in which an allocation may fail, by event.
CALLS = {"make": "`Store::apply`", "put": "`Store::put`"}


def refused(event, line, again):
    """Returns the call whose allocation failed, and the state that is left."""
    if event.startswith("= "):
        return "`Store::new`", "nothing"
    return CALLS[event.split(" ")[0]], "the store as before"
