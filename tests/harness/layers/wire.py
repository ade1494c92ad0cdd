"""Rows for messages as bytes and in numbers, which need no value: `= messages`.

A message in numbers is its code, its token, its options and its payload, with hex digits for bytes. An option is a
number, `=` and a value. `01 07 11=74696d65 -` is a GET of `time` with the token 07 and no payload. The rows are:

    write MESSAGE [but PARTS] => SIZE BYTES, FAULT..
                         builds the message and parses it; each of PARTS is then rejected and changes nothing
    token=TOKEN MESSAGE => CODE TOKEN SIZE BYTES of CODE TOKEN SIZE BYTES
                         the message with another token, and then unchanged
    read BYTES => MESSAGE, or the error
    get OPTIONS, frame BYTES => known OPTIONS [critical NUMBER]
                         recognized options of a GET, or of any message
    declared BYTES, code BYTE, codes, kind NUMBER, uint NUMBER, value BYTES
                         the result of these functions
"""

from layers import Step, quoted
from message_syntax import bytes_of, digits, encoded, spelled


def reported_word(word):
    """Returns a word of a message with hex digits for its bytes."""
    name, equals, value = word.rpartition("=")
    return name + equals + (value if "(" in value else digits(value))


def part(word):
    """Returns the value of a part, and its word for the probe. `11=74696d65` is an option, and `-` a payload."""
    name, _, value = word.rpartition("=")
    value = bytes_of(value)
    return value, f"{name or 'payload'}={len(value)}"


def reported_options(words):
    """Returns options, a number and a value each, in the form of the rows."""
    return [f"{number}={value}" for number, value in zip(words[::2], words[1::2], strict=True)]


def reported_as(event):
    """Returns a function that converts the line of an event to the form of the expected result."""
    word = event.partition(" ")[0]

    def reported(line):
        words = line.split()
        if word == "read" and words[-2:-1] in (["true"], ["false"]):
            code, token, *options, more, payload = words
            return " ".join([code, token, *reported_options(options), *(["more"] if more == "true" else []), payload])
        if word == "known":
            *options, more, critical = words
            critical = critical.removeprefix("Some(").removesuffix(")")
            return " ".join(["known", *reported_options(options), *(["more"] if more == "true" else []),
                             *([] if critical == "None" else ["critical", critical])])
        if word in ("code", "codes"):
            codes = zip(words[::3], words[1::3], words[2::3], strict=True)
            return " ".join(f"{byte} {high}.{low}" for byte, high, low in codes)
        if word == "kind":
            return f"{'several' if words[0] == 'true' else 'one'} of {words[1]} to {words[2]}" if words else "unknown"
        return quoted(line) if word in ("read", "write") else line.strip()

    return reported


def write(message, further):
    """Returns the event that builds a message, with further values and parts."""
    code, token, *parts = message.split()
    parts = [(bytes_of(code) + bytes_of(token), str(len(bytes_of(token)))), *map(part, parts), *further]
    return f"write {b''.join(value for value, _ in parts).hex()} {' '.join(word for _, word in parts)}"


def written(message, wanted):
    """Yields steps that build a message and parse it. A rejected part must leave the message unchanged."""
    message, _, refused = message.partition(" but ")
    built, *faults = wanted.split(", ")
    code, token, *_ = words = [reported_word(word) for word in message.split()]
    size, frame = built.split()
    looked = f"{code} {token} {size} {digits(frame)}"
    look = (b"", "look")
    yield Step(
        write(message, [look, *(it for word in refused.split() for it in (part(word), look))]),
        " ".join([looked, *(f"{fault} {looked}" for fault in faults)]),
        quoted,
    )
    yield Step(f"read {digits(frame)}", " ".join(words), reported_as("read"))
    yield Step(f"declared {digits(frame)}", f"Size({size})")


def with_token(token, message, wanted):
    """Returns a step that shows a message with another token, and then the message itself."""
    token = bytes_of(token)
    wanted = " ".join(reported_word(word) for word in wanted.split() if word != "of")
    yield Step(write(message, [(token, f"token={len(token)}"), (b"", "look")]), wanted)


def get(words):
    """Returns the hex digits of a GET with the options that words name."""
    parts = [word.partition("=") for word in words.split()]
    return encoded(1, b"", [(int(number), bytes_of(value)) for number, _, value in parts], b"").hex()


def step(row):
    event, _, wanted = row.partition(" => ")
    word, _, text = event.partition(" ")
    if word == "write":
        return written(text, wanted)
    if word.startswith("token="):
        return with_token(word.removeprefix("token="), text, wanted)
    if word in ("get", "frame"):
        event = f"known {get(text) if word == 'get' else text}"
    event = spelled(event).removesuffix(" -")
    reported = wanted if '"' in wanted else " ".join(map(reported_word, wanted.split()))
    return [Step(event, reported, reported_as(event))]


def steps(opening, rows):
    yield Step("= wire", "")
    for row in rows:
        yield from step(row)
