"""Rows for targets. Each row is a URI and its expected parts: `address` or `name`, the host, the port, the segments,
and the arguments. Segments and arguments are in brackets. If the URI is invalid, the result is the error, with its
number and text if the row has them. `{255*h}` is 255 times `h`.
"""

import re

from layers import Step

# No row depends on those before it.
ALONE = True


def repeated(text):
    """Returns a text with its parts in braces repeated."""
    while "{" in text:
        text = re.sub(r"\{(\d+)\*([^{}]*)\}", lambda part: part[2] * int(part[1]), text)
    return text


def text_of(digits):
    """Returns the text of bytes if they are UTF-8 without spaces, otherwise their digits."""
    try:
        text = bytes.fromhex("" if digits == "-" else digits).decode()
    except UnicodeDecodeError:
        return digits
    return digits if re.search(r"\s", text) else text


def target_of(words):
    """Returns the text of the target at the beginning of these words, and the words after it."""
    kind, host, port, *words = words
    kind = "address" if kind == "true" else "name"
    parts = []
    for _ in range(2):
        count = int(words[0])
        parts.append("".join(f"[{text_of(part)}]" for part in words[1 : 1 + count]) or "-")
        words = words[1 + count :]
    return f"{kind} {text_of(host)} {port} {parts[0]} {parts[1]}", words


def reported_as(wanted):
    """Returns a function that converts a line to the form of the expected result."""

    def reported(line):
        if line.startswith(("true ", "false ")):
            return target_of(line.split())[0]
        return line.strip() if " (" in wanted else line.partition(" ")[0]

    return reported


def steps(opening, rows):
    yield Step("= target", "")
    for row in rows:
        text, _, wanted = row.partition(" => ")
        yield Step(repeated(text), repeated(wanted), reported_as(wanted))


def refused(event, line, again):
    """Returns the call whose allocation failed, and the state that is left."""
    return "`Target::read`", "nothing"
