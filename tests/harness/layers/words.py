"""Rows for command lines. Each row is `server` or `client` and the arguments of the program, and the plan or the error.

If `clap` rejects the arguments, the error is `usage` and the kind of `clap`, or `asks` and the kind for help and
version. Any other error is the line for the user. Numbers of errors are compared if a row has them. The result of
`server-text` and `client-text` is the text of the error, with `\\n` for a newline. `{9*a}` is 9 times `a`.

The plan of a server has its mode, its six limits, and the limits on connections, resources and turns. The plan of a
client has its method, its target (layers/target.py), and then the other fields, each after its name. The level of a log
follows as `log LEVEL` and the time after which silent connections are closed as `idle SECONDS`, unless they are Nothing
and 0. Start values follow as `starts MOMENT VERSIONS IDS`, unless all are 0, and a record as `record NAME LIMIT`, if
there is one. An application is `application DEADLINE`, followed by its entries. An entry has each segment of its path
after the word `segment`, the numbers of its methods after `methods`, and its attributes. Segments and attributes are in
hexadecimal digits.
"""

import json
import re

from layers import Step
from layers.target import repeated, target_of

# No row depends on those before it.
ALONE = True

METHODS = ("Get", "Put", "Post", "Delete")
NAMES = ("observe", "wait", "plain", "newline", "format", "accept", "option", "payload", "input", "output")


def reported_client(words):
    """Returns the fields of the plan of a client, each after its name."""
    target, words = target_of(words[1:])
    if words[6] != "None":
        words[6:8] = [" ".join(words[6:8])]
    named = [f" {name} {word}" for name, word in zip(NAMES, words[: len(NAMES)], strict=True)]
    log = words[len(NAMES)]
    return target + "".join(named) + ("" if log == "Nothing" else f" log {log}")


def reported_server(words):
    """Returns the words of the plan of a server, without those that most command lines leave out."""
    count = 10 if words[0] == "stdio" else 12 if words[0] == "listen" else 11
    log, idle, *starts, record, limit = words[count : count + 7]
    named = [] if log == "Nothing" else [f"log {log}"]
    named += [] if idle == "0" else [f"idle {idle}"]
    named += [] if starts == ["0"] * 3 else ["starts " + " ".join(starts)]
    named += [] if record == "None" else [f"record {json.loads(record[5:-1])} {limit}"]
    return " ".join([*words[:count], *named, *words[count + 7 :]])


def reported_fault(line):
    """Returns the line of an error with its kind first, and with its text in parentheses."""
    number, rest = line.strip().split(" ", 1)
    usage = re.fullmatch(r"(\w+) (true|false)", rest)
    if usage:
        return f"{'asks' if usage[2] == 'true' else 'usage'} {usage[1]} {number}"
    return f"{'memory' if rest == 'no memory' else 'fault'} {number} ({rest})"


def reported_as(wanted):
    """Returns a function that converts a line to the form of the expected result."""

    def reported(line):
        words = line.split()
        if words[0] in METHODS:
            return f"{words[0]} {reported_client(words)}"
        if words[0] in ("listen", "stdio", "script"):
            return reported_server(words)
        line = reported_fault(line)
        words = line.split()
        if " (" in wanted or re.fullmatch(r"(asks|usage) \w+ \d", wanted):
            return line.strip()
        if words[0] == "fault":
            return re.sub(r"fault \d+ \((.*)\)", r"\1", line.strip())
        return " ".join(words[:2]) if words[0] in ("asks", "usage") else line.strip()

    return reported


def steps(opening, rows):
    yield Step("= words", "")
    for row in rows:
        event, _, wanted = row.partition(" => ")
        if event.split(" ")[0].endswith("-text"):
            yield Step(event, wanted, lambda line: line.strip().replace("\a", "\\n"))
        else:
            yield Step(repeated(event).strip(), repeated(wanted), reported_as(wanted))


def refused(event, line, again):
    """Returns the call whose allocation failed, and the state that is left."""
    return f"`{event.partition(' ')[0].removesuffix('-text')}_words`", "nothing"
