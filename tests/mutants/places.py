"""Finds a function or a constant in a source file by the name that a check gives it."""

import re
from dataclasses import dataclass

FUNCTION = re.compile(r"( *)(?:pub(?:\([a-z ]+\))? )?(?:const )?(?:extern \S+ )?fn (\w+)")
BLOCK = re.compile(r"(?:pub(?:\([a-z]+\))? )?(?:impl\b *(.*?)|trait (\w+).*?) ?\{?$")


class BadEdit(Exception):
    """An edit cannot be tried; the text has the reason."""


def words_of(text, parameters):
    """Returns the name that a check gives a type or a trait: its words, without those of parameters and lifetimes."""
    words = re.findall(r"\w+", re.sub(r"'\w+", "", text))
    return "".join(it[0].upper() + it[1:] for it in words if it not in parameters)


def split_parameters(text):
    """Returns the parameters in angle brackets at the beginning of a text, and the text after them."""
    if not text.startswith("<"):
        return "", text
    depth = 0
    for at, letter in enumerate(text):
        depth += (letter == "<") - (letter == ">" and text[at - 1] not in "-=")
        if not depth:
            return text[1:at], text[at + 1 :].strip()
    raise BadEdit(f"not understood: {text}")


def names_of(parameters):
    """Returns the names of parameters, without their bounds."""
    while (bare := re.sub(r"<[^<>]*>|\([^()]*\)", "", parameters)) != parameters:
        parameters = bare
    return [re.sub(r"^const ", "", it.partition(":")[0].strip()) for it in parameters.split(",")]


def block_name(line):
    """Returns the name under which a check names the functions of this impl or trait."""
    head = BLOCK.match(line)
    if not head:
        raise BadEdit(f"not understood: {line}")
    if head[2]:
        return head[2]
    parameters, text = split_parameters(head[1])
    names, (trait, is_for, of) = names_of(parameters), text.partition(" for ")
    return words_of(of, names) + words_of(trait, names) if is_for else words_of(text, names)


@dataclass
class Place:
    """Offsets of a function or a constant in a text: of its first line, and of the beginning and the end of its
    body."""

    head: int
    begin: int
    end: int
    # Whether a function beside it in the same block, with another name, is well formed: not in a trait or in an impl of
    # one.
    may_have_copy: bool


def place_of(text, name):
    """Returns the place of a function or a constant, in a text formatted by `rt fmt`."""
    if name.startswith("const "):
        begin = text.index(f"{name}:")
        return Place(begin, begin, text.index(";\n", begin), False)
    found, block, is_free, at = [], "", True, 0
    lines = text.splitlines(keepends=True)
    for number, line in enumerate(lines):
        at += len(line)
        if re.match(r"(pub )?(impl|trait)\b", line):
            block, is_free = block_name(line.rstrip()) + "::", line.startswith("impl") and " for " not in line
        elif line.startswith("}"):
            block, is_free = "", True
        head = FUNCTION.match(line)
        if not head or f"{block if head[1] else ''}{head[2]}" != name:
            continue
        begin, end = at, None
        for later in lines[number + 1 :]:
            if end is None and begin == at and later.rstrip() == head[1] + "{":
                begin = at + text[at:].index(later) + len(later)
            if later.rstrip() == head[1] + "}":
                end = text.index("\n" + later, begin - 1) + 1
                break
        found.append(Place(at - len(line), begin, end, is_free and "extern " not in head[0]))
    if len(found) != 1 or found[0].end is None:
        raise BadEdit(f"{len(found)} functions {name}")
    return found[0]


def body_of(text, name):
    """Returns the offsets of the beginning and the end of the body of a function or a constant."""
    place = place_of(text, name)
    return place.begin, place.end
