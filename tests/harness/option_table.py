"""The options of the programs in install/options.tsv, and texts that follow from them."""

import os
import re
import sys

from workspace import ROOT

sys.path.append(os.path.join(ROOT, "install"))
from completions import options_of  # noqa: E402

# A range of numbers. Its lower end can be the value of another option.
BOUNDS = re.compile(r"(\d+|--[\w-]+) to (\d+)")

# An option with the only value that another one allows.
WITH_VALUE = re.compile(r"(-\w) (\w+)")

# Valid texts for values that are neither numbers nor any text.
SAMPLES = {"ENTRY": "/a;get"}


def option(program, name):
    """Returns the option of a program with a name."""
    return next(it for it in options_of(program) if name in it.names)


def bounds(program, it):
    """Returns the least and the greatest number that an option takes, or None if it takes no number. For another option
    as the least one, that is its default."""
    found = BOUNDS.search(it.allowed)
    if not found:
        return None
    least = found[1] if found[1].isdigit() else option(program, found[1]).default
    return int(least), int(found[2])


def reason(it, least):
    """Returns the values that an option takes, as the line for another value names them. `least` is the value of an
    option that is the lower end of its range."""
    return re.sub(r"(--[\w-]+)(?= to )", rf"{least} (\1)", it.allowed)


def sample(program, it):
    """Returns an option with a value that it takes, as words of a command line."""
    found = bounds(program, it)
    value = it.default or (str(found[0]) if found else SAMPLES.get(it.value, "x"))
    return [it.name, value] if it.value else [it.name]


def excluded(it, other):
    """Returns the reason for two options that exclude each other."""
    return f"{it.name} and {other} cannot be used together"


def needed(it):
    """Returns the reason for an option without the one that it needs, with `{}` for the value of that one."""
    if found := WITH_VALUE.fullmatch(it.needs):
        return f"{it.name} cannot be used with {found[1]} {{}}, only with {it.needs}"
    return f"{it.name} can be used only with {it.needs}"


def clashes(program):
    """Returns the reasons for all options of a program that exclude or need each other."""
    options = options_of(program)
    return [excluded(it, other) for it in options for other in it.excludes] + [needed(it) for it in options if it.needs]


def helped(program):
    """Returns the lines of the help: arguments, followed by options, each with its text."""
    found = []
    for it in sorted(options_of(program), key=lambda it: bool(it.names)):
        value = f"<{it.value}>" if it.value else ""
        default = f" [default: {it.default}]" if it.default else ""
        found.append((" ".join(filter(None, (", ".join(it.names), value))), it.about() + default))
    return found


def recorded(program):
    """Returns the options in the header of a record."""
    return [it for it in options_of(program) if it.is_recorded]
