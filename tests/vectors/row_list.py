#!/usr/bin/env python3
"""Checks the list of worked rows, tests/vectors/rows/worked_rows.list: each row is at the listed places, and a step of
the gate plays it.

    tests/vectors/row_list.py

A row of the list has these lines:

    = NAME         the row
    shows: TEXT    the property that it shows
    at: FILE       a file that has it; a row may be at several places
      LINE         with two spaces before it, a line of this file; ` ..` at its end stands for the rest of the line
    also: WORDS    further steps that play the file: `refused` is tests/harness/rows.py --refuse, and `cut` is
                   tests/vectors/segmentation.py

In a file of rows, which tests/harness/rows.py plays, the lines are whole, in this order, and below one opening. A
stored run must be that of a program in crates.txt. A Python test must be a step of the gate, or in the folder with the
name of one. There the lines are parts of lines. An empty line and a line with `#` mean nothing. The last line is
'N passed, M failed' for the places of the list, and the status is 0 if M is 0.
"""

import os
import re
import sys
from dataclasses import dataclass, field

sys.path.insert(0, os.path.join(os.path.dirname(os.path.abspath(__file__)), "..", "harness"))
import rows  # noqa: E402
from steps import STEPS  # noqa: E402
from workspace import ROOT, is_program, listed  # noqa: E402

LIST = rows.ROWS / "worked_rows.list"


@dataclass
class Place:
    """A place at which a row is played."""

    name: str
    file: str
    lines: list = field(default_factory=list)
    also: list = field(default_factory=list)

    def is_in(self, found):
        """Returns true if the lines are among these, in their order."""
        left = iter(found)
        return all(any(is_line(line, text) for text in left) for line in self.lines)


def is_line(wanted, text):
    """Returns true if a text is the line of the list, or begins with it if the line ends in ` ..`."""
    return text.startswith(wanted.removesuffix("..").rstrip()) if wanted.endswith(" ..") else text == wanted


def steps_of_the_gate():
    """Returns the steps of the gate, each with its words."""
    return [["rt", "ci"], *(it.words for it in STEPS)]


def blocks(text):
    """Returns the rows of a list, each as its lines."""
    found = []
    for line in text.splitlines():
        if not line.strip() or line.startswith("#"):
            continue
        if line.startswith("= ") or not found:
            found.append([])
        found[-1].append(line)
    return found


def places_of(lines):
    """Returns the places of a row with these lines, or raises `ValueError` if the lines have another form."""
    head, shown, *others = lines
    if not head.startswith("= ") or not shown.startswith("shows: "):
        raise ValueError
    found = []
    for line in others:
        if line.startswith("at: "):
            found.append(Place(head[2:], line[4:]))
        elif line.startswith("  ") and found and not found[-1].also:
            found[-1].lines.append(line[2:])
        elif line.startswith("also: ") and found and not found[-1].also:
            found[-1].also = line[6:].split(", ")
        else:
            raise ValueError
    if not found or not all(it.lines for it in found):
        raise ValueError
    return found


def places():
    """Returns the places of the list, and the errors of the list itself."""
    found, wrong = [], []
    for lines in blocks(LIST.read_text(encoding="utf-8")):
        try:
            of_row = places_of(lines)
        except ValueError:
            wrong.append(f"not understood: {lines[0][:120]}")
            continue
        if any(it.name == of_row[0].name for it in found):
            wrong.append(f"two rows have one name: {of_row[0].name}")
        found += of_row
    return found, wrong


def wrong_in_rows(place, steps):
    """Returns the error of a place in a file of rows, or an empty text."""
    path = rows.ROOT / place.file
    if ["python3", "tests/harness/rows.py"] not in steps or path not in rows.ROWS.glob("*/*.rows"):
        return "no step of the gate plays this file"
    file = rows.read(path)
    if not any(place.is_in([f"= {opening}", *below]) for opening, below in file.values):
        return "these lines are not below one opening"
    if not file.steps():
        return "the file has no rows"
    return wrong_besides(place, file, steps)


def wrong_besides(place, file, steps):
    """Returns the error of the last column of a place, or an empty text."""
    for word in place.also:
        if word == "refused":
            is_played = ["python3", "tests/harness/rows.py", "--refuse"] in steps and file.allocations.isdigit()
        else:
            is_played = (word == "cut" and ["python3", "tests/vectors/segmentation.py"] in steps
                         and file.path.parent.name in ("serve", "calls") and not file.cuts)
        if not is_played:
            return f"the file is not played as '{word}'"
    return ""


def wrong_in_run(place, text, steps):
    """Returns the error of a place in a stored run, or an empty text."""
    crate = place.file.split("/")[1]
    if ["rt", "ci"] not in steps or crate not in listed() or not is_program(crate):
        return "no step of the gate plays this run"
    return "" if place.is_in(text.splitlines()) else "these lines are missing"


def wrong_in_script(place, text, steps):
    """Returns the error of a place in a Python test, or an empty text."""
    scripts = place.file, f"{os.path.dirname(place.file)}.py"
    if not any(step[:2] == ["python3", it] for step in steps for it in scripts):
        return "not a step of the gate"
    left = iter(text.splitlines())
    is_there = all(any(line.removesuffix(" ..").removesuffix("..") in it for it in left) for line in place.lines)
    return "" if is_there else "these lines are missing"


def wrong_of(place, steps):
    """Returns the error of a place, or an empty text."""
    try:
        with open(f"{ROOT}/{place.file}", encoding="utf-8") as it:
            text = it.read()
    except OSError:
        return "there is no such file"
    if place.file.endswith(".rows"):
        return wrong_in_rows(place, steps)
    if place.also:
        return "not a file of rows"
    if re.fullmatch(r"crates/\w+/(args|stdin|stdout|status)", place.file):
        return wrong_in_run(place, text, steps)
    return (wrong_in_script(place, text, steps) if place.file.endswith(".py")
            else "no step of the gate plays files of this kind")


def main():
    steps, (found, wrong) = steps_of_the_gate(), places()
    for place in found:
        if trouble := wrong_of(place, steps):
            wrong.append(f"{place.name}: {place.file}: {trouble}")
    print("".join(f"{it}\n" for it in wrong), end="")
    names = len({it.name for it in found})
    print(f"{names} worked rows in {len(found)} places: {max(len(found) - len(wrong), 0)} passed, {len(wrong)} failed")
    return 1 if wrong or not found else 0


if __name__ == "__main__":
    sys.exit(main())
