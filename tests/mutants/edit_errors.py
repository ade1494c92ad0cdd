"""Checks the edits without trying any: their quotes, their old texts, and their numbers in docs/TESTING.md."""

import collections
import re

import quotes
from places import BadEdit, block_name
from workspace import ROOT


def wrong_quote(edit):
    """Returns the error in the clause that the first line of an edit quotes, or an empty text."""
    said, files = quotes.Quotes(edit.crate, block_name), {it.file for it in edit.parts}
    if wrong := said.why_not(edit.detected_by, files):
        return wrong
    name = re.search(r"([\w:]+)$", edit.detected_by)[1]
    named = said.contracts(name, files)
    for part in edit.parts:
        constant = part.function.removeprefix("const ")
        if constant != part.function:
            is_of_it = any(re.search(rf"\b{constant}\b", it.body) for it in named)
        else:
            own = said.contracts(part.function, {part.file})
            is_of_it = any(it in named or it.implements == name for it in own)
        if is_of_it:
            return ""
    return f"it does not change {name}"


def tell_wrong_quotes(edits):
    """Prints each edit whose quote is no clause of what it changes, and returns their number."""
    wrong = {f"{it.crate}/{it.name}": wrong_quote(it) for it in edits if it.layer == "clause"}
    for name, why in wrong.items():
        if why:
            print(f"edit {name}: {why}", flush=True)
    return sum(map(bool, wrong.values()))


def tell_not_applied(edits):
    """Prints each edit whose old text is not once in its function, and returns their number. (The check of types finds
    these too.)"""
    count = 0
    for edit in edits:
        try:
            edit.applied({})
        except (BadEdit, ValueError, OSError) as why:
            print(f"edit {edit.crate}/{edit.name}: {why}", flush=True)
            count += 1
    return count


def tell_wrong_counts(edits):
    """Prints each layer whose number of edits is not in the table of docs/TESTING.md, and returns the number of these.
    A row may have several layers, with the number of edits of all."""
    with open(f"{ROOT}/docs/TESTING.md", encoding="utf-8") as file:
        table = re.findall(r"^\| (`.*`) \| (\d+) \| .* \| `make mutants`", file.read(), re.M)
    numbers = collections.Counter(it.layer for it in edits)
    listed = {tuple(re.findall(r"\w+", layers)): int(number) for layers, number in table}
    listed |= {(it,): 0 for it in numbers if not any(it in layers for layers in listed)}
    wrong = [layers for layers, number in listed.items() if sum(numbers[it] for it in layers) != number]
    for layers in wrong:
        print(f"docs/TESTING.md: these are {sum(numbers[it] for it in layers)} edits: {', '.join(layers)}", flush=True)
    return len(wrong)
