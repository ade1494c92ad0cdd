#!/usr/bin/env python3
"""Checks that source files stay small, that lines and lists of parameters stay short, and that modules do not import
each other in a circle:

    tests/tools/crate_limits.py          a line for each limit that is exceeded; the last line is 'N passed, M failed'
    tests/tools/crate_limits.py --all    and a table of all crates

A source file of a crate may have 450 lines, and a line of a file of NARROW 120 columns. A long import is several
imports of the same module. The attribute `#[tactic(..)]` may be longer, since `rt fmt` keeps it on one line. A function
may have 6 parameters, `self` included. At most one is a `bool`. Modules of a crate that import each other, directly or
through others, form a circle. The size of a crate is limited by the time of its proof after an edit (bench/edits).
"""

import os
import pathlib
import re
import sys

sys.path.insert(0, os.path.join(os.path.dirname(os.path.abspath(__file__)), "..", "harness"))
from workspace import ROOT, listed  # noqa: E402

FILE_LINES, COLUMNS, PARAMETERS, BOOLEANS = 450, 120, 6, 1

# Patterns of files without a line of more than COLUMNS columns. Each must fit a file.
NARROW = [
    "Makefile", "bench/*", "docs/pictures/*.dot", "docs/pictures/draw", "examples/**/*", "gateway/**/*", "include/*",
    "install/**/*", "man/*", "tests/*", "tests/harness/**/*", "tests/mutants/*.py", "tests/system/**/*",
    "tests/tools/**/*", "tests/vectors/*.py",
    "crates/*/src/**/*.rt", "crates/*/specs/**/*.antt", "crates/*/proofs/**/*.antt",
]

# Endings of files that are left out of these, and folders without sources.
LEFT_OUT, MADE = {".md", ".svg", ".tsv"}, {"__pycache__", "out"}

FUNCTION = re.compile(r"^ *(?:pub(?:\([a-z ]+\))? )?(?:const )?(?:extern \S+ )?fn (\w+)", re.M)
# Brackets that have no others within, and a parameter that is a `bool`.
INNERMOST = re.compile(r"<[^<>()\[\]]*>|\([^<>()\[\]]*\)|\[[^<>()\[\]]*\]")
BOOLEAN = re.compile(r": (?:&(?:mut )?)?bool$")
# A line that may be longer.
ATTRIBUTE = re.compile(r"^ *#\[tactic\(")
IMPORT = re.compile(r"^ *(?:pub(?:\([a-z ]+\))? )?use crate::([\w:]+)", re.M)


def sources(crate):
    """Returns the source files of a crate, by module: 'door::turn' for src/door/turn.rt. The root is ''."""
    top = f"{ROOT}/crates/{crate}/src"
    found = {}
    for at, _, files in os.walk(top):
        for name in sorted(files):
            if name.endswith(".rt"):
                path = os.path.relpath(f"{at}/{name}", top).removesuffix(".rt")
                with open(f"{at}/{name}", encoding="utf-8") as it:
                    found["" if path in ("lib", "main") else path.replace("/", "::")] = it.read()
    return found


def imports(modules):
    """Returns for each module the modules that it imports: the deepest one that a path names, without the root."""
    def named(path):
        parts = path.split("::")
        return next((it for it in ("::".join(parts[:n]) for n in range(len(parts), 0, -1)) if it in modules), None)
    return {name: {named(path) for path in IMPORT.findall(text)} - {None, name, ""} for name, text in modules.items()}


def circles(edges):
    """Returns the groups of modules that import each other, directly or through others."""
    def reached(start):
        seen, left = set(), [start]
        while left:
            for it in edges[left.pop()] - seen:
                seen.add(it)
                left.append(it)
        return seen
    reach = {it: reached(it) for it in edges}
    return {tuple(sorted(other for other in reach[it] if it in reach[other])) for it in edges if it in reach[it]}


def parameters(text):
    """Yields each function of a source with its parameters, whose types have no brackets."""
    for function in FUNCTION.finditer(text):
        rest = re.sub(r"//.*", "", text[function.end():function.end() + 5000]).replace("->", "")
        start = depth = 0
        for at, letter in enumerate(rest):
            if letter == "(" and not depth:
                start = at + 1
            depth += (letter in "<([") - (letter in ">)]")
            if letter == ")" and not depth:
                break
        rest = rest[start:at]
        while INNERMOST.search(rest):
            rest = INNERMOST.sub("", rest)
        yield function[1], [it.strip() for it in rest.split(",") if it.strip()]


def exceeded(crate, modules):
    """Yields a line for each limit that a crate exceeds."""
    for name, text in modules.items():
        if text.count("\n") > FILE_LINES:
            yield f"{name or 'the root'}: {text.count(chr(10))} lines, at most {FILE_LINES}"
        for function, found in parameters(text):
            if len(found) > PARAMETERS:
                yield f"{name or 'the root'}: {function} has {len(found)} parameters, at most {PARAMETERS}"
            booleans = sum(bool(BOOLEAN.search(it)) for it in found)
            if booleans > BOOLEANS:
                yield f"{name or 'the root'}: {function} has {booleans} parameters of type bool, at most {BOOLEANS}"
    for group in sorted(circles(imports(modules))):
        yield f"modules that import each other: {', '.join(group)}"


def wide(pattern):
    """Yields a line for each file of a pattern that has lines of more than COLUMNS columns."""
    paths = [it.relative_to(ROOT) for it in sorted(pathlib.Path(ROOT).glob(pattern)) if it.is_file()]
    paths = [it for it in paths if not MADE.intersection(it.parts) and it.suffix not in LEFT_OUT]
    if not paths:
        yield f"{pattern}: no such file"
    for path in paths:
        lines = pathlib.Path(ROOT, path).read_text(encoding="utf-8").split("\n")
        numbers = [str(number) for number, line in enumerate(lines, 1)
                   if len(line) > COLUMNS and not ATTRIBUTE.match(line)]
        if numbers:
            more = " .." * (len(numbers) > 10)
            yield f"{path}: lines of more than {COLUMNS} columns: {', '.join(numbers[:10])}{more}"


def main(words):
    passed = failed = 0
    if "--all" in words:
        print(f"{'crate':<20} functions  lines  longest file")
    for crate in listed():
        modules = sources(crate)
        if "--all" in words:
            print(f"{crate:<20} {sum(len(FUNCTION.findall(it)) for it in modules.values()):>9} "
                  f"{sum(it.count(chr(10)) for it in modules.values()):>6,} "
                  f"{max(it.count(chr(10)) for it in modules.values()):>13}")
        found = list(exceeded(crate, modules))
        passed, failed = passed + (not found), failed + len(found)
        for line in found:
            print(f"{crate}: {line}")
    for pattern in NARROW:
        found = list(wide(pattern))
        passed, failed = passed + (not found), failed + len(found)
        for line in found:
            print(line)
    print(f"{passed} passed, {failed} failed")
    return min(failed, 1)


if __name__ == "__main__":
    sys.exit(main(sys.argv[1:]))
