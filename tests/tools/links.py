#!/usr/bin/env python3
"""Checks that the links and the paths in documents lead to files and headings:

    tests/tools/links.py

A link to a file is relative to its document. If it has an anchor, the document that it leads to must have the heading.
A code span that begins with a folder of the repository is a path, such as `tests/tools/links.py`. It must exist, unless
it has a word of ANY, which stands for any name, or a sign such as `*`. Links to other hosts are not followed. A command
`make` in code must name targets of the Makefile. Each document must be the target of a link in another one, except
README.md. docs/TESTING.md must name the script of each step of the gate, except those in tests/tools. The script also
checks itself on SAMPLES. The last line is 'N passed, M failed'; each link, path, target of a document, document, script
and sample counts once.
"""

import glob
import os
import re
import sys

sys.path.insert(0, os.path.join(os.path.dirname(os.path.abspath(__file__)), "..", "harness"))
from steps import STEPS  # noqa: E402
from workspace import ROOT  # noqa: E402

FENCED = re.compile(r"^ *```.*?^ *```$", re.S | re.M)
SPAN = re.compile(r"`([^`\n]+)`")
LINK = re.compile(r"\]\(([^()\s]+)\)")
HEADING = re.compile(r"^#+ +(.*)$", re.M)
# A line of code with a command `make`, and its targets.
MAKE = re.compile(r"(?:^|&& |sudo )make((?: [a-z-]+)+)")

# Folders of the repository whose paths are checked. Others have files that are made.
FOLDERS = "bench|docs|examples|gateway|include|install|man|tests|crates|\\.ci"
PATH = re.compile(rf"(?:{FOLDERS})/[\w./-]*\w/?")

# Words in paths that stand for any name.
ANY = {"CRATE", "FILE", "FOLDER", "FUNCTION", "LAYER", "MODULE", "NAME", "TYPE"}

# Folders whose files are made, and not committed.
MADE = ("bench/out", "crates/c_api/out")

# Texts with the links and paths that are wrong in them, for a document docs/A.md with the heading `The first: one`.
SAMPLES = [
    ("[a](A.md), [b](../README.md), [c](https://a.b/c), [d](A.md#the-first-one), [e](#the-first-one)", []),
    ("[a](B.md) and [b](A.md#the-second-one)", ["B.md", "A.md#the-second-one"]),
    ("`docs/A.md` and `docs/B.md`, `tests/*.md`, `docs/NAME.md`, `docs/A.md x`", ["docs/B.md"]),
    ("```\n[a](B.md)\n```\n", []),
]


def anchor(heading):
    """Returns the anchor of a heading."""
    return re.sub(r"[^\w\- ]", "", LINK.sub("]", heading).lower()).replace(" ", "-")


def named(text):
    """Yields each link and each path of a document, with true for a link. Links in code are none."""
    text = FENCED.sub("", text)
    yield from ((it, False) for it in SPAN.findall(text)
                if PATH.fullmatch(it) and not it.startswith(MADE) and not ANY.intersection(re.split(r"[/.]", it)))
    yield from ((it, True) for it in LINK.findall(SPAN.sub("", text)) if not re.match(r"\w+:", it))


def made(text):
    """Returns the targets of the commands `make` in the code of a document."""
    fenced = [line for it in FENCED.findall(text) for line in it.splitlines()]
    code = [*fenced, *SPAN.findall(text), *re.findall(r"^    (.*)", text, re.M)]
    return {target for it in code for targets in MAKE.findall(it) for target in targets.split()}


def target_of(document, name, is_link):
    """Returns the path, relative to the repository, to which a link or a path of a document leads, and the anchor."""
    path, _, at = name.partition("#")
    folder = os.path.dirname(document) if is_link else ""
    return os.path.normpath(os.path.join(folder, path)) if path else document, at


def is_right(path, at, texts):
    """Returns true if a path exists, and has this heading if there is one. `texts` has the documents."""
    if not at:
        return path in texts or os.path.exists(f"{ROOT}/{path}")
    return at in map(anchor, HEADING.findall(FENCED.sub("", texts.get(path, ""))))


def check_samples():
    """Prints each sample with other wrong links, and returns the number of these samples."""
    failed = 0
    for text, wanted in SAMPLES:
        texts = {"docs/A.md": f"## The first: one\n\n{text}\n", "README.md": ""}
        found = [it for it, is_link in named(text) if not is_right(*target_of("docs/A.md", it, is_link), texts)]
        if sorted(found) != sorted(wanted):
            print(f"sample {text!r}: {found}, not {wanted}")
            failed += 1
    return failed


def main():
    texts = {}
    for path in sorted(it for one in ("*.md", "*/*.md", "tests/**/*.md")
                       for it in glob.glob(f"{ROOT}/{one}", recursive=True)):
        with open(path, encoding="utf-8") as file:
            texts[os.path.relpath(path, ROOT)] = file.read()
    failed, linked = check_samples(), {"README.md"}
    passed = len(SAMPLES) - failed
    for document, text in texts.items():
        for name, is_link in named(text):
            path, at = target_of(document, name, is_link)
            linked |= {path} - {document}
            if is_right(path, at, texts):
                passed += 1
            else:
                failed += 1
                print(f"{document}: {name} does not exist")
    with open(f"{ROOT}/Makefile", encoding="utf-8") as file:
        targets = set(re.search(r"^\.PHONY: (.*)$", file.read(), re.M)[1].split())
    for document, text in texts.items():
        absent = made(text) - targets
        passed, failed = passed + len(made(text) & targets), failed + len(absent)
        print("".join(f"{document}: the Makefile has no target {it}\n" for it in sorted(absent)), end="")
    for document in texts:
        passed, failed = passed + (document in linked), failed + (document not in linked)
        if document not in linked:
            print(f"{document}: no other document links to it")
    spans = {word for it in SPAN.findall(texts["docs/TESTING.md"]) for word in it.split()}
    for script in {next(it for it in step.words if it != "python3") for step in STEPS}:
        is_named = script.startswith("tests/tools/") or any(f"/{script}".endswith(f"/{it}") for it in spans)
        passed, failed = passed + is_named, failed + (not is_named)
        if not is_named:
            print(f"docs/TESTING.md: no {script}")
    print(f"{passed} passed, {failed} failed")
    return min(failed, 1)


if __name__ == "__main__":
    sys.exit(main())
