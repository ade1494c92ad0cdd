#!/usr/bin/env python3
"""Counts words and forms of sentences that the project's prose should not have:

    tests/tools/prose.py               a line for each group of files with more findings than LIMITS allows
    tests/tools/prose.py --all         also a table: the findings of each group, by kind
    tests/tools/prose.py --limits      the table LIMITS with the present counts that are not 0, and no check
    tests/tools/prose.py --list FILE ..  each finding in these files, with its line, and no check
    tests/tools/prose.py --repeated    each sentence that is repeated, with its places, and no check
    tests/tools/prose.py --words       the number of words of each document and manual, and no check

Words are those without code, and without the parts that a script generates. Such a part begins with a line
`<!-- generated ..` and ends with a line `<!-- end -->`. A manual is counted whole.

Prose is the text of README.md, the other documents and the manuals. So are the comments in `.rt` and `.antt` files, the
comments and docstrings of Python and shell scripts, and the texts of `#[error("..")]`. Blocks of code are left out. A
code span or a name counts as one word; a name has `_`, `::`, a dot, a slash or a capital inside. The kinds:

    behind    `behind` that no proxy follows; write `after`
    told      `told` and `tells`; write `reports`, `returns` or `notified`
    so many   `so many`, and `as many .. as may be`; write the number, or name it
    our       `our`, `ours` and `moment`; name the owner; write `time`
    what      a sentence that begins with `What`, `How` or `Why`, and is no question; name the thing
    where     a sentence that begins with `Where`, and is no question; write `If`
    verb      the comment of a function that does not begin with a verb in the third person, such as `Returns`
    long      a sentence of more than 25 words

Also, a sentence of more than 12 words must be in one place only of the documents and manuals, without the generated
parts. Code and names must be equal, case and marks not. The documents without the changelog, and the manuals, have at
most the words of MOST_IN_ALL. prose/repeats.py has these limits and their samples.

A limit may only fall: lower it after the prose of its group has improved. The script also checks itself on SAMPLES. The
last line is 'N passed, M failed'; each group of files, each limit of REPEATED and MOST_IN_ALL, and each sample counts
once.
"""

import glob
import os
import re
import sys
from collections import Counter

HERE = os.path.dirname(os.path.abspath(__file__))
sys.path[:0] = [os.path.join(HERE, "..", "harness"), os.path.join(HERE, "prose")]
from comments import definitions, python, rust, shell  # noqa: E402
from findings import findings_of  # noqa: E402
from repeats import (  # noqa: E402
    MOST_IN_ALL, REPEATED, REPEATED_SAMPLES, check_repeated, check_repeated_samples, check_words, list_repeated,
    list_words,
)
from sentences import is_manual, manual, numbered  # noqa: E402
from workspace import ROOT, listed  # noqa: E402

# Maximum number of findings of a group of files; other groups may have none.
LIMITS = {"README and docs": 2}

KINDS = ["behind", "told", "so many", "our", "what", "where", "verb", "long"]

# Suffixes of file names and texts, each with the kinds of the findings that it must give.
SAMPLES = [
    (".md", "It goes behind the others.\n", ["behind"]),
    (".md", "Behind HAProxy, or behind a TLS proxy, it is safe.\n", []),
    (".md", "The peer is told so.\nIt tells\nothers.\n", ["told", "told"]),
    (".md", "Use `told` and server.told and so_many.\n\n    told\n\n```\ntold\n```\n", []),
    (".md", "- so many bytes\n- as many peers as may be\n", ["so many", "so many"]),
    (".md", "| our limit | the moment |\n|---|---|\n", ["our", "our"]),
    (".md", "## What it is\n\nWhat is it? How it runs is here.\n", ["what", "what"]),
    (".md", "Where it fails, stop.\nSee where it is. `f`, where it is.\n", ["where"]),
    (".md", "word " * 25 + "2.05 `a b`.\n", ["long"]),
    (".md", "word " * 24 + "`a b`. e.g. this.\n", []),
    (".1", ".Sh NAME\n.Nm\nis told\n.Fl d .\n.Bd -literal\ntold\n.Ed\n", ["told"]),
    (".rt", "/// Whether it is so.\n#[inline]\npub fn is() {\n", ["verb"]),
    (".rt", "/// Returns it.\nfn is() {\n/// The name.\nstruct Told;\n", []),
    (".rt", '#[error("no more told")]\nlet a = "// told"; // is told\n', ["told", "told"]),
    (".antt", "-- what a server\n-- is told\ntold : List\n", ["what", "told"]),
    (".py", '"""Runs it.\n\n    told told\n"""\ntold = "# told"  # is told\n', ["told"]),
    ("", "#!/bin/sh\n# our peer\necho told\n", ["our"]),
]


def check(path):
    """Returns the findings in a file, by line."""
    with open(path, encoding="utf-8") as file:
        return checked(os.path.splitext(path)[1], file.read())


def checked(kind, text):
    """Returns the findings in a text, by line; the kind of the text is the suffix of its file name."""
    if kind == ".md":
        found = findings_of(numbered(text))
    elif is_manual(kind):
        found = findings_of(manual(text))
    elif kind == ".rt":
        found = rust(text)
    elif kind == ".antt":
        found = definitions(text)
    else:
        found = python(text) if kind == ".py" or "python" in text.partition("\n")[0] else shell(text)
    return sorted(found, key=lambda it: (it.line, KINDS.index(it.kind)))


def is_script(path):
    """Returns true if a file is a script in Python or for a shell."""
    if not os.path.isfile(path) or os.path.splitext(path)[1] not in ("", ".py", ".sh"):
        return False
    with open(path, "rb") as file:
        return path.endswith(".py") or re.match(rb"#!.*(?:python|sh)\b", file.readline()) is not None


def groups():
    """Yields the groups of files, each as a name and the files."""
    def files(*patterns):
        return sorted(it for one in patterns for it in glob.glob(f"{ROOT}/{one}", recursive=True))
    yield "README and docs", files("*.md", "*/*.md", "tests/**/*.md")
    yield "manuals", files("man/*.[1-9]")
    yield "scripts", [it for it in files("tests/**/*", "bench/**/*") if is_script(it)]
    for crate in listed():
        yield crate, files(f"crates/{crate}/src/**/*.rt",
                           *(f"crates/{crate}/{it}/**/*.antt" for it in ("specs", "proofs")))


def list_all(paths):
    """Prints each finding in these files."""
    for path in paths:
        for it in check(path):
            print(f"{path}:{it.line}: {it.kind}: {it.text}")


def check_samples():
    """Prints each sample whose findings are wrong, and returns the number of these samples."""
    failed = 0
    for kind, text, wanted in SAMPLES:
        found = [it.kind for it in checked(kind, text)]
        if found != wanted:
            print(f"sample {kind} {text!r}: {found}, not {wanted}")
        failed += found != wanted
    return failed


def main(words):
    if words[:1] == ["--list"]:
        list_all(words[1:])
        return 0
    if words == ["--repeated"]:
        list_repeated()
        return 0
    if words == ["--words"]:
        list_words()
        return 0
    failed = check_samples() + check_repeated_samples() + check_repeated() + check_words()
    passed = len(SAMPLES) + len(REPEATED_SAMPLES) + len(REPEATED) + len(MOST_IN_ALL) - failed
    counts = {group: Counter(it.kind for path in files for it in check(path)) for group, files in groups()}
    if "--limits" in words:
        print("LIMITS = {", *(f'    "{group}": {found.total()},' for group, found in counts.items() if found.total()),
              "}", sep="\n")
        return 0
    if "--all" in words:
        print(f"{'':<21}", *(f"{kind:>8}" for kind in [*KINDS, "all"]))
    for group, found in counts.items():
        if "--all" in words:
            print(f"{group:<21}", *(f"{found[kind]:>8}" for kind in KINDS), f"{found.total():>8}")
        limit = LIMITS.get(group, 0)
        passed, failed = passed + (found.total() <= limit), failed + (found.total() > limit)
        if found.total() > limit:
            print(f"{group}: {found.total()} findings, at most {limit}")
    print(f"{passed} passed, {failed} failed")
    return min(failed, 1)


if __name__ == "__main__":
    sys.exit(main(sys.argv[1:]))
