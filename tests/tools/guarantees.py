#!/usr/bin/env python3
"""Checks the names in documents, and renders the tables of docs/GUARANTEES.md:

    tests/tools/guarantees.py          a line for each name that does not exist
    tests/tools/guarantees.py --write  also renders the tables of docs/GUARANTEES.md

docs/guarantees.tsv has a claim in a line, with tabs between these columns:

- the heading in the document, the crate, and the claim;
- references that show it, with '; ' between them: `function`, `Type::function` (clause, clause), or `name`, `name`
  (FILE) for definitions. Functions are those of the crate, or of crates below it; those in `laws` are theorems. FILE is
  below crates/;
- the limits of the claim.

The text of docs/GUARANTEES.md and docs/MODEL.md has these names:

- `crate::function` or `crate::Type::function` (`clause`, `clause`), also as a list: crate: `function`, `Type::function`
  (`clause`);
- `crate/mutant` ('clause' of `function`): an edit of tests/mutants, and what its first line quotes. Each promise
  of docs/GUARANTEES.md has one;
- `name` or `Type::name`: each word occurs in the sources, the definitions, or the tests of the programs;
- `tests/..` and other paths of files; [`name`](FILE), where the file of definitions defines the name.

In the documents of NAMED, only `name` and `Type::name` are checked, the latter also in blocks of text. The libraries
that docs/GUARANTEES.md trusts must be those of crates.txt from outside. The worked example of docs/MODEL.md must have
the bytes of the rows EXAMPLE. The script also checks itself on SAMPLES. The last line is 'N passed, M failed', where N
counts claims without an error, documents, and samples.
"""

import functools
import glob
import os
import re
import sys
from collections import namedtuple

TESTS = os.path.dirname(os.path.dirname(os.path.abspath(__file__)))
sys.path[:0] = [f"{TESTS}/harness", f"{TESTS}/mutants"]
import edit_files  # noqa: E402
from conformance import GENERATED, quoted_clauses, read, table, wrong_definitions  # noqa: E402
from message_syntax import digits  # noqa: E402
from places import block_name  # noqa: E402
from quotes import Quotes  # noqa: E402
from workspace import ROOT, crates, listed  # noqa: E402

DATA = "docs/guarantees.tsv"
CLAIMS, MODEL = "docs/GUARANTEES.md", "docs/MODEL.md"

# The file with the id of the installed kit.
KIT = "/opt/rattle/KIT-ID"
NAMED = ["CONTRIBUTING.md", *(f"docs/{it}.md" for it in (
    "ARCHITECTURE", "DECISIONS", "DEPLOYING", "EMBEDDING", "EMBEDDING_C", "GATEWAYS", "GLOSSARY", "PERFORMANCE",
    "QUICKSTART"))]
EXAMPLE = "tests/vectors/rows/serve/observers.rows", "= a notification between two responses "
COLUMNS = ["Part", "Crate", "Claim", "Shown by", "Limits"]

Claim = namedtuple("Claim", "line part crate claim shown_by limits")

REFERENCE = re.compile(r"(`[^`]+`(?:, `[^`]+`)*)(?: \((.*)\))?")
# A word that begins as a crate does.
CRATE = rf"(?:{'|'.join(sorted({it.partition('_')[0] for it in listed()}))})_\w+"
FUNCTION = re.compile(rf"`({CRATE})::([\w:]+)`(?: \(([\w, `]+)\))?")
# Functions of one crate, as in `coap_conn: `Link::on`, `Link::due` (`after`)`.
FUNCTIONS = re.compile(rf"\b({CRATE}): (`[\w:]+`(?:, `[\w:]+`)*)(?: \(([\w, `]+)\))?")
MUTANT = re.compile(rf"`({CRATE})/(\w+)` \(([^()]*)\)")
NAME = re.compile(r"`(?![0-9a-f]{6,}`)([A-Za-z_]\w*(?:::\w+)*)`")
FILE = re.compile(r"`((?:bench|crates|docs|examples|include|install|man|tests)/[^\s`*<]+)`")
DEFINED = re.compile(r"\[`(\w+)`\]\(\.\./crates/([^()\s]+\.antt)\)")
PROMISE = re.compile(r"^### \d+\. .*?(?=^##)", re.M | re.S)

# Texts, each with the errors that it must give.
SAMPLES = [
    ("`coap_wire::parse` (`found`, `exact`) and `Spells`", []),
    ("`coap_wire::parse` (`after`)", ["parse of coap_wire has no clause after"]),
    ("`coap_wire::laws::parse`", ["coap_wire has no function laws::parse"]),
    ("`directory_core::parse_all`", ["directory_core has no function parse_all", "no parse_all in the sources"]),
    ("coap_conn: `Link::on`, `Link::parse` (`after`)", ["coap_conn has no function Link::parse"]),
    ("`coap_wire/parse_gives_up` ('exact' of `parse`)", []),
    ("`coap_wire/parse_gives_up` ('a' of `parse`)", ["coap_wire has no mutant parse_gives_up with 'a' of `parse`"]),
    ("`Link::not_defined`", ["no not_defined in the sources"]),
    ("`tests/not_defined.py`", ["no file tests/not_defined.py"]),
    ("[`Spells`](../crates/coap_wire/specs/Spelling.antt)", []),
    ("[`Spells`](../crates/coap_wire/specs/Uint.antt)", ["coap_wire/specs/Uint.antt does not define Spells"]),
]


def claims_in(text):
    """Returns the claims of the file, and the errors in their form."""
    first, *lines = text.split("\n")[:-1]
    wrong = [] if first.split("\t") == COLUMNS else [f"{DATA}:1: the columns are not {', '.join(COLUMNS)}"]
    rows = [(number, line.split("\t")) for number, line in enumerate(lines, 2)]
    wrong += [f"{DATA}:{number}: {len(it)} columns" for number, it in rows if len(it) != len(COLUMNS)]
    return [Claim(number, *it) for number, it in rows if len(it) == len(COLUMNS)], wrong


def wrong_function(crate, name, clauses):
    """Yields the errors in a reference to a function of a crate, and to its clauses."""
    if crate not in listed():
        yield f"no crate {crate}"
        return
    quotes = Quotes(crate, block_name)
    if not quotes.contracts(name):
        yield f"{crate} has no function {name}"
        return
    for clause in filter(None, clauses.split(", ")):
        if quotes.why_not(f"'{clause}' of {name}", ()):
            yield f"{name} of {crate} has no clause {clause}"


def wrong_claim(claim):
    """Yields the errors in the references of a claim."""
    if not claim.part or not claim.claim or not claim.shown_by:
        yield "a column is empty"
    for part in claim.shown_by.split("; "):
        found = REFERENCE.fullmatch(part)
        if not found:
            yield f"not understood: {part}"
        elif (found[2] or "").endswith(".antt"):
            yield from wrong_definitions(part)
        else:
            for name in re.findall(r"`([^`]+)`", found[1]):
                yield from wrong_function(claim.crate, name, found[2] or "")


def claims_tables(claims):
    """Returns the tables of all claims, with a heading for each part."""
    text = ""
    for part in dict.fromkeys(it.part for it in claims):
        rows = ([it.claim, f"{it.crate}: {quoted_clauses(it.shown_by)}", it.limits] for it in claims if it.part == part)
        text += f"### {part}\n\n{table(['Claim', 'Shown by', 'Limits'], rows)}\n"
    return text


def rendered(text, claims):
    """Returns a document with its tables rendered anew."""
    tables = {"claims": claims_tables(claims)}
    return GENERATED.sub(lambda it: it[1] + tables[it[2]] + it[4], text)


@functools.cache
def words_of_sources():
    """Returns all words of the sources, the definitions, the proofs, and the harness of the tests."""
    patterns = ["crates/*/src/**/*.rt", "crates/*/specs/**/*.antt", "crates/*/proofs/**/*.antt", "tests/harness/*.[ch]",
                "tests/system/**/*.py", "include/*.h", "gateway/mqtt/*.c"]
    words = {*crates(), "rt", "HANDLES"}
    for path in (it for one in patterns for it in glob.glob(f"{ROOT}/{one}", recursive=True)):
        with open(path, encoding="utf-8") as it:
            words |= set(re.findall(r"\w+", it.read()))
    return words


@functools.cache
def mutants(crate):
    """Returns what the first line of each edit of a crate quotes, by the name of the edit."""
    return {it.name: it.detected_by for it in edit_files.edits_of(f"{TESTS}/mutants", [crate])}


def wrong_text(text):
    """Yields the errors in the names of a document, without its tables."""
    for crate, name, clauses in FUNCTION.findall(text):
        yield from wrong_function(crate, name, clauses.replace("`", ""))
    for crate, names, clauses in FUNCTIONS.findall(text):
        for name in re.findall(r"[\w:]+", names):
            yield from wrong_function(crate, name, clauses.replace("`", ""))
    for crate, name, quoted in MUTANT.findall(text):
        if mutants(crate).get(name) != quoted.replace("`", ""):
            yield f"{crate} has no mutant {name} with {quoted}"
    for name in NAME.findall(text):
        yield from (f"no {it} in the sources" for it in name.split("::") if it not in words_of_sources())
    yield from (f"no file {it}" for it in FILE.findall(text) if not os.path.exists(f"{ROOT}/{it}"))
    for name, file in DEFINED.findall(text):
        yield from wrong_definitions(f"`{name}` ({file})")


def wrong_names(text):
    """Yields each name in a document that the sources do not have."""
    blocks = re.findall(r"^```text\n(.*?)^```$", text, re.M | re.S)
    names = [*NAME.findall(re.sub(r"^```.*?^```$", "", text, flags=re.M | re.S)),
             *(it for block in blocks for it in re.findall(r"\w+::\w+", block))]
    words = (it for name in names for it in name.split("::") if not it.startswith("_") and not it.endswith("_"))
    yield from (f"no {it} in the sources" for it in words if it not in words_of_sources())


def wrong_trusted(text):
    """Yields each library that the document or crates.txt names alone."""
    named = re.search(r"^- The contracts \(.*", text, re.M)
    used = {it for uses in listed().values() for it in uses if it not in listed()}
    yield from (f"{it} is trusted, or used, and not both" for it in sorted(used ^ set(NAME.findall(named[0]))))


def wrong_example(text):
    """Yields an error if the worked example has other bytes than its rows."""
    rows = read(EXAMPLE[0]).partition(EXAMPLE[1])[2].partition("\n= ")[0]
    wanted = [digits("+".join(re.findall(it, rows, re.M))) for it in (r"^in 1 (.*) => ", r"^drain 1 => out 1 (.*)$")]
    example = text.partition("### Worked example")[2].partition("\n## ")[0]
    events, queued = zip(*(it.split("|")[1:3] for it in example.splitlines() if it.startswith("| `")))
    shown = ["".join(re.findall(form, "".join(cells))) for form, cells in
             ((r"`Took 1 ([0-9a-f]+)", events), (r"`([0-9a-f]{6,})`", queued))]
    if shown != wanted:
        yield f"the worked example has {shown}, not {wanted}"


def wrong_document(document, claims):
    """Yields the errors in a document."""
    text = read(document) or ""
    if rendered(text, claims) != text:
        yield "its tables are not up to date: run this script with --write"
    if document in NAMED:
        yield from wrong_names(GENERATED.sub("", text))
        return
    yield from wrong_text(GENERATED.sub("", text))
    if document == MODEL:
        yield from wrong_example(text)
    if document == CLAIMS:
        yield from wrong_trusted(text)
        promises = PROMISE.findall(text)
        if not promises:
            yield "no promises"
        yield from (f"no mutant: {it.splitlines()[0]}" for it in promises if not MUTANT.search(it))


def wrong_sample(text, wanted):
    """Yields the error of a sample that gives other errors than it must."""
    found = list(wrong_text(text))
    if found != wanted:
        yield f"sample {text}: {found}, not {wanted}"


def write(document, claims):
    """Renders the tables of a document anew."""
    text = rendered(read(document), claims)
    with open(f"{ROOT}/{document}", "w", encoding="utf-8") as file:
        file.write(text)


def main(words):
    claims, wrong = claims_in(read(DATA) or "\n")
    passed = 0
    if "--write" in words:
        write(CLAIMS, claims)
    for document in (CLAIMS, MODEL, *NAMED):
        faults = [f"{document}: {it}" for it in wrong_document(document, claims)]
        wrong, passed = wrong + faults, passed + (not faults)
    with open(KIT, encoding="utf-8") as it:
        is_named = f"proved with `{it.read().strip()}`" in read(CLAIMS)
    wrong, passed = wrong + [f"{CLAIMS}: the kit is not that of {KIT}"] * (not is_named), passed + is_named
    for sample in SAMPLES:
        faults = list(wrong_sample(*sample))
        wrong, passed = wrong + faults, passed + (not faults)
    for claim in claims:
        faults = [f"{DATA}:{claim.line}: {it}" for it in wrong_claim(claim)]
        wrong, passed = wrong + faults, passed + (not faults)
    print("".join(f"{it}\n" for it in wrong), end="")
    print(f"{passed} passed, {len(wrong) or int(not claims)} failed")
    return 1 if wrong or not claims else 0


if __name__ == "__main__":
    sys.exit(main(sys.argv[1:]))
