#!/usr/bin/env python3
"""Checks docs/conformance.tsv, which says how the requirements of the RFCs are met, and renders it:

    tests/tools/conformance.py          a line for each reference that does not exist
    tests/tools/conformance.py --all    and the number of rows of each RFC by status
    tests/tools/conformance.py --write  also renders the tables of docs/CONFORMANCE.md

The file has a row in a line, with tabs between these columns. Several references in one column have '; ' between them:

- the RFC, the heading in the document, the section, and the requirement;
- the status, one of STATUSES, and its reason: each but 'met' has one;
- definitions: `name`, `name` (FILE), where FILE is below crates/ and defines each name;
- functions: `crate::module::function` or `crate::Type::function` (clause, clause), with public functions and their
  clauses;
- tests: `kind/name.rows` below tests/vectors/rows, `tests/..py`, or `crate/proofs/..antt`, each with (`text`, `text`).

A text of a test is any text of a file of rows. For a file of proofs, it is a name that the file defines. For a Python
file, the file or a module in the folder with its name defines it. The gate must run the Python files. A row with the
status 'met' must name a function or a test. A point such as P9 must be one of the document's list.

The document has each table of TABLES between two comments, as this script renders it, and at most 800 words besides.
The last line is 'N passed, M failed', where N counts rows without an error, and the document.
"""

import collections
import os
import re
import sys

TESTS = os.path.dirname(os.path.dirname(os.path.abspath(__file__)))
sys.path[:0] = [f"{TESTS}/harness", f"{TESTS}/mutants"]
from places import block_name  # noqa: E402
from quotes import Quotes, contracts_of  # noqa: E402
from steps import STEPS  # noqa: E402
from workspace import ROOT, listed  # noqa: E402

DOCUMENT = "docs/CONFORMANCE.md"
DATA = "docs/conformance.tsv"
COLUMNS = ["RFC", "Part", "Section", "Requirement", "Status", "Reason", "Definition", "Contract or theorem", "Test"]
STATUSES = ["met", "deliberately different", "not supported", "not applicable"]
# The statuses whose rows the document also lists in a table of their own, with the reasons.
LISTED = ["deliberately different", "not supported"]
WORDS = 800

GENERATED = re.compile(r"(<!-- generated: ([\w ]+) -->\n)(.*?)(<!-- end -->)", re.S)
POINT = re.compile(r"\bP\d+\b")
REFERENCE = re.compile(r"(`[^`]+`(?:, `[^`]+`)*)(?: \((.*)\))?")

Row = collections.namedtuple("Row", "line rfc part section requirement status reason definitions functions tests")


def read(path):
    """Returns the text of a file of the repository, or None if there is no such file."""
    try:
        with open(f"{ROOT}/{path}", encoding="utf-8") as it:
            return it.read()
    except OSError:
        return None


def rows_in(text):
    """Returns the rows of the file, and the errors in their form."""
    rows, wrong = [], []
    first, *lines = text.split("\n")[:-1]
    if first.split("\t") != COLUMNS:
        wrong.append(f"{DATA}:1: the columns are not {', '.join(COLUMNS)}")
    for number, line in enumerate(lines, 2):
        cells = line.split("\t")
        if len(cells) == len(COLUMNS):
            rows.append(Row(number, *cells))
        else:
            wrong.append(f"{DATA}:{number}: {len(cells)} columns, not {len(COLUMNS)}")
    return rows, wrong


def table(header, rows):
    """Returns the text of a table."""
    lines = [header, ["---"] * len(header), *rows]
    return "".join(f"| {' | '.join(it.replace('|', chr(92) + '|') for it in line)} |\n" for line in lines)


def counts_table(rows):
    """Returns the table of the number of rows of each RFC by status."""
    counts = collections.Counter((row.rfc, row.status) for row in rows)
    rfcs = dict.fromkeys(row.rfc for row in rows)
    return table(["RFC", *STATUSES], ([rfc, *(str(counts[rfc, it]) for it in STATUSES)] for rfc in rfcs))


def reasons_table(status):
    """Returns a function that returns the table of the rows with this status, with their reasons."""
    def text_of(rows):
        return table(["RFC", "Section", "Requirement", "Reason"],
                     ([it.rfc.partition(",")[0].removeprefix("RFC "), it.section, it.requirement, it.reason]
                      for it in rows if it.status == status))
    return text_of


def status_cell(row):
    """Returns the status of a row, with its reason or a link to the table that has it."""
    if row.status in LISTED:
        return f"[{row.status}](#{row.status.replace(' ', '-')})"
    return f"{row.status}: {row.reason}" if row.reason else row.status


def quoted_clauses(text):
    """Returns references to functions with the names of clauses as code."""
    return re.sub(r"(?<=` )\(([\w, ]+)\)", lambda it: "(" + re.sub(r"\w+", r"`\g<0>`", it[1]) + ")", text)


def requirements_tables(rows):
    """Returns the tables of all rows, with a heading for each RFC and for each part of it."""
    text, before = "", (None, None)
    for rfc, part in dict.fromkeys((row.rfc, row.part) for row in rows):
        text += f"\n### {rfc}\n" * (rfc != before[0]) + f"\n#### {part}\n\n"
        text += table([COLUMNS[2], COLUMNS[3], COLUMNS[4], *COLUMNS[6:]],
                      ([it.section, it.requirement, status_cell(it), it.definitions, quoted_clauses(it.functions),
                        it.tests] for it in rows if (it.rfc, it.part) == (rfc, part)))
        before = rfc, part
    return text.removeprefix("\n") + "\n"


TABLES = {"counts": counts_table, **{it: reasons_table(it) for it in LISTED}, "requirements": requirements_tables}


def rendered(text, rows):
    """Returns the document with all its tables rendered anew."""
    return GENERATED.sub(lambda it: it[1] + (TABLES[it[2]](rows) if it[2] in TABLES else "") + it[4], text)


def wrong_document(text, rows):
    """Yields the errors in the document: its tables, its words, and points that it does not list."""
    names = [it[1] for it in GENERATED.findall(text)]
    if sorted(names) != sorted(TABLES):
        yield f"the tables are {', '.join(names)}, not {', '.join(TABLES)}"
    elif rendered(text, rows) != text:
        yield f"the tables are not those of {DATA}: run this script with --write"
    words = len(GENERATED.sub("", text).split())
    if words > WORDS:
        yield f"{words} words outside of the tables, at most {WORDS}"


def references(cell):
    """Yields the references of a cell: the names of each, and the text in its brackets."""
    for part in filter(None, cell.split("; ")):
        found = REFERENCE.fullmatch(part)
        yield (re.findall(r"`([^`]+)`", found[1]), found[2] or "") if found else ([], part)


def defines(text, name):
    """Returns true if a text of definitions defines a name that others may use."""
    return re.search(rf"(?m)^(?:\w+ )?pub (?:record |data )?{re.escape(name)}(?![\w'])", text) is not None


def wrong_definitions(cell):
    """Yields the errors in references to definitions."""
    for names, file in references(cell):
        text = read(f"crates/{file}") if names and "/specs/" in file else None
        if text is None:
            yield f"no file of definitions: {file}"
            continue
        yield from (f"{file} does not define {name}" for name in names if not defines(text, name))


def is_public(crate, name):
    """Returns true if a crate has a public function with this name."""
    found = contracts_of(crate, block_name).get(name, []) if crate in listed() else []
    return any(it.head.lstrip().startswith("pub ") for it in found)


def wrong_functions(cell):
    """Yields the errors in references to functions and clauses."""
    for names, named in references(cell):
        if len(names) != 1:
            yield f"not understood: {named}"
            continue
        crate, _, name = names[0].partition("::")
        if not is_public(crate, name):
            yield f"no public function {names[0]}"
            continue
        yield from (f"{names[0]} has no clause {it}" for it in filter(None, named.split(", "))
                    if not Quotes(crate, block_name).has((it, ""), name, ()))


def test_file(name):
    """Returns the file of a test, and the pattern that a text of it must match."""
    if name.endswith(".rows"):
        return f"tests/vectors/rows/{name}", "{}"
    if name.endswith(".py"):
        return name, r"(?m)^(?:(?:async )?def {0}\b|class {0}\b|{0} = )"
    return f"crates/{name}", r"(?m)^{0} :"


def text_of_test(path):
    """Returns the text of the file of a test, followed by those of the modules in the folder with its name. Returns
    None if there is no such file."""
    text, folder = read(path), path.removesuffix(".py")
    if text is None or not path.endswith(".py") or not os.path.isdir(f"{ROOT}/{folder}"):
        return text
    modules = (it for it in sorted(os.listdir(f"{ROOT}/{folder}")) if it.endswith(".py"))
    return "\n".join([text, *(read(f"{folder}/{it}") for it in modules)])


def wrong_tests(cell, gate):
    """Yields the errors in references to tests."""
    for names, named in references(cell):
        text = text_of_test(test_file(names[0])[0]) if len(names) == 1 else None
        if text is None:
            yield f"no test {names[0] if names else named}"
            continue
        if names[0].endswith(".py") and names[0] not in gate:
            yield f"the gate does not run {names[0]}"
        form = test_file(names[0])[1]
        yield from (f"{names[0]} does not have {it}" for it in re.findall(r"`([^`]+)`", named)
                    if not re.search(form.format(re.escape(it)), text))


def wrong_row(row, gate, points):
    """Yields the errors in a row."""
    if row.status not in STATUSES or bool(row.reason) == (row.status == "met"):
        yield f"status: {row.status}: {row.reason}"
    if row.status == "met" and not row.functions and not row.tests:
        yield "met, but by no contract, theorem or test"
    if not row.rfc or not row.part or not row.section or not row.requirement:
        yield "no RFC, part, section or requirement"
    yield from (f"the document lists no point {it}" for it in POINT.findall(f"{row.requirement} {row.reason}")
                if it not in points)
    yield from wrong_definitions(row.definitions)
    yield from wrong_functions(row.functions)
    yield from wrong_tests(row.tests, gate)


def tell_counts(rows):
    """Prints the number of rows of each RFC by status."""
    counts = collections.Counter((row.rfc, row.status) for row in rows)
    for (rfc, status), count in sorted(counts.items()):
        print(f"{rfc}: {count} {status}")


def write_document(rows):
    """Renders the tables of the document anew."""
    text = rendered(read(DOCUMENT), rows)
    with open(f"{ROOT}/{DOCUMENT}", "w", encoding="utf-8") as file:
        file.write(text)


def main(words):
    rows, wrong = rows_in(read(DATA) or "\n")
    if "--write" in words:
        write_document(rows)
    text = read(DOCUMENT) or ""
    gate, passed = {word for step in STEPS for word in step.words}, 0
    points = set(re.findall(r"(?m)^- \*\*(P\d+)\*\* ", text))
    faults = [f"{DOCUMENT}: {it}" for it in wrong_document(text, rows)]
    wrong, passed = wrong + faults, int(not faults)
    for row in rows:
        faults = [f"{DATA}:{row.line}: {it}" for it in wrong_row(row, gate, points)]
        wrong, passed = wrong + faults, passed + (not faults)
    if "--all" in words:
        tell_counts(rows)
    print("".join(f"{it}\n" for it in wrong), end="")
    print(f"{passed} passed, {len(wrong) or int(not rows)} failed")
    return 1 if wrong or not rows else 0


if __name__ == "__main__":
    sys.exit(main(sys.argv[1:]))
