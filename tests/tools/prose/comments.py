"""Finds these forms in the comments and docstrings of sources, and in the texts of errors."""

import ast
import io
import re
import tokenize

from findings import Finding, findings_of
from sentences import numbered

# Words that end in s and are no verbs.
NO_VERBS = {"always", "as", "bytes", "is", "its", "less", "lines", "this", "thus", "us", "was"}

RUST = re.compile(r"(\s*)(//[/!]?)(?!/) ?(.*)")
FUNCTION = re.compile(r"\s*(?:pub(?:\([^)]*\))? )?(?:const )?(?:extern \S+ )?fn \w")
ERROR = re.compile(r'#\[error\("((?:\\.|[^"\\])*)"')
STRING = re.compile(r'"(?:\\.|[^"\\])*"')
ANTT = re.compile(r"(?:^|\s)-{2,} ?(.*)")


def markers(line):
    """Returns the indent, the marker and the text of the comment on a line of Rust, or `None` if there is none."""
    found = RUST.match(line)
    if found:
        return found.groups()
    rest = STRING.sub(lambda it: "_" * len(it[0]), line)
    at = rest.find(" // ")
    return (None, "//", line[at + 4:]) if at >= 0 else None


def is_function(lines, at):
    """Returns true if a function with its attributes begins at this index."""
    depth = 0
    while at < len(lines) and (depth or lines[at].lstrip().startswith("#[")):
        line = STRING.sub("", lines[at])
        depth += line.count("[") - line.count("]")
        at += 1
    return at < len(lines) and bool(FUNCTION.match(lines[at]))


def runs(found):
    """Joins comments on successive lines with one indent and one marker, and yields the marker and the numbered
    texts."""
    run, before = [], None
    for number, comment in found:
        if run and (comment[0] is None or comment[:2] != before or number != run[-1][0] + 1):
            yield before[1], run
            run = []
        run.append((number, comment[2]))
        before = comment[:2]
    if run:
        yield before[1], run


def rust(text):
    """Yields the findings in the comments and the error texts of a source."""
    lines = text.split("\n")
    found = [(number, comment) for number, comment in enumerate(map(markers, lines), 1) if comment]
    for marker, run in runs(found):
        yield from findings_of(run)
        first = run[0][1].split()[:1]
        if marker == "///" and is_function(lines, run[-1][0]) and not (first and is_verb(first[0])):
            yield Finding(run[0][0], "verb", run[0][1][:60])
    for number, line in enumerate(lines, 1):
        yield from (it for text in ERROR.findall(line) for it in findings_of([(number, text)]))


def is_verb(word):
    """Returns true if the first word of a sentence looks like a verb in the third person."""
    word = word.rstrip(".,:;")
    return word.isalpha() and word[0].isupper() and word.endswith("s") and word.lower() not in NO_VERBS


def definitions(text):
    """Yields the findings in the comments of a file of definitions or proofs."""
    found = [(number, ANTT.search(line)) for number, line in numbered(text)]
    indents = {number: it.start() if not it.string[:it.start()].strip() else None for number, it in found if it}
    for _, run in runs((number, (indents[number], "--", it[1])) for number, it in found if it):
        yield from findings_of(run)


def docstrings(text):
    """Yields the docstrings of a Python script, each as lines with their numbers."""
    for node in ast.walk(ast.parse(text)):
        if isinstance(node, (ast.Module, ast.ClassDef, ast.FunctionDef)) and ast.get_docstring(node):
            value = node.body[0].value
            indent = " " * value.col_offset
            yield [(number, line.removeprefix(indent)) for number, line in numbered(value.value, value.lineno)]


def python_comments(text):
    """Yields the comments of a Python script, each with its line, and with its indent, marker and text."""
    for it in tokenize.generate_tokens(io.StringIO(text).readline):
        if it.type == tokenize.COMMENT and not it.string.startswith(("#!", "# noqa")):
            line, column = it.start
            yield line, (column if not it.line[:column].strip() else None, "#", it.string[1:].removeprefix(" "))


def python(text):
    """Yields the findings in the docstrings and comments of a Python script."""
    for lines in docstrings(text):
        yield from findings_of(lines)
    for _, run in runs(python_comments(text)):
        yield from findings_of(run)


def shell(text):
    """Yields the findings in the comments of a shell script."""
    found = ((number, re.match(r"(\s*)#(?!!) ?(.*)", line)) for number, line in numbered(text))
    for _, run in runs((number, (it[1], "#", it[2])) for number, it in found if it):
        yield from findings_of(run)
