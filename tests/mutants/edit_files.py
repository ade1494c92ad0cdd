"""Reads the edits of a crate, and applies them to its files."""

import collections
import contextlib
import re
from dataclasses import dataclass, field

import changes
from places import BadEdit, body_of
from program_tests import CRATES
from verdicts import reported
from workspace import ROOT

# The layers of the edits that tests of a program detect.
PROGRAMS = tuple(CRATES)

FIRST_LINE = re.compile(
    rf"(?:clause|open|control): \S.*|rows: tests/vectors/rows/\S+\.rows|(?:{'|'.join(PROGRAMS)}): "
    r"tests/system/\w+\.py(?: \w+)+"
)


@dataclass
class Part:
    """One replacement in the body of one function."""

    file: str
    function: str
    old: str
    new: str

    def path(self):
        """Returns the function in the form of `reported`."""
        module = re.sub(r"^src/|/?(lib|main|mod)?\.rt$", "", self.file).replace("/", "::")
        return reported([*module.split("::"), *self.function.split("::")])

    def applied(self, text):
        begin, end = body_of(text, self.function)
        body = text[begin:end]
        if body.count(self.old) != 1:
            raise BadEdit(f"the old text occurs {body.count(self.old)} times in {self.function}: {self.old}")
        return text[:begin] + body.replace(self.old, self.new) + text[end:]


@dataclass(eq=False)
class Edit:
    """A mutant, as its edit file describes it."""

    crate: str
    name: str
    layer: str = ""
    # The rest of the first line: the clause that rejects the edit, or the rows or the test that detect it.
    detected_by: str = ""
    parts: list = field(default_factory=list)

    def row(self):
        """Returns the function whose clause rejects the edit, that clause, and the edit. Without one such function, the
        first one edited."""
        clause, _, function = self.detected_by.rpartition(" of ")
        if not clause or " " in function:
            clause, function = self.detected_by, self.parts[0].function
        return f"{self.crate} {function}", clause, f"{self.name} ({self.layer})"

    def functions(self):
        return {it.path() for it in self.parts}

    def files(self):
        """Returns the files that the edit changes, in the form of git."""
        return {f"crates/{self.crate}/{it.file}" for it in self.parts}

    def is_constant(self):
        return any(it.function.startswith("const ") for it in self.parts)

    def applied(self, texts):
        """Returns the texts of the files of the crate with this edit. Files that are not in `texts` are read."""
        texts = dict(texts)
        for part in self.parts:
            texts[part.file] = part.applied(texts.get(part.file) or source(self.crate, part.file))
        return texts


def read_edit(crate, name, text):
    """Returns the edit that these lines describe."""
    edit, said = Edit(crate, name), {}
    for number, line in enumerate(text.splitlines()):
        word, colon, rest = line.partition(":")
        if number == 0 and FIRST_LINE.fullmatch(line):
            edit.layer, edit.detected_by = word, rest.strip()
            continue
        if not colon or word not in ("file", "in", "old", "new"):
            raise BadEdit(f"{crate}/{name}: not understood: {line}")
        said[word] = rest.removeprefix(" ")
        if word == "new":
            edit.parts.append(Part(said["file"], said["in"], said["old"], said["new"]))
    if not edit.layer:
        raise BadEdit(f"{crate}/{name}: its first line does not say what detects it")
    if not edit.parts:
        raise BadEdit(f"{crate}/{name}: nothing is edited")
    return edit


def edits_of(folder, names):
    """Returns the edits of these crates, in the files of a folder."""
    found = []
    for crate in names:
        with contextlib.suppress(FileNotFoundError), open(f"{folder}/{crate}.edits", encoding="utf-8") as file:
            texts = changes.split_edits(file.read())
            if twice := [it for it, count in collections.Counter(name for name, _ in texts).items() if count > 1]:
                raise BadEdit(f"{crate} has two edits {twice[0]}")
            found += [read_edit(crate, name, text) for name, text in texts]
    return found


def source(crate, file):
    with open(f"{ROOT}/crates/{crate}/{file}", encoding="utf-8") as it:
        return it.read()
