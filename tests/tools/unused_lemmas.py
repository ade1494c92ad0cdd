#!/usr/bin/env python3
"""Checks that the crates have no definition, lemma or re-export without a use: tests/tools/unused_lemmas.py [CRATE ..]

A definition or lemma of specs/ or proofs/ is used if a root cites it, directly or through others. Roots are the code
(clauses, `using(..)`, `unfolding(..)`), the answers to the goals of functions, and worked values. So lemmas that cite
only each other have no use. A name is cited wherever it occurs in its scope, also as a variable. A data type is cited
by its constructors, a rule set by its name. A re-export of a `specs/Prelude.antt` is used if any file imports or cites
it from there.

A line names each one without a use. The last line is 'N passed, M failed', for the crates and for these lines.
"""

import glob
import os
import re
import sys
from collections import defaultdict
from dataclasses import dataclass, field

sys.path.insert(0, os.path.join(os.path.dirname(os.path.abspath(__file__)), "..", "harness"))
from workspace import ROOT, crates  # noqa: E402

ANSWERS = ("Answers", "Invariants", "Proof")
WORD = re.compile(r"[^\s()\[\]{},;\"λ|]+")
IMPORT = re.compile(r"(?:ghost |pub |unfoldable pub )?use ([\w.«»]+?)(?:\.\{(.*)\}| as (\w+))?;?$")
OPEN_IMPORT = re.compile(r"(?:ghost |pub |unfoldable pub )?use [\w.«»]+\.\{$")
MODULE = re.compile(r"(pub )?mod ")
COMMENT = re.compile(r"--(?: .*)?$")
HEAD = re.compile(r"((?:(?:abbrev|unfoldable|pub|record|data|ruleset) )*)([^\s:)\]}][^\s:]*)(?= [:({=]| where|$)")


@dataclass
class Definition:
    """A lemma or a definition: its place, the keywords before its name, and the words of its text."""

    crate: str
    module: str
    name: str
    line: int
    words_before: list = field(default_factory=list)
    text: list = field(default_factory=list)

    def is_root(self):
        """Returns true if the definition is a root: an answer to a goal, or a worked value."""
        if self.module.rpartition(".")[2] in ANSWERS:
            return "pub" in self.words_before
        return "Worked" in self.module and not self.words_before


class Scope:
    """The meaning of names in a file: those that it defines or imports, and the modules that it names."""

    def __init__(self, module=""):
        self.module, self.names, self.modules, self.passed = module, defaultdict(set), {}, {}

    def add_import(self, line):
        path, items, alias = IMPORT.match(line).groups()
        if items is None:
            self.modules[alias or path.rpartition(".")[2]] = path
        for item in (items or "").split(", "):
            name, _, alias = item.partition(" as ")
            self.names[alias or name].add(f"{path}.{name}")
            if "pub " in line.partition("use ")[0]:
                self.passed[f"{self.module}.{alias or name}"] = f"{path}.{name}"

    def targets(self):
        """Returns the full names of all that the file defines or imports."""
        return set().union(*self.names.values())

    def cited(self, words):
        """Yields the full names that words may refer to."""
        for word in words:
            first, *rest = word.strip(".").replace("::", ".").split(".")
            yield from self.names.get(word, ())
            yield from self.names.get(first, ())
            if rest and first in self.modules:
                yield f"{self.modules[first]}.{rest[0]}"
            if "::" in word:
                yield re.sub(r"^Rattle\.crate\b", self.module, "Rattle." + word.replace("::", "."))


def joined(lines):
    """Yields the lines of a file with their numbers. An import that has its items on lines of their own is one line. So
    is the head of a module."""
    whole, first, last = "", 0, ""
    for number, line in enumerate(lines, 1):
        text = line.strip()
        if whole:
            whole += text if whole.endswith("{") or text.startswith("}") else " " + text
        elif OPEN_IMPORT.match(text) or text.startswith("module ") and not text.endswith(" where"):
            whole, first, last = line.rstrip(), number, "}" if text.endswith("{") else " where"
        else:
            yield number, line
        if whole and last in line:
            yield first, whole.replace(",}", "}")
            whole = ""


def operator(name):
    """Returns an operator as it is written between its arguments."""
    return name.replace("◌", "")


def module_of(path):
    return "Rattle." + path.removeprefix(f"{ROOT}/crates/").removesuffix(".antt").replace("/", ".")


def path_of(module):
    return f"crates/{module.removeprefix('Rattle.').replace('.', '/')}.antt"


def read_antt(path, crate):
    """Returns the definitions of a file, and its scope."""
    module = module_of(path)
    scope, found, blocks = Scope(module), [], []
    with open(path, encoding="utf-8") as lines:
        for number, line in joined(lines):
            line = COMMENT.sub("", line).rstrip()
            text = line.lstrip()
            if not text:
                continue
            indent = len(line) - len(text)
            while blocks and indent <= blocks[-1][0]:
                blocks.pop()
            if text.startswith(("use ", "pub use ", "unfoldable pub use ")):
                scope.add_import(text)
            elif text.startswith("module "):
                blocks.append((indent, WORD.findall(text)))
            else:
                if indent == (blocks[-1][0] + 2 if blocks else 0) and not MODULE.match(text):
                    parameters = [word for _, words in blocks for word in words]
                    begin_or_go_on(found, Definition(crate, module, "", number, text=parameters), text)
                if found:
                    found[-1].text += WORD.findall(text)
    for it in found:
        scope.names[it.name] = scope.names[operator(it.name)] = {f"{module}.{it.name}"}
        if "data" in it.words_before:
            for word in constructors(it.text):
                scope.names[word] = {f"{module}.{it.name}"}
    for name, targets in list(scope.names.items()):
        scope.names[operator(name)] |= targets
    return found, scope


def constructors(words):
    return [word for word, behind in zip(words, words[1:]) if behind == ":"][1:]


def begin_or_go_on(found, new, text):
    """Begins a definition at a line at the margin, unless the line continues the one before: a clause, or what it
    unfolds."""
    head = HEAD.match(text)
    if head and not text.startswith("unfolding ") and not (found and found[-1].name == head[2] and not head[1]):
        new.name, new.words_before = head[2], head[1].split()
        found.append(new)


def read_rust(path, crate):
    """Returns the names that a source file cites, and those that it imports."""
    scope, words = Scope(f"Rattle.{crate}"), []
    with open(path, encoding="utf-8") as lines:
        for _, line in joined(lines):
            line = line.partition("// ")[0].strip()
            if line.startswith("ghost use "):
                scope.add_import(line)
            else:
                words += re.findall(r"[\w◌]+(?:(?:::|\.)[\w◌]+)*|[^\s\w()\[\]{},;\"]+", line)
    for name, targets in list(scope.names.items()):
        scope.names[operator(name)] |= targets
    return set(scope.cited(words)), scope.targets()


def files(crate, ending):
    folders = (f"{ROOT}/crates/{crate}/{part}" for part in ("src", "specs", "proofs"))
    return sorted(it for folder in folders for it in glob.glob(f"{folder}/**/*.{ending}", recursive=True))


def reached(definitions, cites, passed, roots):
    """Returns the full names that the roots cite, directly or through others, each under the name of its own module."""
    seen, left = set(), list(roots)
    while left:
        name = left.pop()
        while name in passed:
            name = passed[name]
        if name in definitions and name not in seen:
            seen.add(name)
            left += cites[name]
    return seen


class Sources:
    """All definitions by their full names, the names that each cites, the roots, and those that the roots reach. Also
    the names that modules re-export, each with the name that it stands for, and all names that files import or cite."""

    def __init__(self):
        self.definitions, self.cites, self.roots, self.passed, self.named = {}, {}, set(), {}, set()
        for crate in crates():
            for path in files(crate, "antt"):
                self.add_antt(path, crate)
            for path in files(crate, "rt"):
                cited, imported = read_rust(path, crate)
                self.roots |= cited
                self.named |= cited | imported
        self.seen = reached(self.definitions, self.cites, self.passed, self.roots)

    def add_antt(self, path, crate):
        found, scope = read_antt(path, crate)
        self.passed |= scope.passed
        self.named |= scope.targets()
        for it in found:
            name = f"{it.module}.{it.name}"
            self.definitions[name], self.cites[name] = it, set(scope.cited(it.text))
            self.named |= self.cites[name]
            if it.is_root():
                self.roots.add(name)
            for word in constructors(it.text) if "data" in it.words_before else ():
                self.definitions.setdefault(f"{it.module}.{word}", None)
                self.cites.setdefault(f"{it.module}.{word}", {name})

    def uncited(self, crate):
        """Yields a line for each definition of a crate that no root cites."""
        for name, it in self.definitions.items():
            if it and it.crate == crate and name not in self.seen:
                yield f"{path_of(it.module)}:{it.line}: {it.name} is not cited"

    def unimported(self, crate):
        """Yields a line for each name that the prelude of a crate re-exports for nobody."""
        module = f"Rattle.{crate}.specs.Prelude"
        for name in self.passed:
            if name.startswith(f"{module}.") and name not in self.named:
                yield f"{path_of(module)}: {name.removeprefix(f'{module}.')} is not imported"


def main(words):
    sources = Sources()
    found = [[*sources.uncited(it), *sources.unimported(it)] for it in words or crates()]
    for line in sum(found, []):
        print(line)
    failed = sum(map(len, found))
    print(f"{found.count([])} passed, {failed} failed")
    return int(failed > 0)


if __name__ == "__main__":
    sys.exit(main(sys.argv[1:]))
