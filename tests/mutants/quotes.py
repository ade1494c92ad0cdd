"""Reads the contracts of functions from the sources, and checks that a function has the clause that an edit of
tests/mutants quotes.

The first line of an edit quotes in one of these forms. `..` in a quoted text matches any words:

    'after' of Link::on        a clause by its name: of the function, of the trait's method that it implements, or of
                               the impl
    'a', 'b' and 'c' of Server::take
                               several of these
    "result ≡ free_in self.now" of Link::free
                               words of a clause
    the invariant of T in F    T has an invariant, which the function F must keep
    the condition of G in F    G has a `requires`, and the function F calls it
"""

import functools
import os
import re
import sys
from dataclasses import dataclass

sys.path.insert(0, os.path.join(os.path.dirname(os.path.abspath(__file__)), "..", "harness"))
from workspace import ROOT, crates  # noqa: E402

FUNCTION = re.compile(r"( *)(?:pub(?:\([a-z ]+\))? )?(?:const )?(?:extern \S+ )?fn (\w+)")
CLAUSE = re.compile(r" *(?:requires|ensures|ghost)\b")
CLAUSES = re.compile(r" (?=(?:requires|ensures|ghost)\b)")
QUOTED = re.compile(r"'(\w+)'|\"([^\"]*)\"")


@dataclass
class Contract:
    """The contract of a function: its head with its clauses, its body, and the ghost items of its impl or trait."""

    file: str
    head: str
    body: str
    block: str
    # The method of a trait that the function implements, or an empty text.
    implements: str = ""


def joined(text):
    """Returns a text with its white space normalized."""
    return " ".join(text.split())


def head_of(lines):
    """Returns the number of lines of the head of a function. The head ends with the line that opens the body, or with
    the function."""
    depth, has_clause = 0, False
    for number, line in enumerate(lines):
        text = line.strip()
        has_clause = has_clause or bool(CLAUSE.match(line))
        if not depth and (text in ("{", "{}") or (not has_clause and text.endswith(("{", "{}", "}")))):
            return number + (text not in ("{", "{}"))
        depth += line.count("{") - line.count("}") if has_clause else 0
        if not depth and text.endswith(";"):
            return number + 1
    return len(lines)


def end_of(lines, indent):
    """Returns the number of lines of a function, with its body."""
    return next((number + 1 for number, line in enumerate(lines) if number and line == indent + "}"), len(lines))


def contracts_in(file, text, name_of_block):
    """Returns the contracts of the functions of a file, by the name under which a check names them."""
    found, block, says, trait, of = [], "", [], "", ""
    lines = [it for it in text.splitlines() if not it.strip().startswith("//")]
    for number, line in enumerate(lines):
        if re.match(r"(pub )?(impl|trait)\b", line):
            block, says = name_of_block(line.rstrip()) + "::", []
            of_trait = re.match(r"impl(?:<.*?>)? (\w+)(?:<.*>)? for (\w+)", line)
            trait, of = of_trait.groups() if of_trait else ("", "")
        elif line.startswith("}"):
            block, says, trait, of = "", [], "", ""
        elif block and re.match(r"    ghost \w+", line):
            rest = lines[number:]
            says.append("\n".join(rest[: 1 + next(at for at, it in enumerate(rest) if it.rstrip().endswith(";"))]))
        elif head := FUNCTION.match(line):
            rest = lines[number:]
            size = head_of(rest)
            body = "" if rest[size - 1].rstrip().endswith(";") else "\n".join(rest[size : end_of(rest, head[1])])
            inside = block if head[1] else ""
            implements = f"{trait}::{head[2]}" if trait and head[1] else ""
            contract = Contract(file, "\n".join(rest[:size]), body, "", implements)
            # A method of a trait is also known by its type alone, and a function by its module.
            own = f"{of}::{head[2]}" if implements else f"{os.path.basename(file).removesuffix('.rt')}::{head[2]}"
            found.append(({inside + head[2], own} if implements or not inside else {inside + head[2]}, contract, says))
    for _, contract, says in found:
        contract.block = "\n".join(says)
    return [(name, contract) for names, contract, _ in found for name in names]


def sources_of(folder):
    """Yields the source files below a folder, by their names in it."""
    for at, _, names in os.walk(folder):
        for name in sorted(it for it in names if it.endswith(".rt")):
            with open(f"{at}/{name}", encoding="utf-8") as it:
                yield os.path.relpath(f"{at}/{name}", os.path.dirname(folder)), it.read()


@functools.cache
def contracts_of(crate, name_of_block):
    """Returns the contracts of the functions of a crate, by name."""
    found = {}
    for file, text in sources_of(f"{ROOT}/crates/{crate}/src"):
        for name, contract in contracts_in(file, text, name_of_block):
            found.setdefault(name, []).append(contract)
    return found


@functools.cache
def invariants_of(crate):
    """Returns the types of a crate, and of those below it, that have an invariant, or ghost fields."""
    texts = [text for it in [crate, *crates()[crate]] for _, text in sources_of(f"{ROOT}/crates/{it}/src")]
    blocks = (re.split(r"^(?:impl(?:<.*?>)? Model for|pub struct) (\w+).*\{$", it, flags=re.MULTILINE) for it in texts)
    said = re.compile(r"^    ghost (?:invariant\b|\w+: )", re.MULTILINE)
    return {name for it in blocks for name, body in zip(it[1::2], it[2::2]) if said.search(body.split("\n}\n")[0])}


class Quotes:
    """The clauses of a crate and of those below it, as edits quote them."""

    def __init__(self, crate, name_of_block):
        self.crate, self.name_of_block = crate, name_of_block

    def contracts(self, name, files=()):
        """Returns the contracts of a function with this name in these files of the crate. If there are none, returns
        those of the crate, and otherwise those of the crates below it."""
        for crate in [self.crate, *reversed(crates()[self.crate])]:
            found = contracts_of(crate, self.name_of_block).get(name, [])
            if found:
                here = [it for it in found if crate == self.crate and it.file in files]
                return here or found
        return []

    def clauses(self, name, files=()):
        """Yields the texts with the clauses of a function: its own head, that of its trait, and the ghost items of its
        impl."""
        for contract in self.contracts(name, files):
            yield contract.head[contract.head.index("fn ") :]
            yield contract.block
            for method in self.contracts(contract.implements):
                yield method.head
                yield method.block

    def has(self, quote, name, files):
        """Returns true if a function has a clause with this name or with these words."""
        label, words = quote
        if label:
            clause = rf"\b(?:(?:requires|ensures)\*? {label} \{{|ghost {label} =)"
        else:
            clause = ".*?".join(re.escape(joined(it)) for it in words.split(".."))
        return any(re.search(clause, one) for it in self.clauses(name, files) for one in CLAUSES.split(joined(it)))

    def why_not(self, refusal, files):
        """Returns why the first line of an edit quotes no clause of the function that it names, or an empty text."""
        if said := re.fullmatch(r"the invariant of (\w+),? (?:in|of) ([\w:]+)", refusal):
            if said[1] not in invariants_of(self.crate):
                return f"{said[1]} has no invariant"
            return "" if self.contracts(said[2], files) else f"there is no function {said[2]}"
        if said := re.fullmatch(r"the condition of ([\w:]+),? in ([\w:]+)", refusal):
            if not any(re.search(r"\brequires\b", it) for it in self.clauses(said[1])):
                return f"{said[1]} has no condition"
            calls = re.compile(rf"\b{said[1].rpartition(':')[2]}(?:::<[^()]*>)?\(")
            return ("" if any(calls.search(it.body) for it in self.contracts(said[2], files))
                    else f"{said[2]} does not call {said[1]}")
        said = re.fullmatch(r"((?:'\w+'(?:, | and )?)+|\"[^\"]+\") of ([\w:]+)", refusal)
        if not said:
            return f"not understood: {refusal}"
        if not self.contracts(said[2], files):
            return f"there is no function {said[2]}"
        missing = [it[0] or it[1] for it in QUOTED.findall(said[1]) if not self.has(it, said[2], files)]
        return f"{said[2]} has no clause {missing[0]}" if missing else ""
