#!/usr/bin/env python3
"""Compares the contracts of public functions with those of an earlier commit:

    tests/tools/contract_diff.py REV         for every library, the removed functions and the removed or added clauses
    tests/tools/contract_diff.py REV CRATE ..  for these crates

A clause is a `requires` or an `ensures` with its name and text, with white space normalized. A function is identified
by its crate, type and name. If it no longer exists, it is matched with a new function, in this order:

- one of another crate with the same type and name,
- one of the same crate with the same name,
- one of any crate with the same name.

There must be exactly one such function, or exactly one with the same clauses. The output is for review: for each
removed clause, another one must say as much, and each added `requires` needs a reason.
The last line counts the functions with equal clauses, with more, with others, and those removed or added.
"""

import glob
import os
import re
import subprocess
import sys

sys.path.insert(0, os.path.join(os.path.dirname(os.path.abspath(__file__)), "..", "harness"))
from workspace import ROOT, is_program, listed  # noqa: E402

FUNCTION = re.compile(r" *(pub )?(?:const )?(?:extern \S+ )?fn (\w+)")
BLOCK = re.compile(r"(?:pub )?(?:impl|trait)\b *(.*?) *\{?$")
CLAUSE = re.compile(r"(?:ensures|requires)\b")


def files_at(revision, crate):
    """Yields the source texts of a crate in the working directory, or at a commit. The directory is read without git,
    so that a copy of the repository without its history works too."""
    folder = f"crates/{crate}/src"
    if revision is None:
        for name in sorted(glob.glob(f"{ROOT}/{folder}/**/*.rt", recursive=True)):
            with open(name, encoding="utf-8") as it:
                yield it.read()
        return
    listing = ["git", "-C", ROOT, "ls-tree", "-r", "--name-only", revision, folder]
    for name in subprocess.run(listing, capture_output=True, text=True, check=True).stdout.split():
        yield subprocess.run(["git", "-C", ROOT, "show", f"{revision}:{name}"], capture_output=True, text=True,
                             check=True).stdout


def type_of(head):
    """Returns the type or the trait of a block, without its parameters."""
    bare = re.sub(r"^<[^>]*>\s*", "", head).partition(" for ")
    return re.sub(r"[<(].*", "", bare[2] or bare[0]).strip()


def clauses_of(lines):
    """Returns the clauses after the head of a function, up to its body, or up to its end if it has no body."""
    found, is_open = [], False
    for line in lines:
        text = line.strip()
        if is_open:
            found[-1] += " " + text
        elif CLAUSE.match(text):
            found.append(text)
        elif found or text in ("{", "{}", ";", "}") or text.endswith((" {", "}", ";")):
            break
        is_open = bool(found) and found[-1].count("{") > found[-1].count("}")
        if found and not is_open and text.endswith(";"):
            break
    return {re.sub(r"\s*;\s*(?=})|\s+", " ", it.removesuffix(";")).strip() for it in found}


def signature_of(lines):
    """Returns the head of a function without its clauses and its body, with white space normalized."""
    end = next(number for number, line in enumerate(lines)
               if CLAUSE.match(line.strip()) or line.strip().endswith(("{", "}", ";")))
    own = lines[: end + (not CLAUSE.match(lines[end].strip()))]
    return " ".join(" ".join(own).rstrip(" {}").split())


def functions(revision, crate):
    """Yields the functions of a crate that are public or of a trait, and those of an impl of a trait. For each, yields
    its type and name, whether it is of an impl of a trait, and the lines that begin with its head."""
    for text in files_at(revision, crate):
        block, is_trait, is_of_trait, lines = "", False, False, re.sub(r"^\s*//.*\n", "", text, flags=re.M).splitlines()
        for number, line in enumerate(lines):
            if line.startswith("}"):
                block, is_trait, is_of_trait = "", False, False
            elif (head := BLOCK.match(line)) and not line.startswith(" "):
                block, is_trait, is_of_trait = type_of(head[1]), "trait " in line, " for " in line
            elif (head := FUNCTION.match(line)) and (head[1] or is_trait or is_of_trait):
                yield (block, head[2]), is_of_trait, lines[number:]


def clauses_after(lines):
    """Returns the clauses of the function whose head begins these lines."""
    return clauses_of([] if lines[0].endswith(("{", "}")) else lines[1:])


def promises(revision, crate):
    """Returns the clauses of each public function and each function of a trait, by its type and name."""
    return {name: clauses_after(lines) for name, is_of_trait, lines in functions(revision, crate) if not is_of_trait}


def contracts(revision, crate):
    """Returns the functions that other crates can call, with their signatures and clauses, to compare those of two
    revisions."""
    return {(name, signature_of(lines), frozenset(clauses_after(lines)))
            for name, _, lines in functions(revision, crate)}


def libraries(revision):
    """Returns the libraries that crates.txt lists now, and those that it listed at a commit."""
    now = [it for it in listed() if not is_program(it)]
    lines = subprocess.run(["git", "-C", ROOT, "show", f"{revision}:crates.txt"], capture_output=True, text=True,
                           check=True).stdout.splitlines()
    earlier = [it.partition(":")[0].split()[0] for it in lines if it.strip() and not it.startswith("#")]
    return now + [it for it in earlier if it not in listed()]


def moved(crate, name, before, now):
    """Returns the new crate and name of a function that was moved or renamed, if exactly one new function matches. If
    several do, the one with the same clauses counts."""
    new = [(other, it) for other in now for it in now[other] if it not in before[other]]
    for is_it in (
        lambda other, it: other != crate and it == name,
        lambda other, it: other == crate and it[1] == name[1],
        lambda other, it: it[1] == name[1],
    ):
        found = [it for it in new if is_it(*it)]
        if len(found) > 1:
            found = [(other, it) for other, it in found if now[other][it] == before[crate][name]]
        if found:
            return found[0] if len(found) == 1 else None
    return None


def compare(crate, before, now, seen, counts):
    """Prints the changes of the functions of a crate, and counts them."""
    for name, clauses in sorted(before[crate].items()):
        place, title = ((crate, name) if name in now[crate] else moved(crate, name, before, now),
                        f"{crate} {'::'.join(filter(None, name))}")
        if place is None:
            counts["went"] += 1
            print(f"{title}: went")
            continue
        seen.add(place)
        title += f", now of {place[0]}" if place[0] != crate else ""
        promised = now[place[0]][place[1]]
        went, came = clauses - promised, promised - clauses
        counts["equal" if not went | came else "more" if not went else "others"] += 1
        if went | came:
            print(f"{title}:", *(f"  - {it}" for it in sorted(went)), *(f"  + {it}" for it in sorted(came)), sep="\n")


def main(words):
    if not words:
        raise SystemExit(__doc__)
    counts = dict.fromkeys(("equal", "more", "others", "went", "came"), 0)
    every = libraries(words[0])
    before, now = ({it: promises(revision, it) for it in every} for revision in (words[0], None))
    seen, wanted = set(), words[1:] or every
    for crate in wanted:
        compare(crate, before, now, seen, counts)
    counts["came"] = sum((crate, name) not in seen for crate in wanted for name in now[crate])
    print(", ".join(f"{number} {what}" for what, number in counts.items()))
    return 0


if __name__ == "__main__":
    sys.exit(main(sys.argv[1:]))
