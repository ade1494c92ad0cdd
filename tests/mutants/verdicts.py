"""Reads the output of a check: the goals of each function that are not proved.

An answer to a goal may fail because the edited code lacks a name that the answer cites. The prover reports this in
several forms (GONE). None of them says anything about the contract. The control has an edit for each form, which means
the same as the code.

An answer may also fail because a name now means another value: if the first of two calls is removed, its name means the
second. This looks like any other error. So an edit keeps the number and the order of calls, or its clause is checked by
hand.
"""

import os
import re
import sys

sys.path.insert(0, os.path.join(os.path.dirname(os.path.abspath(__file__)), "..", "harness"))
from workspace import ROOT  # noqa: E402

VERDICT = re.compile(r"fn (\w+)::(.*?): (no proof|not proved)(.*)")
# Matches an error in a proof file that says nothing about the contract. The proof names a field, a goal or an import
# that the edited code does not have. Or it has no case for a new way through the code. Or it cites a statement that has
# an error of its own.
GONE = re.compile(
    r": error: (?:`[^`]*`: )*(?:"
    r"(?:record|module) `[^`]*`(?: \(nearest: [^)]*\))? has no "
    r"|`[^`]*` is not in scope"
    r"|\d+ declarations? that depends? on `[^`]*`, which was not admitted"
    r"|write the case `)"
)
# The place of an error in the proofs of a crate, and the statement at that place: an answer to a goal, or a lemma.
PLACE = re.compile(r"\./(proofs/[^:]+\.antt):(\d+)\b.*: error: ")
STATED = re.compile(r"(?:pub |abbrev |unfoldable )*(\S+) : (?:goal\.(\S+))?")


def messages(output):
    """Returns the messages of a check, each in one line. A line that begins with two spaces continues the message above
    it."""
    found = []
    for line in output:
        if line.startswith("  ") and found:
            found[-1] += " " + line.strip()
        else:
            found.append(line)
    return found


def reported(path):
    """Returns the name of a function that is unique in its crate.

    For a function of a type, this is the name of the type and its own name. (A check names it by the module of the
    type, not by that of the impl.) For another function it is its path, and for a closure that of the function around
    it.
    """
    path = [it for it in path if it]
    if "fn" in path:
        inside = path.index("fn")
        path = path[:inside] + path[inside + 1 : inside + 2]
    is_method = len(path) > 1 and path[-2][0].isupper()
    return "::".join(path[-2:] if is_method else path)


def is_real(message):
    """Returns true if a message is an error that is not merely caused by a missing or rejected name."""
    return ": error: " in message and not GONE.search(message)


def goal_at(name, message):
    """Returns the goal whose answer has an error of a crate's proofs, or the lemma whose proof has it. Returns an empty
    text for an error elsewhere, such as in an import of a missing name."""
    at = PLACE.match(message)
    if not at:
        return ""
    with open(f"{ROOT}/crates/{name}/{at[1]}", encoding="utf-8") as it:
        above = it.read().splitlines()[: int(at[2])]
    if above[-1].startswith("use "):
        return ""
    stated = next((found for it in reversed(above) if (found := STATED.match(it))), None)
    return (stated[2] or stated[1]) if stated else ""


def open_functions(name, lines):
    """Returns the functions that have an unproved goal of their own, each with the goals that are named. Also returns
    those whose only error is a missing name in a proof file. A goal of a closure counts for the function around it."""
    goals, cites = {}, set()
    for line in lines:
        at = VERDICT.match(line)
        if not at:
            continue
        answers = "./proofs/" + at[2].replace("::", "/") + "/"
        said = [it for it in lines if it.startswith(answers) and ": error: " in it]
        unproved = re.findall(r"`([^`]+)`", at[4].partition("did not prove")[2])
        named = unproved + [goal for it in filter(is_real, said) if (goal := goal_at(name, it))]
        if named:
            goals.setdefault(reported(at[2].split("::")), []).extend(named)
        elif said:
            cites.add(reported(at[2].split("::")))
    return goals, cites - goals.keys()


def all_functions(lines):
    """Returns the functions that the check names."""
    found = (re.match(r"fn \w+::(.*?): ", it) for it in lines)
    return {reported(it[1].split("::")) for it in found if it}
