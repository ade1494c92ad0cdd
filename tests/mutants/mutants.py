#!/usr/bin/env python3
"""Tries mutants of the code, several in one check: the prover must reject each.

    tests/mutants/mutants.py                     the edits of the gate, and the control, which has harmless edits too
    tests/mutants/mutants.py --all [CRATE ..]    all edits, and the control; or all edits of these crates
    tests/mutants/mutants.py CRATE ..            those of these crates that the prover must reject
    tests/mutants/mutants.py --control           the control alone
    tests/mutants/mutants.py --rows [CRATE ..]   those alone that rows detect
    tests/mutants/mutants.py --tests [CRATE ..]  those alone that tests of the programs detect

These try no edit:

    tests/mutants/mutants.py --types [CRATE ..]   checks that all edits are well typed
    tests/mutants/mutants.py --quotes [CRATE ..]  checks that each quotes a clause and applies, in a second
    tests/mutants/mutants.py --list [CRATE ..]    prints for each its function, the clause that rejects it, and its name

The edits of a crate are in the file tests/mutants/CRATE.edits, one after another. A line `= NAME` begins an edit.
The next line has what detects it. Then each of its parts has four lines:

    clause: 'after' of Link::on  the clause that rejects it; or, if no clause can reject it,
    rows: tests/vectors/rows/script/a_mebibyte.rows
                                 the rows that detect it, because it only reports allocation failures; or
    server: tests/system/sockets.py files
                                 or `client: ..`, `directory: ..`: the program that has it, and the test that then
                                 fails; or
    open: Server::status states nothing of it
                                 no clause is known to reject it, and the reason
    file: src/limits.rt          a file of the crate
    in: Limits::queue            a function of that file, as a check names it without crate and module (the impl of a
                                 trait for a type is both names in one, as SliceSinkSink::push), or `const NAME`
    old: self.queue              a text that is exactly once in the function's body, or in the constant
    new: self.max_sent           the text in its place

The gate tries the control, and edits of crates that differ from their last run, `make mutants` without an error
(changes.py). It takes the MOST_CRATES of these that were changed last, and MOST_IN_GATE edits, one of each crate in
turn. Edits of files that differ come first. The other crates are printed: a run of these is due. The gate fails if a
last run is more than 200 commits back. A crate without one counts as different.

In every mode, checks are made of all edits. First, the first line must quote a clause of the function that it names
(tests/mutants/quotes.py has the forms). That function must be one that the edit changes, or one that names a constant
that the edit changes. The table of layers in docs/TESTING.md must have the numbers of edits. Second, every edit must be
well typed; the gate leaves out the crates that have the types of their last runs. For this check, all edits of a crate
are put into one copy of the crate, or a few. A function that several
edits change has an edited copy for each. The copy of the crate also gets one type error, so that the compiler reports
all type errors and proves nothing.

An edit of the layer `rows` is detected if a row of the file that it names has another result. The probe is built
unproved with the edit (tests/harness/unproved.py). --all tries these too, each in its own build; --rows tries them
alone.

An edit of the layer `server`, `client` or `directory` is detected if its test fails with that program built unproved
with the edit. The test must pass with the program built in the same way without the edit
(tests/mutants/program_tests.py). --all tries these too, each in one to three minutes, side by side; --tests tries them
alone.

An edit of the layer `open` is a known gap. Either the contract is too weak, or the edit takes away a name that the
proof cites. --all tries it with those of `clause`. It must not be rejected. The open edits are listed at the end, and
do not count as passed. If a clause rejects one, the run fails until its first line quotes that clause.

Edits of different functions go into one copy of the crate, called a round. A round is checked once, on top of the
incremental data of earlier checks. These are the data of the crate's own check in out/incremental. If there are none,
a folder of this run is used. The first round of the crate fills it from scratch, and the second one completes it.

An edit is rejected if a goal of a function that it changes is not proved; this goal is printed. Two kinds of errors do
not count:

- The function calls another one that is not proved.
- An error in a proof file is outside of the answers to goals, or only reports that a name is missing (verdicts.py).
  Such an error says nothing about the contract, so the edit is reported as NOT REFUSED.

If a function that no edit of a round changes has an unproved goal of its own, the round is split in two. An edit that
no round rejected is tried alone. So is an edit of a constant, for which a goal of any function counts, and any lemma.
Rounds run in parallel, one for each processor, those of the largest crates first. The libraries below a crate are taken
from out/rlib, and proved if they are missing or older than their files. The last line is 'N passed, M failed', and the
status is 0 if M is 0.

A whole run takes about 11 s of processor time for each edit, and 85 minutes on four processors, beside other work. A
round takes about 15 s before its first edit. Each edit adds 3 to 4 s, and up to 15 s in coap_serve. Without incremental
data, the first round of a crate also proves the functions that it changes, and those that they call. MOST_IN_GATE edits
of a few crates then take 350 s. The proof of coap_wire takes 160 s on that machine.

A test that measures processor time may fail with an unproved program without any edit, and then says nothing about the
edit.
"""

import collections
import os
import resource
import sys
from dataclasses import dataclass, field
from itertools import zip_longest

sys.path.insert(0, os.path.join(os.path.dirname(os.path.abspath(__file__)), "..", "harness"))
import changes  # noqa: E402
from detections import judge_by_rows, judge_by_tests  # noqa: E402
from edit_errors import tell_not_applied, tell_wrong_counts, tell_wrong_quotes  # noqa: E402
from edit_files import PROGRAMS, edits_of  # noqa: E402
from edit_types import tell_wrong_types  # noqa: E402
from libraries import make_libraries  # noqa: E402
from rounds import judge, rounds_of  # noqa: E402
from workspace import ROOT, crates  # noqa: E402

MODES = {"--all", "--control", "--list", "--quotes", "--rows", "--tests", "--types"}
# Maximum number of edits that the gate tries beside the control, and of the crates that have them.
MOST_IN_GATE = 50
MOST_CRATES = 8


def is_wrong(edit, refused):
    """Returns true if this verdict on an edit is wrong. Those of the control named harmless_, and those that are open,
    must not be rejected, and all others must. An open edit must also be one that could be tried."""
    if edit.layer == "open":
        return refused is not False
    return bool(refused) == (edit.layer == "control" and edit.name.startswith("harmless_"))


@dataclass
class Plan:
    """The edits that a run tries: the control, and others by what detects them. It checks the types of `typed`."""

    control: list = field(default_factory=list)
    by_clauses: list = field(default_factory=list)
    by_rows: list = field(default_factory=list)
    by_tests: list = field(default_factory=list)
    typed: list = field(default_factory=list)

    def run(self, ended):
        """Tries the edits, those of clauses last, and returns the verdict on each. Calls `ended` with the verdicts so
        far whenever all edits of a crate have been tried."""
        others = judge_by_rows(self.by_rows) | judge_by_tests(self.by_tests)
        ended(others)
        return others | judge(self.control + self.by_clauses, lambda found: ended(others | found))

    def passed_crates(self, verdicts):
        """Returns the number of edits of each crate of which each edit was tried and none has a wrong verdict. If the
        control was not tried yet, or has a wrong verdict, there is no such crate."""
        is_right = {it: not is_wrong(it, refused) for it, refused in verdicts.items()}
        if not all(is_right.get(it) for it in self.control):
            return {}
        edits = self.by_clauses + self.by_rows + self.by_tests
        counts = collections.Counter(it.crate for it in edits)
        return {crate: count for crate, count in counts.items()
                if all(is_right.get(it) for it in edits if it.crate == crate)}


def in_turn_from_each(edits, changed, files):
    """Returns the edits, one of each crate in turn. In a crate, edits of different functions come first; among them
    those that are `changed`, by crate and name, and then those of these files."""
    order, names = {}, dict.fromkeys(it.crate for it in edits)
    for name in names:
        own = [it for it in edits if it.crate == name]
        own.sort(key=lambda it: ((it.crate, it.name) not in changed, files.isdisjoint(it.files())))
        order[name] = [it for one in rounds_of(own) for it in one]
    return [it for one in zip_longest(*order.values()) for it in one if it]


def last_runs():
    """Returns the commit of the last run of each crate that had one. Ends the run if one is too old or unknown."""
    try:
        return changes.last_runs()
    except changes.BadRun as why:
        raise SystemExit(f"{changes.LAST_RUNS} {why}: run `make mutants`, and commit that file\n"
                         "0 passed, 1 failed") from None


def gate_edits(edits, runs):
    """Returns the edits that the gate tries after these runs, at most MOST_IN_GATE. They are of the MOST_CRATES crates
    that differ and were changed last."""
    every = {it.crate for it in edits}
    names = [it for it in changes.differing(runs) if it in every]
    tried = names[:MOST_CRATES]
    order = [edit for name in tried for edit in edits if edit.crate == name]
    chosen = in_turn_from_each(order, changes.changed_edits(runs), changes.changed_files(runs))[:MOST_IN_GATE]
    print(f"{len(chosen)} edits are tried, of {', '.join(tried) or 'no crate'}", flush=True)
    if rest := names[MOST_CRATES:]:
        print(f"Not tried, but different from their last runs: {', '.join(rest)}; `make mutants` tries these",
              flush=True)
    return chosen


def planned(modes, names, whole):
    """Returns the plan of a run with these modes, for these crates or for all."""
    control = [] if names else edits_of(f"{ROOT}/tests/mutants/control", crates())
    alone = modes & {"--control", "--rows", "--tests", "--types"}
    plan = Plan()
    if not alone - {"--control"}:
        plan.control = control
    if not alone:
        plan.by_clauses = [it for it in whole if it.layer in ("clause", "open")]
    if "--all" in modes or "--rows" in modes:
        plan.by_rows = [it for it in whole if it.layer == "rows"]
    if "--all" in modes or "--tests" in modes:
        plan.by_tests = [it for it in whole if it.layer in PROGRAMS]
    if not alone - {"--types"}:
        plan.typed = whole + [it for it in control if it.detected_by != "does not compile"]
    if not modes and not names:
        runs = last_runs()
        plan.by_clauses = gate_edits([it for it in plan.by_clauses if it.layer == "clause"], runs)
        retyped = changes.retyped(runs)
        plan.typed = [it for it in plan.typed if it.layer == "control" or it.crate in retyped]
    return plan


def cost():
    """Returns a text with the cost of the processes that have ended."""
    used = resource.getrusage(resource.RUSAGE_CHILDREN)
    return (f"{used.ru_utime + used.ru_stime:.0f} s of processor time, and at most {used.ru_maxrss // 1000} MB in a "
            "process")


def conclude(plan, verdicts, wrong):
    """Prints wrong verdicts, the edits that are open, and the cost. `wrong` is the number of errors in quotes, counts
    and types. Returns the number of all errors, and the last line of the run."""
    failed = [it for it, refused in verdicts.items() if is_wrong(it, refused)]
    for it in failed:
        print(f"wrong verdict on {it.crate}/{it.name} ({it.layer}: {it.detected_by})")
    opened = [it for it in verdicts if it.layer == "open" and it not in failed]
    for it in opened:
        print(f"open: {it.crate}/{it.name}: {it.detected_by}")
    print(cost())
    passed = (len(verdicts) or len(plan.typed)) - len(opened)
    errors = len(failed) + wrong
    return errors, f"{max(passed - errors, 0)} passed, {errors} failed"


def main(words):
    below = crates()
    modes, names = {it for it in words if it.startswith("--")}, [it for it in words if not it.startswith("--")]
    if unknown := (modes - MODES) | (set(names) - below.keys()):
        raise SystemExit(f"no crate {min(unknown)}\n0 passed, 1 failed")
    if strange := {it for it, _ in changes.edits_now()} - below.keys():
        raise SystemExit(f"{changes.EDITS}/{min(strange)}.edits is of no crate\n0 passed, 1 failed")
    every = edits_of(f"{ROOT}/{changes.EDITS}", names or below)
    unquoted = tell_wrong_quotes(every)
    miscounted = 0 if names else tell_wrong_counts(every)
    if modes & {"--list", "--quotes"}:
        unquoted += tell_not_applied(every)
    if "--list" in modes:
        print("\n".join("  ".join(it) for it in sorted(it.row() for it in every)))
        return 1 if unquoted + miscounted else 0
    if "--quotes" in modes:
        print(f"{len(every) - unquoted} passed, {unquoted + miscounted} failed")
        return 1 if unquoted + miscounted else 0
    is_recorded = modes == {"--all"}
    commit = changes.unchanged_head() if is_recorded else ""
    plan = planned(modes, names, every)
    make_libraries(dict.fromkeys(it.crate for it in plan.control + plan.by_clauses + plan.typed), below)
    untyped = tell_wrong_types(plan.typed)
    quoting = sum(it.layer == "clause" for it in every)
    types_of = f", and {len(plan.typed) - untyped} of {len(plan.typed)} are well typed" if plan.typed else ""
    print(f"{quoting - unquoted} of {quoting} edits quote a clause{types_of}", flush=True)
    if plan.control:
        print("The edits named harmless_ are a control, and must be reported as NOT REFUSED.", flush=True)
    wrong = unquoted + untyped + miscounted
    record = changes.Record(commit) if is_recorded and not wrong else None
    verdicts = plan.run(lambda found: record and record.add(plan.passed_crates(found)))
    failed, result = conclude(plan, verdicts, wrong)
    print(result)
    return 1 if failed else 0


if __name__ == "__main__":
    sys.exit(main(sys.argv[1:]))
