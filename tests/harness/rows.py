#!/usr/bin/env python3
"""Plays files of rows on the probe, which is a proved program, and compares the results.

    tests/harness/rows.py [--by-rattle | --unproved=FOLDER] [--refuse [--write]] [FILE..]

A file is tests/vectors/rows/LAYER/NAME.rows. Its lines are rows `EVENT => WANTED`. A line `= OPENING` creates the value
that the rows after it use. A line `#` is a comment. The module tests/harness/layers/LAYER.py describes the words of the
rows of a layer, and converts them for the probe. Bytes may be written as text and as messages in words
(tests/harness/message_syntax.py).

--by-rattle plays the rows on the programs as Rattle's own compiler made them, and --unproved on those that
tests/harness/unproved.py built in a folder.

--refuse makes each allocation of each file fail in turn. The row in which the allocation fails must report `memory`.
All queries (`LOOKS` of the layer) must return the same results as before. The row is then repeated, and from there on
the later results on this value must be as in the file. A failure that no row reports must change nothing. A line
`allocations: N` in the file is the number of allocations. If N is not a number, it is the reason why the allocations
are not made to fail. Over all files, the failures of each call are counted. tests/vectors/allocations.md must have
these counts; --write writes them there. (A line `cuts:` is the reason why tests/vectors/segmentation.py does not split
the input of a file of servers.)

A contract cannot forbid that a call reports an allocation failure without cause. Therefore these files run each call
that can report one, at each of its limits and with enough memory:

    takes_the_greatest.rows of frame, queue, link, store, serve, door and run
    serve/stores_the_greatest.rows, serve/maximum_limits.rows, stdio/serves_the_greatest.rows
    client/the_greatest.rows, client/announces.rows, calls/announces.rows, script/a_mebibyte.rows
    words/greatest_words.rows, target/long.rows

tests/system/alloc_failures.py does the same for the programs.

The last line is 'N passed, M failed', for the rows or for the failed allocations. The status is 0 if M is 0.
"""

import functools
import importlib
import itertools
import os
import pathlib
import re
import struct
import subprocess
import sys
import tempfile
from collections import Counter
from concurrent.futures import ThreadPoolExecutor
from dataclasses import dataclass, field

import allocations
from commands import preloaded
from workspace import program_name

HARNESS = pathlib.Path(__file__).resolve().parent
ROOT = HARNESS.parent.parent
ROWS = ROOT / "tests" / "vectors" / "rows"

# The crate of the probe.
PROBE = "test_rows"

# Matches a result that reports an allocation failure.
MEMORY = re.compile(r"\bmemory\b", re.IGNORECASE)


@dataclass
class RowFile:
    """A file of rows: its values, each an opening and the rows after it, and its lines `allocations:` and `cuts:`."""

    path: pathlib.Path
    allocations: str = ""
    cuts: str = ""
    values: list = field(default_factory=list)

    def name(self):
        return f"{self.path.parent.name}/{self.path.stem}"

    @functools.cached_property
    def layer(self):
        return importlib.import_module(f"layers.{self.path.parent.name}")

    def steps(self):
        return [step for opening, rows in self.values for step in self.layer.steps(opening, rows)]


def read(path):
    """Returns the content of a file of rows."""
    file = RowFile(path)
    for line in path.read_text(encoding="utf-8").splitlines():
        if line.startswith("allocations: "):
            file.allocations = line.partition(": ")[2]
        elif line.startswith("cuts: "):
            file.cuts = line.partition(": ")[2]
        elif line.startswith("= "):
            file.values.append((line[2:], []))
        elif line and not line.startswith("#"):
            file.values[-1][1].append(line)
    return file


def folder_of(flags):
    """Returns the folder of the unproved programs that `--unproved=FOLDER` names, or an empty text."""
    return next((it.partition("=")[2] for it in flags if it.startswith("--unproved=")), "")


def probe_of(ending="", folder=""):
    """Returns the path of the probe: as proved, for one compiler, or as built unproved in a folder."""
    return f"{folder}/{program_name(PROBE)}" if folder else f"{ROOT}/crates/{PROBE}/out/{PROBE}{ending}"


@dataclass
class Ran:
    """A run of a probe: its lines, whether it ended normally, and whether an allocation failed."""

    lines: list
    ended: bool
    refused: bool


def input_of(events):
    return "".join(event + "\n" for event in events).encode()


def run(probe, events):
    """Runs the probe on these events."""
    ran = subprocess.run([probe], input=input_of(events), capture_output=True, timeout=600)
    return Ran(ran.stdout.decode().splitlines(), ran.returncode == 0, False)


class Forks:
    """A probe that is started once and runs in forks, in which allocations fail. Ends with its block."""

    def __init__(self, probe, shim):
        folder = tempfile.mkdtemp(dir=os.path.dirname(shim))
        environment = {**os.environ, "LD_PRELOAD": shim, "REFUSE_RUNS": folder}
        self.files = [open(f"{folder}/{it}", "w+b", buffering=0) for it in ("in", "out", "err")]
        self.process = subprocess.Popen([probe], env=environment, stdin=subprocess.PIPE, stdout=subprocess.PIPE)

    def __enter__(self):
        return self

    def __exit__(self, *_):
        self.process.communicate()
        for file in self.files:
            file.close()

    def run(self, events, number=0):
        """Runs the probe on these events. The allocation with this number fails, unless the number is 0."""
        given, *results = self.files
        given.seek(0)
        given.truncate()
        given.write(input_of(events))
        self.process.stdin.write(struct.pack("=q", number))
        self.process.stdin.flush()
        (status,) = struct.unpack("=i", self.process.stdout.read(4))
        written, said = (os.pread(it.fileno(), os.fstat(it.fileno()).st_size, 0) for it in results)
        return Ran(written.decode().splitlines(), status == 0, said.endswith(b"refused\n"))


def differences(found, steps):
    """Returns a text for each row whose result is not the expected one."""
    wrong = []
    for line, step in zip(found, steps):
        if line == step.right:
            continue
        try:
            text = step.reported(line)
        except (AttributeError, ValueError, IndexError, KeyError):
            # A line of another form, such as `memory`.
            text = line
        if text == step.wanted:
            step.right = line
        else:
            wrong.append(f"{step.event[:120]}\n    wanted {step.wanted[:300]}\n    found  {text[:300]}")
    return wrong + [f"{step.event[:120]}\n    no line" for step in steps[len(found) :]]


def play(file, probe):
    """Plays a file on a probe, and returns the number of its rows and the differences."""
    steps = file.steps()
    return len(steps), differences(run(probe, [step.event for step in steps]).lines, steps)


def looks_of(file):
    """Returns the first words of the events of a layer that are queries."""
    return getattr(file.layer, "LOOKS", ())


def again_of(file):
    """Returns the function of a layer that gives the event to repeat after a failure. By default that is the whole
    event."""
    return getattr(file.layer, "again", lambda probe, events, index, found: events[index])


def sections(file):
    """Returns lists of steps that do not depend on each other. Each has an opening and the steps on its value. If the
    layer says `ALONE`, each has one of these at most."""
    found, opening = [], None
    for step in file.steps():
        if step.event.startswith("= "):
            opening = step
            found.append([step])
        elif getattr(file.layer, "ALONE", False):
            found.append([opening, step])
        else:
            found[-1].append(step)
    return found


class Refusing:
    """Steps that depend on each other, of which each allocation fails in turn. The first step is an opening."""

    def __init__(self, file, forks, steps):
        self.file, self.forks, self.steps, self.befores = file, forks, steps, {}
        self.events = [it.event for it in steps]
        self.usual = forks.run(self.events).lines
        # The events that query the value.
        self.looks = list(dict.fromkeys(it for it in self.events if it.split(" ")[0] in looks_of(file)))

    def before(self, index, looks):
        """Returns the lines of queries before a step."""
        if index not in self.befores:
            self.befores[index] = self.forks.run(self.events[:index] + looks).lines[index:]
        return self.befores[index]

    def struck_again(self, found, index, number):
        """Repeats the event in which an allocation failed. Returns the repeated event and the differences."""
        events, steps, step, looks = self.events, self.steps, self.steps[index], self.looks if index else []
        again = again_of(self.file)(lambda more: self.forks.run(more, number).lines, events, index, found)
        before = self.before(index, looks)
        between = looks + [it.event for it in step.meanwhile]
        lines = self.forks.run(events[: index + 1] + between + [again] + events[index + 1 :], number).lines
        later = index + 1 + len(between)
        after, rest = lines[index + 1 : index + 1 + len(looks)], lines[:index] + lines[later:]
        if again != events[index]:
            # Only a part of the event is repeated. Its line has less, and the bytes kept differ.
            rest[index], before, after = found[index], [], []
            steps = steps[:index] + [type(step)(again, found[index].strip())] + steps[index + 1 :]
        wrong = [] if after == before else [f"{events[index][:120]}: {before} became {after}"]
        wrong += differences(lines[index + 1 + len(looks) : later], step.meanwhile)
        judge = getattr(self.file.layer, "struck", lambda step, line, again, line_again: [])
        wrong += judge(step, lines[index], again, lines[later])
        return again, wrong + differences(rest, steps)

    def strike(self, number):
        """Makes the allocation with this number fail. Returns the entry of the failed call and the differences, or
        `None` if there are fewer allocations."""
        ran = self.forks.run(self.events, number)
        if not ran.refused:
            return None
        index = next((at for at, (line, before) in enumerate(zip(ran.lines, self.usual)) if line != before), None)
        if index is None:
            return allocations.UNREPORTED, []
        again, wrong = self.struck_again(ran.lines, index, number)
        if not MEMORY.search(ran.lines[index]):
            wrong.insert(0, f"{self.events[index][:120]}: the failure is not reported: {ran.lines[index][:120]}")
        return self.file.layer.refused(self.events[index], ran.lines[index], again), wrong


def refuse_each(file, probe, shim):
    """Makes each allocation of the rows of a file fail in turn. Returns the differences, and the count for each
    call."""
    wrong, calls, opening = [], Counter(), None
    with Forks(probe, shim) as forks:
        # The first allocations are those of the probe itself, before the first row.
        first = next(it for it in itertools.count(1) if forks.run([], it).ended)
        for steps in sections(file):
            refusing = Refusing(file, forks, steps)
            number = begun if steps[0] is opening else first
            while (struck := refusing.strike(number)) is not None:
                calls[struck[0]] += 1
                wrong += [f"allocation {calls.total()}: {text}" for text in struck[1]]
                number += 1
            if len(steps) == 1:
                # Later sections with this opening do not make its allocations fail again.
                opening, begun = steps[0], number
    return wrong, calls


def refuse(file, probe, shim):
    """Makes each allocation of a file fail, and checks their number against the line `allocations:`."""
    if not file.allocations.isdigit():
        return 0, [] if file.allocations else ["the line `allocations:` is missing"], Counter()
    wrong, calls = refuse_each(file, probe, shim)
    if calls.total() != int(file.allocations):
        wrong.append(f"{calls.total()} allocations, but `allocations: {file.allocations}`")
    return calls.total(), wrong, calls


def main(words):
    flags, named = [it for it in words if it.startswith("--")], [it for it in words if not it.startswith("--")]
    files = [read(pathlib.Path(it).resolve()) for it in named] or [read(it) for it in sorted(ROWS.glob("*/*.rows"))]
    with tempfile.TemporaryDirectory(prefix="rows-") as room, ThreadPoolExecutor(len(os.sched_getaffinity(0))) as pool:
        shim = preloaded("fail_malloc", room) if "--refuse" in flags else ""
        probe = probe_of(".by-rattle" if "--by-rattle" in flags else "", folder_of(flags))
        results = pool.map(lambda it: refuse(it, probe, shim) if shim else (*play(it, probe), Counter()), files)
        count, failed, calls = 0, 0, Counter()
        for file, (rows, wrong, refused) in zip(files, results):
            count, failed, calls = count + rows, failed + len(wrong), calls + refused
            for text in wrong[:3]:
                print(f"{file.name()}: {text}")
            if len(wrong) > 3:
                print(f"{file.name()}: and {len(wrong) - 3} more")
    if shim and not named:
        wrong = allocations.compared(calls, flags)
        failed += len(wrong)
        print("".join(f"{text}\n" for text in wrong), end="")
    print(f"{max(count - failed, 0)} passed, {failed} failed")
    return 1 if failed else 0


if __name__ == "__main__":
    sys.path.insert(0, str(HARNESS))
    sys.exit(main(sys.argv[1:]))
