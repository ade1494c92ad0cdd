#!/usr/bin/env python3
"""Plays the rows of runs over one input and one output on the server's program.

    tests/vectors/stdio.py PROGRAM [FILE..]

A file is tests/vectors/rows/stdio/NAME.rows. Each run is `PROGRAM --stdio` with the options for its settings. A
preloaded library (tests/harness/devices.c) sets up the devices and records their calls. A run with a setting for which
the program has no option is left out. The program does not report the reason for the end of a connection, nor its
numbers of bytes and messages. These are checked with the probe (tests/harness/rows.py). The last line is 'N passed, M
failed' for the runs, and the status is 0 if M is 0.
"""

import os
import pathlib
import subprocess
import sys
import tempfile
from concurrent.futures import ThreadPoolExecutor

sys.path.insert(0, os.path.join(os.path.dirname(os.path.abspath(__file__)), "..", "harness"))
import rows  # noqa: E402
from commands import preloaded  # noqa: E402
from layers import stdio  # noqa: E402

OPTIONS = {"max": "--max-message", "sent": "--max-sent", "queue": "--queue", "connections": "--connections",
           "dynamic": "-d", "turns": "--turns"}

DEVICES = {"by": "READ_BY", "read-fails": "READ_FAILS", "taking": "WRITE_TAKING", "room": "WRITE_ROOM",
           "write-fails": "WRITE_FAILS"}

FAULTS = {"Err(Read)": "cannot read", "Err(Write)": "cannot write", "Err(Turns)": "too many turns"}

# Value that stands for no limit.
MUCH = 1 << 40


def environment_of(said, shim):
    """Returns the environment with the variables that set up the devices."""
    set_ = {DEVICES[name]: str(min(value, MUCH)) for name, value in said.items() if name in DEVICES}
    if "cut" in said:
        set_["READ_CUTS"] = f"{said['cut']} {said['cut-again']}"
    return {**os.environ, **set_, "LD_PRELOAD": shim}


def played(program, shim, run):
    """Runs the program. Returns the recorded calls of its devices, its status, its output and its error output."""
    words = [word for name, value in run.said.items() if name in OPTIONS for word in (OPTIONS[name], str(value))]
    # The input is a file, since a read of a pipe may return a part of it.
    with tempfile.TemporaryFile() as reported, tempfile.TemporaryFile() as sent:
        sent.write(run.sent)
        sent.seek(0)
        set_ = {**environment_of(run.said, shim), "DEVICES_TOLD": str(reported.fileno())}
        ran = subprocess.run([program, "--stdio", *words], stdin=sent, env=set_, capture_output=True,
                             pass_fds=[reported.fileno()], timeout=60)
        reported.seek(0)
        return reported.read().decode(), ran.returncode, ran.stdout, ran.stderr.decode()


def calls_of(reported):
    """Returns the recorded calls: a word, the bytes or the size of the buffer, and the outcome of each."""
    words = iter(reported.split())
    return list(zip(words, words, words))


def wrong_of(program, shim, run):
    """Returns the differences of a run, or an empty text."""
    reported, status, written, said = played(program, shim, run)
    calls = calls_of(reported)
    found = run.reported_by(calls, run.answer)
    is_right = (status, said) == (0, "") if run.answer not in FAULTS else status == 3 and FAULTS[run.answer] in said
    writes = [call for call in calls if call[0] == "write" and call[2] != "failed"]
    is_written = written == b"".join(stdio.bytes_of(handed)[: int(count)] for _, handed, count in writes)
    if found == run.wanted() and is_right and is_written:
        return ""
    return f"{run.event()[:160]}\n    wanted {run.wanted()[:300]}\n    found  {found[:300]}, status {status} {said}"


def main(program, *named):
    program = str(pathlib.Path(program).resolve())
    files = ([rows.read(pathlib.Path(it).resolve()) for it in named]
             or [rows.read(it) for it in sorted(rows.ROWS.glob("stdio/*.rows"))])
    values = [(file, opening, lines) for file in files for opening, lines in file.values if opening != "faults"]
    runs = [(file, run) for file, opening, lines in values for run in stdio.runs(opening, lines)]
    able = [(file, run) for file, run in runs
            if not run.said.keys() - OPTIONS.keys() - DEVICES.keys() - {"cut", "cut-again"}]
    failed = 0
    with tempfile.TemporaryDirectory(prefix="stdio-") as room, ThreadPoolExecutor(len(os.sched_getaffinity(0))) as pool:
        shim = preloaded("devices", room)
        for (file, _), wrong in zip(able, pool.map(lambda it: wrong_of(program, shim, it[1]), able)):
            if wrong:
                failed += 1
                print(f"{file.name()}: {wrong}")
    print(f"{len(runs) - len(able)} runs left out")
    print(f"{len(able) - failed} passed, {failed} failed")
    return 1 if failed else 0


if __name__ == "__main__":
    sys.exit(main(*sys.argv[1:]))
