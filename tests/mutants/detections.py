"""Tries edits that no clause can reject, by rows and by tests of the programs."""

import pathlib
import tempfile
from concurrent.futures import ThreadPoolExecutor

import rows
from program_tests import ProgramTests
from rounds import PROCESSORS, tell
from unproved import build
from workspace import ROOT


def is_detected(edit):
    """Returns true if the rows that an edit names detect it: a probe built unproved with the edit gives other
    results."""
    file = rows.read(pathlib.Path(ROOT, edit.detected_by))
    steps = file.steps()
    with tempfile.TemporaryDirectory(prefix="edits-", ignore_cleanup_errors=True) as room:
        if build([rows.PROBE], room, {edit.crate: edit.applied({})}, level=0):
            return False
        lines = rows.run(rows.probe_of(folder=room), [step.event for step in steps]).lines[: len(steps)]
    # A missing line detects nothing.
    return bool(rows.differences(lines, steps[: len(lines)]))


def judge_by_rows(edits):
    """Tries the edits that rows detect, and returns for each whether they did."""
    with ThreadPoolExecutor(PROCESSORS) as pool:
        return {it: tell(it, found, "by rows") for it, found in zip(edits, pool.map(is_detected, edits))}


def judge_by_tests(edits):
    """Tries the edits that tests of the programs detect, and returns for each whether they did."""
    if not edits:
        return {}
    with (tempfile.TemporaryDirectory(prefix="edits-", ignore_cleanup_errors=True) as room,
          ThreadPoolExecutor(PROCESSORS) as pool):
        tests = ProgramTests(room, list(dict.fromkeys((it.layer, it.detected_by) for it in edits)), pool)
        whys = zip(edits, pool.map(tests.missed, edits))
        return {it: tell(it, not why, why or "by a test") for it, why in whys}
