"""Counts the instructions of a program with callgrind, and the bytes that it copies with bench/copies.c."""

import os
import re
import subprocess
import tempfile

# Ratio of a count to its target above which the target is missed. Counts vary a little with the number of requests in a
# read.
MISSED_BY = 1.03

SHIM = f"{os.path.dirname(os.path.abspath(__file__))}/copies.c"


class Unmeasured(Exception):
    """There is no figure; the text has the reason."""


def callgrind(profile):
    """Returns the words before the command of a program whose instructions are counted, with the profile in this
    file."""
    return ["valgrind", "--tool=callgrind", f"--callgrind-out-file={profile}"]


def collected(said):
    """Returns the count that callgrind printed at the end of a run, or None."""
    found = re.search(r"Collected : (\d+)", said)
    return int(found[1]) if found else None


def counted(command, stream, profile):
    """Returns the number of instructions of a run with this input."""
    ran = subprocess.run(callgrind(profile) + command, input=stream, capture_output=True, check=True)
    return collected(ran.stderr.decode(errors="replace"))


def counted_alone(command, stream):
    """Returns the same, without keeping the profile."""
    with tempfile.NamedTemporaryFile() as profile:
        return counted(command, stream, profile.name)


def calls(profile):
    """Returns the lines of the functions with the most instructions."""
    said = subprocess.run(["callgrind_annotate", profile], capture_output=True, text=True).stdout
    return [it for it in said.splitlines() if re.match(r"\s*[\d,]+ \(", it)][1:13]


def copies_shim(folder):
    """Builds the library that counts copied bytes in this folder, and returns its path."""
    words = ["cc", "-O1", "-fno-builtin", "-fno-tree-loop-distribute-patterns", "-shared", "-fPIC"]
    subprocess.run([*words, "-o", f"{folder}/copies.so", SHIM], check=True)
    return f"{folder}/copies.so"


def copied(shim, command, stream):
    """Returns the number of bytes that a run with this input copies."""
    ran = subprocess.run(command, input=stream, env={**os.environ, "LD_PRELOAD": shim}, capture_output=True)
    reported = re.search(rb"^copied (\d+)$", ran.stderr, re.MULTILINE)
    if ran.returncode or not reported:
        raise Unmeasured(f"{command[0]}: status {ran.returncode}, and no count of copied bytes")
    return int(reported[1])
