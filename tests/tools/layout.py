#!/usr/bin/env python3
"""Checks that each crate is in the layout of `rt fmt`: tests/tools/layout.py [CRATE ..]

`rt ci` refuses a file that is not, but only when it comes to its crate. A line names each such file; the last line is
'N passed, M failed'. `rt fmt` in the folder of the crate lays it out.
"""

import filecmp
import os
import shutil
import subprocess
import sys
import tempfile
from concurrent.futures import ThreadPoolExecutor

sys.path.insert(0, os.path.join(os.path.dirname(os.path.abspath(__file__)), "..", "harness"))
from workspace import PARTS, ROOT, listed  # noqa: E402


def files_of(folder):
    """Returns the paths of the sources of a crate in this folder, relative to it."""
    parts = [part for part in (*PARTS, "tests") if os.path.isdir(f"{folder}/{part}")]
    return [os.path.relpath(f"{at}/{name}", folder) for part in parts for at, _, names in os.walk(f"{folder}/{part}")
            for name in names]


def out_of_layout(crate):
    """Returns the files of a crate that `rt fmt` changes in a copy, or the output of `rt fmt` if it fails."""
    folder = f"{ROOT}/crates/{crate}"
    with tempfile.TemporaryDirectory() as room:
        copy = f"{room}/crates/{crate}"
        shutil.copytree(folder, copy, ignore=shutil.ignore_patterns("out"))
        ran = subprocess.run(["rt", "fmt"], cwd=copy, stdin=subprocess.DEVNULL, capture_output=True, text=True)
        if ran.returncode:
            return [f"crates/{crate}: {ran.stdout}{ran.stderr}".rstrip()]
        changed = [path for path in files_of(folder)
                   if not filecmp.cmp(f"{folder}/{path}", f"{copy}/{path}", shallow=False)]
    return [f"crates/{crate}/{path}: not in the layout of rt fmt" for path in sorted(changed)]


def main(crates):
    with ThreadPoolExecutor(len(os.sched_getaffinity(0))) as pool:
        found = list(pool.map(out_of_layout, crates))
    for line in sum(found, []):
        print(line)
    failed = sum(map(bool, found))
    print(f"{len(found) - failed} passed, {failed} failed")
    return int(failed > 0)


if __name__ == "__main__":
    sys.exit(main(sys.argv[1:] or list(listed())))
