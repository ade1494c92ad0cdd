"""Proves the libraries below crates if they are missing."""

import os
import subprocess

from workspace import PARTS, ROOT, rlib


def files_of(crate):
    return [f"{at}/{it}" for part in PARTS for at, _, names in os.walk(f"{ROOT}/crates/{crate}/{part}") for it in names]


def is_made(library, below):
    """Returns true if the library exists as `rt ci` leaves it, without a stamp for `rt`. It must be at least as new as
    its files and those of the libraries below it."""
    made = rlib(library)
    if not os.path.isdir(made) or os.path.exists(f"{os.path.dirname(made)}/stamp"):
        return False
    from_what = [*files_of(library), *(file for it in below for file in [rlib(it), *files_of(it)])]
    return all(os.path.getmtime(it) <= os.path.getmtime(made) for it in from_what)


def make_libraries(names, below):
    """Proves the libraries below these crates if they are missing, lowest first. A proof that ended for lack of memory
    is started again."""
    for library in dict.fromkeys(it for name in names for it in below[name]):
        if is_made(library, below[library]):
            continue
        make = ["rt", "lib"]
        for _ in range(2):
            ran = subprocess.run(make, cwd=f"{ROOT}/crates/{library}", stdin=subprocess.DEVNULL, capture_output=True,
                                 text=True, errors="replace")
            if not ran.returncode:
                break
        else:
            raise SystemExit(f"{ran.stdout}{library} is not proved\n0 passed, 1 failed")
