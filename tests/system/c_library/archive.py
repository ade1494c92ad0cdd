"""Builds the archive of the C library."""

import os
import subprocess
import sys
import tempfile

from c_programs import PROCESSORS
from workspace import KIT, ROOT, rattle_words

# Jobs of the proof of the archive. One processor is left for the tests beside it.
JOBS = max(1, PROCESSORS - 1)


def build_archive():
    """Builds the archive from the crate, and returns its path. `rt lib` would prove all libraries below anew after `rt
    ci`, and remove them meanwhile, while the mutants need them."""
    kept = f"{ROOT}/crates/c_api/out/incremental"
    os.makedirs(os.path.dirname(kept), exist_ok=True)
    # In the same folder, so that the data appear there at once.
    with tempfile.TemporaryDirectory(prefix="archive-", dir=os.path.dirname(kept)) as room:
        words = [*rattle_words("build", "c_api", JOBS), "--incremental", f"{room}/kept"]
        words += ["--toolchain", f"{KIT}/toolchain", "--backend", "llvm", "-o", f"{room}/libc_api.a"]
        built = subprocess.run(words, cwd=f"{ROOT}/crates/c_api", stdout=subprocess.PIPE, stderr=subprocess.STDOUT,
                               text=True, errors="replace")
        if built.returncode:
            sys.exit(f"{built.stdout}c_api is not built\n0 passed, 1 failed")
        subprocess.run([f"{ROOT}/install/library/build", f"{room}/libc_api.a", f"{ROOT}/bin"], check=True,
                       stdout=subprocess.DEVNULL)
        if not os.path.isdir(kept):
            os.rename(f"{room}/kept", kept)
    return f"{ROOT}/bin/libdachreup.a"
