"""Proves one crate over the proved libraries below it, and builds it if it is a program or a static library.

A library is proved in one of two forms:

- FIRST: the first proof. The rlib has what the crates above can cite, and no proofs. So these crates load less and are
  proved faster. But `rattle` can keep nothing of such a proof, and the rlib fits only the builds of the libraries below
  over which it was proved. After a change, the crates above are proved again from nothing.
- AGAIN: each later proof, so that of a crate that somebody edits. The checked parts are kept in out/incremental, and
  the next proof checks only the changed ones. If only the bodies of functions have changed, the proofs of the
  libraries above read nothing new, and are not repeated. `rt ci` repeats them in any case.

`rt check` and the other commands of `rt` take the libraries below a crate from out/rlib, in both forms.
"""

import contextlib
import enum
import functools
import hashlib
import os
import re
import shutil
import subprocess
import sys
import tempfile
from dataclasses import dataclass

from workspace import KIT, PARTS, ROOT, is_program, is_static, program_name, rattle_words, rlib

# Files beside the sources that a program is run with.
RUN_WITH = ("args", "stdin", "stdout", "status")

# Options of a proof that keeps what it checked for the next one.
KEPT = ["--incremental", "out/incremental"]

# Archives that `rattle-link` adds to each program.
LINKED = [f"{KIT}/c/{name}" for name in ("libos_c.a", "liblibc_c.a")]

# Modules of a function that no other crate reads, by parts of their names: its code, and the proofs of that code.
INSIDE = {b"Code", b"Mir", b"Lts", b"Proof", b"Tie", b"TheLink", b"TheLinks"}


class Form(enum.Enum):
    """Form of a proof, as out/proved has it."""

    FIRST = "first"
    AGAIN = "again"
    LAST = "last"  # Proof of a program or of a static library, on which no other crate can depend.


@dataclass
class Proof:
    """Result of the proof of a crate: whether it failed, the text to print, and its processor time in seconds."""

    failed: bool
    said: str
    seconds: float = 0.0


@dataclass
class Ran:
    """Result of a command: its status, its output, its error output, and its processor time in seconds."""

    status: int
    wrote: bytes
    complained: str
    seconds: float

    def text(self):
        return self.wrote.decode(errors="replace") + self.complained


# Result for a crate that has not changed since it was proved.
AS_BEFORE = Proof(False, "as before")


def folder_of(crate):
    return f"{ROOT}/crates/{crate}"


def stored(path):
    """Returns the content of a file, or nothing if there is no such file."""
    try:
        with open(path, "rb") as it:
            return it.read()
    except FileNotFoundError:
        return b""


def built_program(crate):
    return f"{ROOT}/bin/{program_name(crate)}"


def archive_of(crate):
    return f"{folder_of(crate)}/out/lib{crate}.a"


def output_of(crate, is_built):
    """Returns the path of what a proof of the crate leaves. `is_built` is true for a program that is built too."""
    if is_static(crate):
        return archive_of(crate)
    if is_program(crate):
        return built_program(crate) if is_built else f"{folder_of(crate)}/out/incremental"
    return rlib(crate)


def is_last(crate):
    """Returns true if no crate can depend on this one."""
    return is_program(crate) or is_static(crate)


def last_form(crate):
    """Returns the form of the last proof of a crate as a word, which is empty if there was none."""
    return stored(f"{folder_of(crate)}/out/proved").decode().partition(" ")[0]


def next_form(crate):
    if is_last(crate):
        return Form.LAST
    return Form.AGAIN if last_form(crate) else Form.FIRST


def add_files(found, top, without=()):
    """Adds the names and the contents of all files below a folder to a hash, except for these names."""
    for at, folders, files in os.walk(top):
        folders[:] = sorted(it for it in folders if it not in without)
        for file in sorted(it for it in files if it not in without):
            found.update(f"{os.path.relpath(at, ROOT)}/{file}\0".encode() + stored(f"{at}/{file}"))


def is_outside(line):
    """Returns true if a line of a library's list of modules names one that crates above may read."""
    module = re.match(rb'\["([^"]+)",\d+,\d+,("\w+"),', line)
    return bool(module) and not INSIDE.intersection(module[1].split(b"/"))


@functools.cache
def outside_of(library):
    """Returns a hash of the part of a proved library that the proof of a library above can read: its items,
    definitions, contracts and lemmas. The code of its functions and the proofs of that code are left out. The form of
    the library's proof is part of the hash."""
    found, made = hashlib.sha256(last_form(library).encode()), rlib(library)
    add_files(found, made, ["toolchain", "format", "made.json"])
    with open(f"{made}/format", "rb") as it:
        found.update(b"".join(line for line in it if not line.startswith((b"checked ", b"sum "))))
    with open(f"{made}/toolchain/made.json", "rb") as it:
        # Without the offset and the length of a module, which change with those before it.
        found.update(b"".join(re.sub(rb",\d+,\d+,", b",", line, count=1) for line in it if is_outside(line)))
    return found.digest()


@functools.cache
def kit():
    return subprocess.run(["rt", "version"], capture_output=True, check=True).stdout


def stamp_of(crate, below, form):
    """Returns a hash of the inputs of a proof of the crate in this form. The crates below are proved."""
    found = hashlib.sha256(kit())
    for name in below:
        # The file `format` has sums of all parts of the rlib.
        found.update(outside_of(name) if form == Form.AGAIN else stored(f"{rlib(name)}/format"))
    for part in PARTS:
        add_files(found, f"{folder_of(crate)}/{part}")
    for name in RUN_WITH if is_program(crate) else ():
        found.update(stored(f"{folder_of(crate)}/{name}"))
    return found.hexdigest()


def is_as_before(crate, below, is_built):
    """Returns true if the last proof of the crate was for its present inputs, and its output still exists."""
    form, _, stamp = stored(f"{folder_of(crate)}/out/proved").decode().partition(" ")
    if form not in [it.value for it in Form]:
        return False
    return os.path.exists(output_of(crate, is_built)) and stamp == f"{stamp_of(crate, below, Form(form))} {is_built}"


def run(crate, words, given=b""):
    """Runs a command in the folder of a crate."""
    with tempfile.TemporaryFile() as source, tempfile.TemporaryFile() as wrote, tempfile.TemporaryFile() as complained:
        source.write(given)
        source.seek(0)
        begun = subprocess.Popen(words, cwd=folder_of(crate), stdin=source, stdout=wrote, stderr=complained)
        _, status, used = os.wait4(begun.pid, 0)
        begun.returncode = os.waitstatus_to_exitcode(status)
        wrote.seek(0)
        complained.seek(0)
        texts = wrote.read(), complained.read().decode(errors="replace")
    return Ran(begun.returncode, *texts, used.ru_utime + used.ru_stime)


def rt_stamp(crate):
    """Returns the content of out/rlib/stamp by which `rt` knows that the library is built."""
    sys.path.insert(0, f"{KIT}/bin")
    import rtlib
    return rtlib.Crate(folder_of(crate), ROOT, {}).stamp()


def prove_library(crate, jobs, form):
    """Proves a library and writes its rlib."""
    stamp, stamp_file = rt_stamp(crate), f"{os.path.dirname(rlib(crate))}/stamp"
    os.makedirs(os.path.dirname(stamp_file), exist_ok=True)
    with contextlib.suppress(FileNotFoundError):
        os.remove(stamp_file)
    how = KEPT if form == Form.AGAIN else ["--statements"]
    ran = run(crate, [*rattle_words("build", crate, jobs), *how, "-o", rlib(crate)])
    if not ran.status:
        with open(stamp_file, "w", encoding="utf-8") as it:
            it.write(stamp)
    return ran


def compile_proved(crate, jobs, target):
    """Proves and compiles a program or a static library."""
    words = [*rattle_words("build", crate, jobs), "--toolchain", f"{KIT}/toolchain", "--backend", "llvm", *KEPT]
    return run(crate, [*words, "-o", target])


def build_program(crate, jobs):
    """Proves and links a program, and runs it on the stored input."""
    compiled = compile_proved(crate, jobs, f"out/{crate}.o")
    if compiled.status:
        return compiled
    words = [f"{KIT}/bin/rattle-link", "--target", "x86_64-unknown-linux-gnu", "--toolchain", f"{KIT}/toolchain"]
    linked = run(crate, [*words, "-o", f"out/{crate}", f"out/{crate}.o", *LINKED])
    if linked.status:
        return linked
    args, given, wanted, status = (stored(f"{folder_of(crate)}/{name}") for name in RUN_WITH)
    ran = run(crate, [f"out/{crate}", *args.decode().split()], given)
    if ran.status != int(status or 0) or ran.wrote != wanted:
        return Ran(1, b"", f"{ran.complained}\nthe output of {crate} differs from its file stdout", 0.0)
    os.makedirs(f"{ROOT}/bin", exist_ok=True)
    shutil.copy(f"{folder_of(crate)}/out/{crate}", built_program(crate))
    return Ran(0, compiled.wrote, compiled.complained, compiled.seconds + linked.seconds)


def prove(crate, below, jobs, is_built):
    """Proves a crate over those below it. If `is_built`, it is a program, which is built too."""
    if is_as_before(crate, below, is_built):
        return AS_BEFORE
    form = next_form(crate)
    stamp = stamp_of(crate, below, form)
    os.makedirs(f"{folder_of(crate)}/out", exist_ok=True)
    if is_built:
        ran = build_program(crate, jobs)
    elif is_static(crate):
        ran = compile_proved(crate, jobs, archive_of(crate))
    elif form == Form.LAST:
        ran = run(crate, [*rattle_words("check", crate, jobs), *KEPT])
    else:
        ran = prove_library(crate, jobs, form)
    if ran.status:
        return Proof(True, ran.text())
    with open(f"{folder_of(crate)}/out/proved", "w", encoding="utf-8") as it:
        it.write(f"{form.value} {stamp} {is_built}")
    functions = re.findall(r"^logic=proved functions=(\d+)", ran.text(), re.M)
    how = f"{functions[-1]} functions proved" if functions else "proved"
    return Proof(False, how + (", and built" if is_built else ""), ran.seconds)
