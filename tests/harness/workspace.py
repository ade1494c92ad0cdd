"""The crates of the repository, and the command line by which Rattle proves one."""

import os
import shutil

ROOT = os.path.dirname(os.path.dirname(os.path.dirname(os.path.abspath(__file__))))


# Folder of Rattle's kit.
KIT = os.path.dirname(os.path.dirname(os.path.realpath(shutil.which("rt") or "/opt/rattle/bin/rt")))

# Directories of a crate.
PARTS = ("src", "specs", "proofs")


def listed():
    """Returns the crates of the repository, with the libraries that each uses."""
    found = {}
    with open(f"{ROOT}/crates.txt", encoding="utf-8") as lines:
        for line in lines:
            name, _, uses = line.partition("#")[0].partition(":")
            if name.strip():
                found[name.split()[0]] = uses.split()
    return found


def crates():
    """Returns the crates of the repository, with all crates below each, lowest first."""
    found, below = listed(), {}
    for name, uses in found.items():
        own = [it for it in uses if it in found]
        below[name] = [*dict.fromkeys(it for one in own for it in [*below[one], one])]
    return below


def is_program(crate):
    return os.path.isfile(f"{ROOT}/crates/{crate}/src/main.rt")


def program_name(crate):
    """Returns the name of the program that a crate is built as."""
    return crate.replace("program_", "coap_").replace("_", "-")


def is_static(crate):
    """Returns true if the crate is built as a static library. No other crate depends on one."""
    with open(f"{ROOT}/crates.txt", encoding="utf-8") as lines:
        return any(line.partition(":")[0].split() == [crate, "staticlib"] for line in lines)


def rlib(library):
    return f"{ROOT}/crates/{library}/out/rlib/{library}.rlib"


def rattle_words(verb, crate, jobs=1):
    """Returns the command line by which Rattle itself checks or builds a crate, over the libraries in out/rlib. It
    writes none of them, so it can run beside other checks."""
    libraries = listed()
    words = [f"{KIT}/bin/rattle", verb, "--crate-name", crate, "src/main.rt" if is_program(crate) else "src/lib.rt"]
    for it in ["std", *libraries[crate]]:
        words += ["--extern", f"{it}={rlib(it) if it in libraries else f'{KIT}/rlibs/{it}.rlib'}"]
    for folder in [f"{KIT}/rlibs", *(os.path.dirname(rlib(it)) for it in crates()[crate])]:
        words += ["-L", f"dependency={folder}"]
    words += ["--antt-project", f"{KIT}/rattle/logic/antt-project.json", "--logic-built", f"{KIT}/logic_built"]
    words += ["--crate-type", "staticlib"] if is_static(crate) else []
    return [*words, "--links", f"{crate}=", "--jobs", str(jobs)]
