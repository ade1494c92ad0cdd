"""Checks the header of the C library: its numbers, its names and its texts; and the names in the archive."""

import pathlib
import re

import rows
from c_examples import run
from c_programs import C, CPP, EXAMPLES, STRICT
from workspace import ROOT

PREFIX = "dachreup_"

HEADER = f"{ROOT}/include/dachreup.h"

# The definitions of the specs that number the constants of the header: the beginning of their names there.
PREFIXES = {"limit": "", "config": "", "open": "", "written": "", "store": "", "release": "", "announce": "ANNOUNCE_",
            "client_announce": "ANNOUNCE_", "handled": "HANDLED_", "phase": "PHASE_", "request": "REQUEST_",
            "format": "FRAME_", "target": "URI_", "response": "", "reply": "REPLY_", "entry": "APPLICATION_",
            "send": ""}

# Variants with another name in the header.
RENAMED = {"config.Dynamic": "DYNAMIC_MAX", "config.Representation": "REP_MAX", "format.NotOneFrame": "FRAME_NOT_ONE",
           "reason.Format": "REASON_BAD_MESSAGE", "reason.TooLarge": "REASON_MESSAGE_TOO_LARGE",
           "reason.TokenLength": "REASON_BAD_TOKEN_LENGTH", "release.NoRoom": "QUEUE_FULL",
           "announce.NoRoom": "QUEUE_FULL", "client_announce.NoRoom": "QUEUE_FULL", "request.NoRoom": "QUEUE_FULL",
           "response.NoRoom": "QUEUE_FULL", "send.NoRoom": "QUEUE_FULL"}

# A variant that no call from C has, and options that the header does not name.
UNNAMED = ("config.Turns", *(f"option.{it}" for it in ("location_path", "max_age", "location_query", "proxy_uri",
                                                       "proxy_scheme", "size1")))

# Constants that no definition numbers by a variant, and whose number no program of these tests compares with that of a
# call.
OTHERS = {"OK": 0, "EVENT_NONE": 0, "NO_FORMAT": 65536, "PATH_ROOM": 254, "OBSERVE": 1, "PLAIN": 2}

# Functions of the C library that the archive may call, and its only variable. Nothing reads or writes that one: its
# address stands for an allocation that failed.
CALLED = {"malloc", "realloc", "free", "memcpy", "memmove", "memset"}
VARIABLES = {"nothing"}

# Most lines of the examples, and most columns.
LINES, COLUMNS = {"client.c": 120, "pool.c": 60, "server.c": 150, "socketpair.c": 120}, 100

# Functions of the header, and whether they are inline.
FUNCTION = re.compile(r"(static inline )?(?:dachreup_result|void|const char|struct dachreup_\w+)\s+\*?(dachreup_\w+)\(")


def spec_numbers():
    """Returns the numbers of the specs, each with the definition, the variant and the names that the header may have
    for it."""
    def snake(variant):
        return re.sub(r"(?<=.)(?=[A-Z])", "_", variant).upper()
    def text(file):
        return pathlib.Path(f"{ROOT}/crates/{file}").read_text(encoding="utf-8")
    found = [(f"{name}.{variant}", int(number), (f"{PREFIXES[name]}{snake(variant)}", snake(variant)))
             for name, variant, number in re.findall(r"^(\w+)_code \(?\w+\.(\w+)[^=\n]*= (\d+)$",
                                                     text("c_api/specs/Numbers.antt"), re.M)]
    found += [(f"reason.{variant}", int(number), (f"REASON_{snake(variant)}",))
              for variant, number in re.findall(r"^reason_number \(?(\w+)[^=\n]*= (\d+)$",
                                                text("coap_conn/specs/Reasons.antt"), re.M)]
    found += [(f"event.{variant}", int(number), (f"EVENT_{snake(variant)}",))
              for variant, number in re.findall(r"^ShowsEvent \(Some \(?event\.(\w+).*? =\s+Is\w+ (\d) ",
                                                text("c_api/specs/ClientEvents.antt"), re.M)]
    found += [(f"option.{name}", int(number), (f"NUMBER_{name.upper()}",))
              for name, number in re.findall(r"^(\w+) = (\d+)$", text("coap_wire/specs/OptionNumbers.antt"), re.M)]
    found += [(f"method.{variant}", int(number), (snake(variant),))
              for number, variant in re.findall(r"n == (\d) then Some method\.(\w+)",
                                                text("c_api/specs/RequestTexts.antt"))]
    return [it for it in found if it[0] not in UNNAMED]


def check_numbers(checks, header):
    """Compares the constants of the header with the specs. Those without a variant there are compared by a program of
    these tests, or listed."""
    named = {name: int(number) for name, number in re.findall(r"\bDACHREUP_(\w+)(?: = | UINT32_C\(| )(\d+)\b", header)}
    compared, numbers = set(), spec_numbers()
    for variant, number, names in numbers:
        name = next((it for it in (RENAMED.get(variant), *names) if it in named), variant)
        checks.same(f"{name} is {variant}", named.get(name), number)
        compared.add(name)
    checks.same("variants of the specs", len(numbers) > 90, True)
    programs = "".join(it.read_text(encoding="utf-8") for it in sorted(rows.HARNESS.glob("c_*.c")))
    checks.same("constants that nothing compares",
                [it for it in named
                 if it not in compared and it not in OTHERS
                 and not re.search(rf"\),\s+DACHREUP_{it}\b|{{.*DACHREUP_{it}}}", programs)], [])
    checks.same("other constants", {it: named.get(it) for it in OTHERS}, OTHERS)


def check_names(checks, archive):
    """Compares the names that the archive exports with the functions of the header, and checks that it needs no other
    functions and has no variable."""
    header = pathlib.Path(HEADER).read_text(encoding="utf-8")
    def names(*words):
        return [line.split()[-2:] for line in run(["nm", *words, archive]).stdout.decode().splitlines()
                if line and not line.endswith(":")]
    exported = {name for _, name in names("--defined-only", "--extern-only")}
    declared = {name for inline, name in FUNCTION.findall(header) if not inline}
    checks.same("functions of the header", len(declared) > 40, True)
    checks.same("exported names", exported, declared)
    checks.same("functions that the archive needs", {name for _, name in names("--undefined-only")} - exported, CALLED)
    listed = header.partition(" * WHAT")[0]
    checks.same("functions that the header lists", {it for it in CALLED if it in listed}, CALLED)
    checks.same("variables in the archive", {name for kind, name in names("--defined-only") if kind in "bBcCdD"},
                VARIABLES)
    check_numbers(checks, header)


def check_texts(checks):
    """Checks the version of the header, that compilers accept it, and the lengths of the examples."""
    header = pathlib.Path(HEADER).read_text(encoding="utf-8")
    version = pathlib.Path(f"{ROOT}/VERSION").read_text(encoding="utf-8").strip()
    checks.same("version of the header", re.findall(r'#define DACHREUP_VERSION "(.*)"', header), [version])
    for words in (["gcc", "-std=c99", "-x", "c"], [*C, "-x", "c"], ["g++", "-std=c++98", "-x", "c++"], CPP):
        compiles = run([*words, "-fsyntax-only", *STRICT, "-Wshadow", HEADER])
        checks.same(f"header by {' '.join(words)}", (compiles.returncode, compiles.stderr), (0, b""))
    for path in sorted(pathlib.Path(EXAMPLES).glob("*.c")):
        lines = path.read_text(encoding="utf-8").splitlines()
        checks.same(f"lines of {path.name}", len(lines) < LINES[path.name], True)
        checks.same(f"columns of {path.name}", [it for it in lines if len(it) > COLUMNS], [])


def check_memory(checks, words):
    """Compares the bytes of the smallest server and the smallest client with those that the header states."""
    header = " ".join(pathlib.Path(HEADER).read_text(encoding="utf-8").split("\n * "))
    stated = re.search(r"the smallest server allocates ([\d,]+) bytes, and the smallest client ([\d,]+)", header)
    ran = run(words)
    wanted = "server %s\nclient %s\n" % tuple(it.replace(",", "") for it in stated.groups()) if stated else "none"
    checks.same(f"bytes that are allocated {words[0]}", (ran.returncode, ran.stdout.decode(), ran.stderr),
                (0, wanted, b""))
