"""Compiles the programs over the C library."""

import os

import rows
from c_examples import run
from checks import side_by_side
from workspace import ROOT

PROCESSORS = len(os.sched_getaffinity(0))

STRICT = ["-pedantic-errors", "-Wall", "-Wextra", "-Wconversion", "-Werror"]

WARNINGS = ["-D_POSIX_C_SOURCE=200809L", *STRICT, "-g", f"-I{ROOT}/include"]

C, CPP = ["gcc", "-std=c11"], ["g++", "-std=c++17", "-x", "c++"]

SANITIZED = ["-fsanitize=address,undefined", "-fno-sanitize-recover=all"]

# The program and the library call malloc and realloc of fail_malloc.c, and these the allocator of AddressSanitizer.
FAILING = [*(f"-D{name}={'__wrap_' + name}" for name in ("malloc", "realloc")),
           *(f"-D__libc_{name}=__real_{name}" for name in ("malloc", "realloc")), "-Wl,--wrap=malloc,--wrap=realloc"]

VALGRIND = ["valgrind", "--quiet", "--leak-check=full", "--show-leak-kinds=all", "--error-exitcode=9"]

EXAMPLES = f"{ROOT}/examples/c"

# The static pool, in a size that is enough for all programs, and in one that is not.
POOL, LARGE, SMALL = [f"{EXAMPLES}/pool.c"], "-DUNITS=131072", "-DUNITS=1024"

# The ways in which programs are compiled: the compiler, further sources, and options.
WAYS = {
    "plain": (C, [], []),
    "sanitized": (C, [], SANITIZED),
    "c++": (CPP, [], SANITIZED),
    "failing": (C, [f"{rows.HARNESS}/fail_malloc.c"], [*SANITIZED, *FAILING, "-Wno-conversion"]),
    "pooled": (C, POOL, [*SANITIZED, LARGE]),
    "unsanitized": (C, POOL, [LARGE]),
    "small": (C, POOL, [*SANITIZED, SMALL]),
}

# The programs: their sources, and the ways in which they are compiled.
USUAL = ("plain", "sanitized")
SOURCES = {
    "driver": (f"{rows.HARNESS}/c_library.c", (*USUAL, "failing", "pooled", "small")),
    "pair": (f"{rows.HARNESS}/c_client.c", (*USUAL, "failing", "pooled")),
    "script": (f"{rows.HARNESS}/c_script.c", USUAL),
    "habits": (f"{rows.HARNESS}/c_habits.c", (*USUAL, "c++")),
    "output": (f"{rows.HARNESS}/c_output.c", USUAL),
    "memory": (f"{rows.HARNESS}/c_memory.c", USUAL),
    "server": (f"{EXAMPLES}/server.c", (*USUAL, "c++")),
    "client": (f"{EXAMPLES}/client.c", (*USUAL, "c++")),
    "socketpair": (f"{EXAMPLES}/socketpair.c", (*USUAL, "c++", "pooled", "unsanitized")),
}


def compiled(checks, source, libraries, target, compiler=C, flags=()):
    words = [*compiler, *WARNINGS, *flags, source]
    made = run([*words, *(["-x", "none"] if compiler is CPP else []), *libraries, "-o", target])
    checks.same(f"compiles {os.path.basename(source)} {' '.join([*compiler, *flags])}", (made.returncode, made.stderr),
                (0, b""))
    return target


def build(checks, archive, room):
    """Compiles the programs. Returns the commands that run them, by the names of the program and of the way; `valgrind`
    runs the plain one."""
    found, jobs = {}, []
    for name, (source, ways) in SOURCES.items():
        for way in ways:
            compiler, sources, flags = WAYS[way]
            found[name, way] = [f"{room}/{name}-{way}"]
            jobs.append((compiled, source, [*sources, archive], f"{room}/{name}-{way}", compiler, flags))
        found[name, "valgrind"] = [*VALGRIND, f"{room}/{name}-plain"]
    checks.add(side_by_side(jobs, PROCESSORS))
    return found


def check_ended(checks, words):
    ran = run(words)
    checks.same(f"{' '.join(words[1:])} {words[0]}", (ran.returncode, ran.stdout, ran.stderr), (0, b"", b""))
