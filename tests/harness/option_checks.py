"""Compares the command line of a program with install/options.tsv."""

import re
import subprocess

from option_table import bounds, excluded, helped, needed, option, options_of, reason, sample
from peers import LIMIT

# The status for an invalid command line.
USAGE = 1

# An address of no machine (RFC 5737), at which no program can listen.
FOREIGN = "203.0.113.1"

GATEWAY = "coap-mqtt"


class Program:
    """A program with its options, and a port of this machine at which it cannot listen."""

    def __init__(self, name, path, port):
        self.name, self.path, self.port, self.options = name, path, port, options_of(name)
        self.required = {"coap-client": [f"coap+tcp://127.0.0.1:{port}/"], "coap-explain": ["-"]}.get(name, [])

    def run(self, *words):
        """Runs the program with empty input. Returns its status and its error output."""
        done = subprocess.run([self.path, *words], stdin=subprocess.DEVNULL, capture_output=True, timeout=LIMIT)
        return done.returncode, done.stderr.decode(errors="replace")

    def ending(self, it):
        """Returns further arguments with which the program ends by itself after it accepts an option."""
        if self.name == "coap-directory":
            return ["-A", FOREIGN] if it.name == "-p" else ["-p", str(self.port)]
        return {"coap-server": ["--stdio"], GATEWAY: ["--version"]}.get(self.name, self.required)

    def refusal(self, it, given):
        """Returns the error output for a value that an option does not take, or the beginning of that of the
        gateway."""
        first = f"{self.name}: bad value for {it.name}"
        if self.name == GATEWAY:
            return f"{first}: "
        allowed = reason(it, (bounds(self.name, it) or [""])[0])
        said = "" if is_size_of_file(it) else f", not {given or 'an empty text'}"
        return f"{first}\n{self.name}: {it.name} takes {allowed}{said}\n"


def is_size_of_file(it):
    """Returns true if an option limits the size of its file."""
    return it.allowed.startswith("a file of at most ")


def numbers(it, *found):
    """Returns values with these numbers, each followed by zeros for the other parts of the value."""
    return [",".join([str(number), *["0"] * it.value.count(",")]) for number in found if number >= 0]


def refused_values(program, it):
    """Returns values that an option does not take: an empty one, and the numbers outside of its range."""
    low, high = bounds(program.name, it) or (0, None)
    ends = numbers(it, low - 1, high + 1) if high else []
    return ["/dev/zero"] if is_size_of_file(it) else ["", *ends] if it.allowed else []


def accepted_values(program, it):
    """Returns values that an option takes: the ends of its range, and the words by which a shell completes it."""
    return [*numbers(it, *(bounds(program.name, it) or [])), *it.words]


def check_help(checks, program):
    """Compares the help with the table."""
    said = subprocess.run([program.path, "--help"], stdin=subprocess.DEVNULL, capture_output=True, timeout=LIMIT,
                          text=True).stdout
    checks.same(f"{program.name}: --help", re.findall(r"(?m)^ +(\S.*?) {2,}(\S.*)$", said), helped(program.name))


def check_values(checks, program):
    """Checks the values that each option takes, and the lines for others."""
    for it in (it for it in program.options if it.names and it.value):
        for given in refused_values(program, it):
            more = program.required if program.name != GATEWAY else []
            status, said = program.run(it.name, given, *more)
            wanted = program.refusal(it, given)
            checks.same(f"{program.name} {it.name} {given!r}",
                        (status, wanted if said.startswith(wanted) else said), (USAGE, wanted))
        for given in accepted_values(program, it):
            _, said = program.run(it.name, given, *program.ending(it))
            checks.same(f"{program.name} {it.name} {given!r} is accepted: {said!r}", "bad value for" in said, False)


def check_order(checks, program):
    """Checks that of several bad values the first one in the order of the table is reported."""
    left = [it.name for it in program.options if it.allowed and not is_size_of_file(it)]
    while left:
        words = [word for name in reversed(left) for word in (name, "")]
        status, said = program.run(*words, *program.required)
        checks.same(f"{program.name}: bad values of {left}", (status, said.partition("\n")[0]),
                    (USAGE, f"{program.name}: bad value for {left[0]}"))
        left = left[1:]


def check_twice(checks, program):
    """Checks that only a repeated option can be given twice, and that no other option exists."""
    for it in (it for it in program.options if it.names and it.value):
        status, said = program.run(*2 * sample(program.name, it), *program.required)
        checks.same(f"{program.name} {it.name} twice", (status, "cannot be used multiple times" in said),
                    (USAGE, not it.is_repeated))
    status, said = program.run("--nothing")
    checks.same(f"{program.name}: an unknown option", (status, said[:6]), (USAGE, "error:"))


def check_clash(checks, program, words, why):
    wanted = f"{program.name}: options exclude each other\n{program.name}: {why}\n"
    checks.same(f"{program.name} {words}", program.run(*words, *program.required), (USAGE, wanted))


def check_clashes(checks, program):
    """Checks options that exclude each other."""
    for it in program.options:
        for other in it.excludes:
            words = other.split() if " " in other else sample(program.name, option(program.name, other))
            check_clash(checks, program, [*sample(program.name, it), *words], excluded(it, other))


def check_needs(checks, program):
    """Checks options that need another one, or another one with a certain value. The gateway names them in its own
    words."""
    for it in (it for it in program.options if it.needs):
        words, why = sample(program.name, it), needed(it)
        if program.name == GATEWAY:
            status, said = program.run(*words)
            names = [it.name, *re.findall(r"--[\w-]+", it.needs)]
            checks.same(f"{program.name} {words}: {said!r}", (status, [name in said for name in names]),
                        (USAGE, len(names) * [True]))
        elif "{}" in why:
            name, value = it.needs.split()
            for other in set(option(program.name, name).words) - {value}:
                check_clash(checks, program, [*words, name, other], why.format(other))
        else:
            check_clash(checks, program, words, why)


def check_program(checks, program):
    """Compares a program with the table."""
    check_help(checks, program)
    check_values(checks, program)
    check_needs(checks, program)
    if program.name != GATEWAY:
        check_order(checks, program)
        check_twice(checks, program)
        check_clashes(checks, program)
