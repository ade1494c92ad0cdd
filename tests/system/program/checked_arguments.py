"""Runs the programs, and checks arguments that they reject, and their help."""

import subprocess

from option_table import option, reason


def run(program, words, stream=b"", stdin=None, stdout=subprocess.PIPE):
    source = {"input": stream} if stdin is None else {"stdin": stdin}
    return subprocess.run([program] + words, stdout=stdout, stderr=subprocess.PIPE, timeout=60, **source)


def allowed(program, name):
    """Returns the values that an option takes."""
    return reason(option(program, name), 65_536)


def refused_words(name, values, clashes, targets=()):
    """Returns rows of command lines that a program refuses with a reason: arguments, status and both lines after the
    program's name. A value has the name of its option, the text that was given, and the least value of `--queue`."""
    def refusal(words, it, given, least=65_536):
        return (words, 1, f"bad value for {it}\n{name}: {it} takes {reason(option(name, it), least)}, not {given}")
    return (
        [(words, 1, f"bad target {number}\n{name}: {why}") for words, number, why in targets]
        + [refusal(*row) for row in values]
        + [(words, 1, f"options exclude each other\n{name}: {why}") for words, why in clashes]
    )


def check_words(program, name, rows, checks):
    """Checks arguments that are invalid, or with which the program fails."""
    for words, status, reported in rows:
        done = run(program, words, b"open\n")
        # The text of clap has several lines, which are not compared.
        wanted = (done.stderr or None) if reported is None else b"%s: %s\n" % (name.encode(), reported.encode())
        checks.same("%s %r" % (name, words), (done.returncode, done.stdout, done.stderr), (status, b"", wanted))


def check_help(program, name, begins, checks):
    """Checks the help, which begins so, and the version. Both are printed to standard output."""
    for words in [["--help"], ["-h"], ["--help", "x", "-x"]]:
        done = run(program, words)
        checks.same("%s %r" % (name, words), (done.returncode, done.stdout[: len(begins)], done.stderr),
                    (0, begins, b""))
    for words in [["--version"], ["-V"], ["-V", "--help"]]:
        done = run(program, words)
        checks.same("%s %r" % (name, words), (done.returncode, done.stdout, done.stderr),
                    (0, b"%s 0.1.0\n" % name.encode(), b""))
    with open("/dev/full", "wb") as full:
        for words in [["--help"], ["--version"]]:
            done = run(program, words, stdout=full)
            checks.same("%s %r into a full device" % (name, words), (done.returncode, done.stderr),
                        (3, b"%s: cannot write\n" % name.encode()))
