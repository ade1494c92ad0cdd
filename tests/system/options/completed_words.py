"""Completes command lines by bash, zsh and fish with the installed completions, and compares the words with
install/options.tsv."""

import os
import re
import select
import shlex
import subprocess
import sys
import tempfile
import termios
from typing import NamedTuple

from commands import LIMIT, read, run, write
from option_table import options_of
from workspace import ROOT

PROGRAMS = ["coap-server", "coap-client", "coap-explain", "coap-directory", "coap-mqtt"]

# The files in the current folder of the shells, and the beginnings of some names.
FILES, BEGINNINGS = ["one file", "one.txt", "two"], ["", "on", "t"]

# Completes the last of some words. Outside of a completion, `compopt` fails and does nothing.
BASH = """
complete_words() {
    local named=$(complete -p "$1")
    named=${named#*-F }
    COMP_WORDS=("$@") COMP_CWORD=$(($# - 1)) COMPREPLY=()
    "${named%% *}" 2> /dev/null
    printf '%s\\n' "${COMPREPLY[@]}"
    printf '\\0'
}
"""

# Completes each line of a file when the line editor starts. The function `compadd` keeps the matches that a call adds;
# other calls only fill arrays.
ZSH = """
fpath=(@SHARE@/zsh/site-functions $fpath)
autoload -Uz compinit && compinit -u -D
zstyle ':completion:*' completer _complete

compadd() {
    if [[ ${@[1,(i)(-|--)]} != *-(O|A|D)\\ * ]]; then
        local -a kept_matches
        builtin compadd -A kept_matches "$@"
        found_matches+=("${(@Q)kept_matches}")
    fi
    builtin compadd "$@"
}

change-nothing() {
    compstate[insert]= compstate[list]=
}

zle-line-init() {
    local line
    typeset -ga found_matches
    for line in "${(@f)$(<@LINES@)}"; do
        BUFFER=$line CURSOR=$#line found_matches=() comppostfuncs=(change-nothing)
        zle complete-word
        printf '%s\\n' "${found_matches[@]}"
        printf '\\0'
    done > @FOUND@
    exit
}
zle -N zle-line-init
"""


class Case(NamedTuple):
    """A command line whose last word is completed. It has the words before, the beginning of that word, the part of the
    beginning that completions leave out, and the completions. `None` is any but options and files."""

    words: list
    begun: str
    left_out: str
    wanted: list

    def line(self):
        return " ".join([*self.words, self.begun])


def completions_of(it):
    """Returns the completions of a value or an argument."""
    return FILES if it.value == "FILE" else None if it.value == "HOST" else list(it.words)


def case(words, begun, left_out, wanted):
    """Returns the case of a word, with those of the completions that begin so."""
    return Case(words, left_out + begun, left_out,
                wanted and [word for word in wanted if word.startswith(begun)])


def value_cases(words, it, left_out=""):
    """Yields the cases of a value or an argument."""
    wanted = completions_of(it)
    for begun in BEGINNINGS if wanted == FILES else {"", *(word[0] for word in it.words)}:
        yield case(words, begun, left_out, wanted)


def option_cases(program, it, argument):
    """Yields the cases of an option, of its value, and of the argument after both."""
    names = [name for it in options_of(program) for name in it.names]
    for name in it.names:
        if name.startswith("--"):
            yield case([program], name[:-1], "", names)
        if it.value:
            yield from value_cases([program, name], it)
            if name.startswith("--"):
                yield from value_cases([program], it, f"{name}=")
        if argument:
            yield from value_cases([program, name, *["1"] * bool(it.value)], argument)


def cases_of(program):
    """Yields the cases of a program."""
    options = options_of(program)
    argument = next((it for it in options if not it.names), None)
    yield case([program], "-", "", [name for it in options for name in it.names])
    if argument:
        yield from value_cases([program], argument)
    else:
        yield case([program], FILES[0][0], "", [])
    for it in (it for it in options if it.names and "--help" not in it.names and "--version" not in it.names):
        yield from option_cases(program, it, argument)


def by_bash(share, place, cases):
    """Returns what bash completes, a text for each case. Bash splits words at each `=`."""
    lines = [f". {share}/bash-completion/completions/{program}" for program in PROGRAMS]
    for it in cases:
        last = re.split("(=)", it.begun)
        lines.append(shlex.join(["complete_words", *it.words, *(last[:1] + [word for word in last[1:] if word])]))
    write(BASH + "\n".join(lines), f"{place}/../cases.bash")
    return run(["bash", "--norc", "../cases.bash"], cwd=place)[1].split("\0")[:-1]


def by_fish(share, place, cases):
    """Returns what fish completes, a text for each case."""
    lines = [f"complete -C {shlex.quote(it.line())}; printf '\\0'\n" for it in cases]
    write("".join(lines), f"{place}/../cases.fish")
    home = os.path.dirname(place)
    environment = dict(os.environ, HOME=home, XDG_CONFIG_HOME=home, XDG_DATA_HOME=home, XDG_DATA_DIRS=share,
                       PATH=f"{home}/programs:{os.environ['PATH']}")
    said = run(["fish", "../cases.fish"], cwd=place, env=environment)[1]
    return [re.sub(r"(?m)\t.*$", "", it) for it in said.split("\0")[:-1]]


def drained(descriptor, process):
    """Reads all that a program writes to its terminal, until it has closed the terminal."""
    try:
        while select.select([descriptor], [], [], LIMIT)[0] and os.read(descriptor, 65_536):
            pass
    except OSError:
        # The terminal is closed.
        pass
    process.kill()


def by_zsh(share, place, cases):
    """Returns what zsh completes, a text for each case. Its line editor needs a terminal."""
    home = os.path.dirname(place)
    names = {"SHARE": share, "LINES": f"{home}/lines", "FOUND": f"{home}/found"}
    write("".join(it.line() + "\n" for it in cases), names["LINES"])
    write("", names["FOUND"])
    write(re.sub("@([A-Z]+)@", lambda it: names[it[1]], ZSH), f"{home}/.zshrc")
    control, terminal = os.openpty()
    termios.tcsetwinsize(terminal, (50, 200))
    ends = {"stdin": terminal, "stdout": terminal, "stderr": terminal, "start_new_session": True}
    environment = dict(os.environ, HOME=home, ZDOTDIR=home, TERM="dumb")
    with subprocess.Popen(["zsh", "-d", "-i"], cwd=place, env=environment, **ends) as process:
        os.close(terminal)
        drained(control, process)
    os.close(control)
    return read(names["FOUND"]).split("\0")[:-1]


def check_shell(checks, shell, cases, found):
    """Compares the words that a shell completes. A shell may also offer words that match in another way than by their
    beginning."""
    checks.same(f"{shell}: number of completed lines", len(found), len(cases))
    for it, text in zip(cases, found):
        words = [word.removeprefix(it.left_out) for word in text.splitlines() if word]
        begun = it.begun.removeprefix(it.left_out)
        got = sorted({word for word in words if word.startswith(begun)})
        if it.wanted is None:
            others = {*FILES, *(name for option in options_of(it.words[0]) for name in option.names)}
            checks.same(f"{shell}: options or files for {it.line()!r}", sorted(others.intersection(got)), [])
        else:
            checks.same(f"{shell}: {it.line()!r}", got, sorted(it.wanted))


def check_completions(checks):
    """Installs the completions of all programs, and compares the words that each shell completes."""
    with tempfile.TemporaryDirectory() as folder:
        share, place, home = f"{folder}/share", f"{folder}/home/place", f"{folder}/home"
        os.makedirs(place)
        os.makedirs(f"{home}/programs")
        for name in FILES:
            write("", f"{place}/{name}")
        for name in PROGRAMS:
            # fish completes only for programs that exist.
            os.symlink("/bin/true", f"{home}/programs/{name}")
        done = run([sys.executable, f"{ROOT}/install/completions.py", share, *PROGRAMS])
        checks.same("the completions are written", done, (0, ""))
        cases = [it for program in PROGRAMS for it in cases_of(program)]
        for shell, complete in ("bash", by_bash), ("zsh", by_zsh), ("fish", by_fish):
            check_shell(checks, shell, cases, complete(share, place, cases))
