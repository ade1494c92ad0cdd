#!/usr/bin/env python3
"""Writes the completions of programs for bash, zsh and fish:

    install/completions.py FOLDER PROGRAM ..

FOLDER is that of shared data, such as /usr/local/share. The options are those of options.tsv, which has a row in a
line, with tabs between these columns:

- the program, or `*` for all;
- the short and the long name of the option; an argument that is no option has none;
- the name of its value, followed by three dots if the option may be given several times; a flag has none;
- the default, if there is one;
- the values that it takes, as the line for another value names them; empty if it takes every text;
- its text in the help without the default, with `{}` for the range of its values;
- the options that it excludes, separated by commas;
- the options that it needs, or another option with the only value that it allows;
- the words by which a shell completes the value or the argument; names of files and hosts need none;
- `yes` if the header of a record has the option.

The rows of a program have the order of its usage line. tests/harness/option_table.py derives the texts that tests
compare with the programs and the manuals.
"""

import os
import re
import sys
from dataclasses import dataclass

TABLE = os.path.join(os.path.dirname(os.path.abspath(__file__)), "options.tsv")

COLUMNS = ["Program", "Short", "Long", "Value", "Default", "Allowed", "Text", "Excludes", "Needs", "Words", "Record"]

# The range in the values that an option takes.
RANGE = re.compile(r"(?:\d+|--[\w-]+) to \d+|at most \d+ bytes")


@dataclass(frozen=True)
class Option:
    """An option of a program, or an argument that is no option."""

    names: tuple
    value: str
    is_repeated: bool
    default: str
    allowed: str
    text: str
    excludes: tuple
    needs: str
    words: tuple
    is_recorded: bool

    @property
    def name(self):
        """Returns the name of the option in messages, or nothing for an argument."""
        return self.names[0] if self.names else ""

    def about(self):
        """Returns the text of the option without its default."""
        found = RANGE.search(self.allowed)
        return self.text.replace("{}", found[0] if found else self.allowed)


def option_in(line):
    """Returns the program and the option in a line of the table."""
    program, short, long, value, default, allowed, text, excludes, needs, words, record = line.split("\t")
    return program, Option(tuple(it for it in (short, long) if it), value.removesuffix("..."), value.endswith("..."),
                           default, allowed, text, tuple(it for it in excludes.split(", ") if it), needs,
                           tuple(words.split()), record == "yes")


def options_of(program):
    """Returns the options and arguments of a program, in the order of the table."""
    with open(TABLE, encoding="utf-8") as file:
        head, *lines = file.read().splitlines()
    if head.split("\t") != COLUMNS:
        raise ValueError(f"{TABLE}: the columns are not {', '.join(COLUMNS)}")
    return [option for name, option in map(option_in, lines) if name in (program, "*")]


# ---- bash

BASH = """# Bash completion of @PROGRAM@(1).

@FUNCTION@()
{
    local word=${COMP_WORDS[COMP_CWORD]} option=${COMP_WORDS[COMP_CWORD - 1]}
    COMPREPLY=()

    # Bash splits --option=value into three words.
    if [[ $word == "=" ]]; then
        word=
    elif [[ $option == "=" ]]; then
        option=${COMP_WORDS[COMP_CWORD - 2]}
    fi

    local from=(-W "@NAMES@")
    case $option in
@CASES@
    esac

    if [[ ${from[0]} == -f ]]; then
        compopt -o filenames
    elif [[ ${from[1]} == */ ]]; then
        compopt -o nospace
    fi
    mapfile -t COMPREPLY < <(compgen "${from[@]}" -- "$word")
} &&
    complete -F @FUNCTION@ @PROGRAM@
"""

# The arguments of compgen for values that are no words.
BASH_KINDS = {"FILE": "-f", "HOST": "-A hostname"}


def bash_from(option):
    """Returns the arguments of compgen for a value, or nothing if there is no completion."""
    return '-W "%s"' % " ".join(option.words) if option.words else BASH_KINDS.get(option.value, "")


def bash(program):
    """Returns the completion of a program for bash."""
    options = options_of(program)
    names = [name for it in options for name in it.names]
    cases = {}
    for option in options:
        if option.value and option.names:
            cases.setdefault(bash_from(option), []).extend(option.names)
    arms = [f"{' | '.join(named)}) {f'from=({found})' if found else 'return'} ;;" for found, named in cases.items()]
    arms += [f"*) [[ $word == -* ]] || from=({bash_from(it)}) ;;" for it in options if not it.names]
    values = {"PROGRAM": program, "FUNCTION": "_" + program.replace("-", "_"), "NAMES": " ".join(names),
              "CASES": "\n".join(" " * 8 + it for it in arms)}
    return re.sub(r"@([A-Z]+)@", lambda it: values[it[1]], BASH)


# ---- zsh

ZSH = """#compdef {program}
# Zsh completion of {program}(1).

_arguments -S : \\
{specs}
"""

ZSH_KINDS = {"FILE": "_files", "HOST": "_hosts"}


def zsh_escaped(text):
    """Returns a text in which no character has a meaning of its own in a specification of zsh."""
    return re.sub(r"([\[\]:\\])", r"\\\1", text)


def zsh_quoted(text):
    return "'%s'" % text.replace("'", "'\\''")


def zsh_value(option):
    """Returns the specification of a value: its name and its completion. A word that ends in a slash has no space
    after it."""
    words = zsh_escaped(" ".join(option.words))
    action = f'compadd -S "" {words}' if words.endswith("/") else f"({words})" if words else ""
    return f":{zsh_escaped(option.value)}:{action or ZSH_KINDS.get(option.value, ' ')}"


def zsh_specs(option, options):
    """Yields the specifications of an option: one for each of its names, or one for an argument."""
    if not option.names:
        yield zsh_quoted(zsh_value(option))
    apart = [it for it in option.excludes if " " not in it]
    apart += [it.name for it in options if option.name in it.excludes]
    for name in option.names:
        others = [*option.names, *apart] if len(option.names) > 1 or apart else []
        before = "*" if option.is_repeated else f"({' '.join(others)})" if others else ""
        joined = ("=" if name.startswith("--") else "+") if option.value else ""
        value = zsh_value(option) if option.value else ""
        yield zsh_quoted(f"{before}{name}{joined}[{zsh_escaped(option.about())}]{value}")


def zsh(program):
    """Returns the completion of a program for zsh."""
    options = options_of(program)
    specs = [it for option in options for it in zsh_specs(option, options)]
    return ZSH.format(program=program, specs=" \\\n".join(" " * 4 + it for it in specs))


# ---- fish

# Completions of values that are no words: files, also if the program has none as arguments, and hosts.
FISH_KINDS = {"FILE": "-r -F", "HOST": "-x -a '(__fish_print_hostnames)'"}


def fish_quoted(text):
    return "'%s'" % re.sub(r"(['\\])", r"\\\1", text)


def fish_line(option):
    """Returns the words that describe an option or an argument to fish."""
    names = " ".join(f"-l {it[2:]}" if it.startswith("--") else f"-s {it[1:]}" for it in option.names)
    words = f"-a {fish_quoted(' '.join(option.words))}" if option.words else ""
    if option.names and option.value:
        words = f"-x {words}".rstrip() if words else FISH_KINDS.get(option.value, "-x")
    return " ".join(it for it in (names, words, f"-d {fish_quoted(option.about())}") if it)


def fish(program):
    """Returns the completion of a program for fish."""
    options = options_of(program)
    has_files = any(not it.names and it.value == "FILE" for it in options)
    lines = ([] if has_files else ["-f"]) + [fish_line(it) for it in options if it.names or it.words]
    return f"# Fish completion of {program}(1).\n\n" + "".join(f"complete -c {program} {it}\n" for it in lines)


# ---- files

def files(program, functions="site-functions"):
    """Returns the completions of a program, by their paths in the folder of shared data. A package of Debian has those
    of zsh in the folder vendor-completions."""
    return {f"bash-completion/completions/{program}": bash(program), f"zsh/{functions}/_{program}": zsh(program),
            f"fish/vendor_completions.d/{program}.fish": fish(program)}


def main(words):
    if len(words) < 2:
        sys.exit(__doc__.splitlines()[2].strip())
    os.umask(0o022)
    folder, *programs = words
    for name, text in [it for program in programs for it in files(program).items()]:
        path = os.path.join(folder, name)
        os.makedirs(os.path.dirname(path), exist_ok=True)
        with open(path, "w", encoding="utf-8") as file:
            file.write(text)
        os.chmod(path, 0o644)


if __name__ == "__main__":
    main(sys.argv[1:])
