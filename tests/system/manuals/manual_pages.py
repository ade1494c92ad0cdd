"""The sections, options, diagnostics and examples of a manual."""

import os
import re
import subprocess
import textwrap

from workspace import ROOT

# The status for an invalid command line.
USAGE = 1

# Timeout of a program that ends by itself, in seconds.
LIMIT = 120


def run(words, stream=b""):
    """Runs a program that ends by itself. Returns its status, its output and its error output."""
    done = subprocess.run(words, input=stream, capture_output=True, timeout=LIMIT)
    return done.returncode, done.stdout.decode(errors="replace"), done.stderr.decode(errors="replace")


class Manual:
    """A manual: its text, and the lines of its sections."""

    def __init__(self, name, number=1):
        self.name = name
        self.path = os.path.join(ROOT, "man", "%s.%s" % (name, number))
        with open(self.path, encoding="utf-8") as file:
            self.text = file.read()
        parts = re.split(r"(?m)^\.Sh (.*)\n", self.text)
        self.sections = dict(zip(parts[1::2], (part.splitlines() for part in parts[2::2])))

    def items(self, section):
        """Returns the items of the outer lists of a section: the words after `.It`, and the lines up to the next
        item."""
        found, depth = [], 0
        for line in self.sections[section]:
            depth += line.startswith(".Bl") - line.startswith(".El")
            if depth == 1 and line.startswith(".It "):
                found.append((line.split()[1:], []))
            elif depth and found:
                found[-1][1].append(line)
        return found

    def options(self):
        """Returns the items that describe options: the names, each with the name of its value or nothing, and the
        text."""
        found = []
        for words, lines in self.items("DESCRIPTION"):
            parts = [part.split() for part in " ".join(words).split(" , ")]
            assert all(it[0] == "Fl" for it in parts), words
            found.append(([("-" + name, " ".join(value[1:])) for _, name, *value in parts], flowing(lines)))
        return found

    def called_with(self):
        """Returns the options of the synopsis in order: name, and name of the value or nothing."""
        text = "\n".join(self.sections["SYNOPSIS"])
        return [("-" + name, value or "") for name, value in re.findall(r"\bFl (\S+)(?: Ar (\S+))?", text)]

    def reported_lines(self):
        """Returns the lines listed as diagnostics, each with its status."""
        found, status, depth = {}, None, 0
        for line in self.sections["DIAGNOSTICS"]:
            depth += line.startswith(".Bl") - line.startswith(".El")
            if named := re.fullmatch(r"With status (\d):", line):
                status = int(named[1])
            elif depth == 1 and line.startswith(".It "):
                found[line[4:].replace("Ar ", "")] = status
        return found

    def part(self, section):
        """Returns a section as it is rendered."""
        shown = re.split(r"(?m)^(?=\S)", self.rendered()[1])
        return next(part for part in shown if part.startswith(section + "\n"))

    def examples(self, section="EXAMPLES"):
        """Returns the blocks of examples as they are rendered: each a list of commands with the lines that they write.
        A line of a command that ends in a backslash continues on the next one."""
        text = re.sub(r"\\\n +", "", self.part(section))
        blocks = [textwrap.dedent(block) for block in text.split("\n\n") if block.lstrip().startswith("$ ")]
        return [[command.partition("\n")[::2] for command in re.split(r"(?m)^\$ ", block)[1:]] for block in blocks]

    def rendered(self):
        """Returns the status of mandoc, and the manual as a text without bold and underlined letters."""
        status, text, _ = run(["mandoc", "-T", "ascii", self.path])
        return status, re.sub(r".\x08", "", text)


def plain(words):
    """Returns the text of the words after `.It`: an argument is `{}`, and an option its name."""
    text, macro, is_joined = "", "No", True
    for word in words:
        if word == "Ns":
            is_joined = True
        elif word in ("Ar", "Fl", "No"):
            macro = word
        elif word in (",", ";", ":", ")", "."):
            text += word
        else:
            text += ("" if is_joined else " ") + {"Ar": "{}", "Fl": "-" + word}.get(macro, word.replace("\\-", "-"))
            is_joined = False
    return text


def flowing(lines):
    """Returns lines as one text, without macros but with the names of options."""
    return " ".join(plain(re.sub(r"^\.(?!Fl |Ar |No )\w+ ?|^\.", "", it).split()) if it.startswith(".") else it
                    for it in lines)


def nested_items(lines):
    """Returns the items of the lists in the lines of an item: the text after `.It`, and the text of the item."""
    found, is_inside = [], False
    for line in lines:
        is_inside = line.startswith(".Bl") or is_inside and not line.startswith(".El")
        if line.startswith(".It "):
            found.append((plain(line.split()[1:]), []))
        elif is_inside and found:
            found[-1][1].append(line.removeprefix(".Ar ").replace("\\-", "-"))
    return [(name, " ".join(it for it in text if not it.startswith("."))) for name, text in found]


def front_of(line):
    """Returns a line up to the first part that differs from run to run."""
    return re.split(r"[{]| (?:n|file|option|address|reason|-\w)(?: No seconds)?$", line)[0].strip()
