#!/usr/bin/env python3
"""Plays the rows of servers as whole scripts on the server's program.

    tests/vectors/scripts.py PROGRAM [FILE..]

A file is tests/vectors/rows/serve/NAME.rows. Each section is a script for `PROGRAM --script -`, with the options for
its settings. A section with a setting for which the program has no option is left out. So is an application with
another deadline than 60 seconds. The last line is 'N passed, M failed' for the lines, and the status is 0 if M is 0.
"""

import os
import pathlib
import subprocess
import sys

sys.path.insert(0, os.path.join(os.path.dirname(os.path.abspath(__file__)), "..", "harness"))
import rows  # noqa: E402
from layers import Step, serve  # noqa: E402

OPTIONS = {"max": "--max-message", "sent": "--max-sent", "queue": "--queue", "pending": "--pending",
           "observers": "--observers", "connections": "--connections", "dynamic": "-d"}

# Seconds that an application of a script has for a response.
DEADLINE = "60"


def lines_of(section):
    """Yields each event of a section with the line that it writes. The line of a request follows that of its `in`, and
    belongs to no event."""
    for event, line in serve.lines_of(section):
        events, lines = event.split("|"), line.split("|")
        for line in lines:
            yield "" if line.startswith("request ") else events.pop(0), line


def entry_option(text):
    """Returns the option for an entry of an application."""
    path, methods, attributes = serve.parts_of(text)
    return f"--application={path};{','.join(it.lower() for it in methods)};{attributes}"


def options_of(said):
    """Returns the options for the settings of a section, or `None` if the program has no option for one of them."""
    said = dict(said)
    answers = said.pop("answers", "")
    if answers and said.pop("deadline") != DEADLINE or said.keys() - OPTIONS.keys():
        return None
    entries = map(entry_option, answers.split(",")) if answers else []
    return [word for name, value in said.items() for word in (OPTIONS[name], value)] + list(entries)


def play(program, options, section):
    """Plays a section, and returns the number of its lines and the differences."""
    pairs = list(lines_of(section))
    script = "".join(event + "\n" for event, _ in pairs if event).encode()
    ran = subprocess.run([program, "--script", "-", *options], input=script, capture_output=True, timeout=300)
    found = ran.stdout.decode().splitlines()
    steps = [Step(event, line) for event, line in pairs]
    wrong = rows.differences(found, steps)
    if ran.returncode or ran.stderr or len(found) > len(pairs):
        wrong.append(f"status {ran.returncode}, {len(found)} lines: {ran.stderr.decode()[:200]}")
    return len(pairs), wrong


def main(program, *named):
    files = ([rows.read(pathlib.Path(it).resolve()) for it in named]
             or [rows.read(it) for it in sorted(rows.ROWS.glob("serve/*.rows"))])
    count = failed = left = 0
    for file in files:
        for opening, section in file.values:
            options = options_of(serve.said_of(opening))
            if options is None:
                left += 1
                continue
            lines, wrong = play(program, options, section)
            count, failed = count + lines, failed + len(wrong)
            for text in wrong[:3]:
                print(f"{file.name()}, {opening}: {text}")
    print(f"{left} sections left out")
    print(f"{max(count - failed, 0)} passed, {failed} failed")
    return 1 if failed else 0


if __name__ == "__main__":
    sys.exit(main(*sys.argv[1:]))
