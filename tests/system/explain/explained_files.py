"""Checks bad lines, long lines, and files that are records or none."""

import os
import subprocess
import tempfile

from explained import EXPLAIN, LIMIT, LONGEST, SETTINGS, WIDEST, explain, faults, message


def check_bad_lines(checks):
    """A bad line ends the explanation after the lines before it, and a second line gives the reason if it is known."""
    torn = "the last line has no newline"
    for name, record, said, error in (
        ("no event", b"open\n\nopem\nopen\n", "     1  opened\n\n", faults("bad script line 3")),
        ("two spaces", b"open\nin  1 00\n", "     1  opened\n", faults("bad script line 2")),
        ("a line of a peer", b"open\nin 1 0\x1b\n", "     1  opened\n", faults("bad script line 2")),
        ("a torn line", b"open\nin 1 00e", "     1  opened\n", faults("bad script line 2", torn)),
        ("a torn line that could be an event", b"open\nopen", "     1  opened\n", faults("bad script line 2", torn)),
        ("a torn comment", b"open\n# a", "     1  opened\n", faults("bad script line 2", torn)),
        ("a long line", b"open\n" + b"#" * (LONGEST + 1) + b"\n", "     1  opened\n",
         faults("bad script line 2", "the line has more than %d bytes" % LONGEST)),
        ("a long torn line", b"open\n" + b"0" * (3 * LONGEST), "     1  opened\n",
         faults("bad script line 2", "the line has more than %d bytes" % LONGEST)),
        ("an unknown option", b"#\n# options: --nothing \x1b\nopen\n", "#\n", faults("bad options in line 2")),
        ("two spaces in the options", b"# options: -d 0  -p 5683\n", "", faults("bad options in line 1")),
        ("options that are not UTF-8", b"# options: -d \xff\n", "", faults("bad options in line 1")),
        ("a bad value", b"# options: -d 1001\n", "",
         faults("bad options in line 1", "-d takes 0 to 1000 resources, not 1001")),
        ("a mode", b"# options: --stdio\n", "",
         faults("bad options in line 1", "--stdio and --script cannot be used together")),
        ("help in the options", b"# options: --help\n", "", faults("bad options in line 1")),
    ):
        checks.same(name, explain(record), (1, said, error))


def check_long_lines(checks):
    """The longest line is accepted. A line of the output has at most 1,024 bytes."""
    status, said, error = explain(b"#" * LONGEST + b"\nopen\n")
    checks.same("the longest comment", (status, said, error), (0, "#" * (WIDEST - 3) + "...\n     1  opened\n", ""))
    put = message(3, b"", [(11, b"a")], b"x" * 1_048_567)
    checks.same("the largest message", len(put), 1_048_576)
    status, said, error = explain(["# options: -d 1 --max-message 1048576", "open", "in 1 " + (SETTINGS + put).hex()])
    checks.same("the largest message in one event", (status, error), (0, ""))
    checks.same("line of the largest message", said.splitlines()[-1].partition(" payload ")[0],
                "     1  <-  first 2048 of 1048576 bytes: 0.03 PUT Uri-Path=\"a\"")
    checks.same("lines that are too long", [it for it in said.splitlines() if len(it) > WIDEST], [])


def check_files(checks):
    """The record can be a file. The statuses of bad files and of a full device are those of the manual."""
    with tempfile.TemporaryDirectory() as folder:
        name = os.path.join(folder, "record")
        with open(name, "w", encoding="ascii") as file:
            file.write("open\n")
        for words, wanted in (
            ([name], (0, b"     1  opened\n", b"")),
            (["--connection", "1", name], (0, b"     1  opened\n", b"")),
            ([folder], (3, b"", faults("cannot read").encode())),
            ([name + "x"], (3, b"", faults("cannot open %sx" % name).encode())),
            ([b"\xff"], (1, b"", faults("words that are not UTF-8").encode())),
        ):
            done = subprocess.run([EXPLAIN, *words], stdin=subprocess.DEVNULL, capture_output=True, timeout=LIMIT)
            checks.same("arguments %r" % words, (done.returncode, done.stdout, done.stderr), wanted)
        with open("/dev/full", "wb") as full:
            done = subprocess.run([EXPLAIN, name], stdout=full, stderr=subprocess.PIPE, timeout=LIMIT)
        checks.same("a full device", (done.returncode, done.stderr), (3, faults("cannot write").encode()))
    for words in ([], ["a", "b"], ["--nothing", "a"]):
        done = subprocess.run([EXPLAIN, *words], stdin=subprocess.DEVNULL, capture_output=True, timeout=LIMIT)
        checks.same("arguments %r" % words, (done.returncode, done.stdout, done.stderr[:6]), (1, b"", b"error:"))
