#!/usr/bin/env python3
"""Runs the commands of README.md and docs/QUICKSTART.md, and compares what they print with what the documents show:

    tests/system/documents.py bin/coap-server bin/coap-client bin/coap-explain

A session is a block of commands that starts the server. The texts after `# prints` in it, up to a comma and a space,
are its output. Equal lines in a row count once. In another block, each line after `$ ` is a command, and the lines up
to the next one are its output.

Each session has a port of its own in place of 5683, and a folder of its own.
"""

import os
import re
import signal
import subprocess
import sys
import tempfile

sys.path.insert(0, os.path.join(os.path.dirname(os.path.abspath(__file__)), "..", "harness"))
from checks import side_by_side  # noqa: E402
from peers import free_port  # noqa: E402
from workspace import ROOT  # noqa: E402

DOCUMENTS = ["README.md", "docs/QUICKSTART.md"]
NAMES = ["coap-server", "coap-client", "coap-explain"]

# Seconds of the longest block. Its client observes for 10 seconds.
MOST_SECONDS = 60

# The port that a server has without an option.
PORT = 5683


def blocks(text):
    """Returns the blocks of indented lines of a document, without their indentation."""
    found = re.findall(r"(?:^    .*\n)+", text, re.M)
    return [re.sub(r"^    ", "", it, flags=re.M) for it in found]


def without_repetitions(lines):
    """Returns the lines, with those that equal the one before left out."""
    return [it for at, it in enumerate(lines) if at == 0 or lines[at - 1] != it]


def with_port(text, port):
    """Returns a session with another port for its server."""
    text = text.replace("-A 127.0.0.1 ", f"-A 127.0.0.1 -p {port} ").replace("//127.0.0.1/", f"//127.0.0.1:{port}/")
    return text.replace(f"127.0.0.1:{PORT}", f"127.0.0.1:{port}")


def played(commands, programs):
    """Runs commands in a folder whose `bin` has these programs. Returns the status, or `None` if they had to be ended,
    and the lines of both outputs."""
    with tempfile.TemporaryDirectory(prefix="documents-") as folder:
        os.mkdir(f"{folder}/bin")
        for name, program in zip(NAMES, programs):
            os.symlink(program, f"{folder}/bin/{name}")
        ran = subprocess.Popen(["sh", "-c", commands], cwd=folder, stdin=subprocess.DEVNULL, stdout=subprocess.PIPE,
                               stderr=subprocess.STDOUT, text=True, start_new_session=True)
        try:
            output, status = ran.communicate(timeout=MOST_SECONDS)[0], ran.returncode
        except subprocess.TimeoutExpired:
            os.killpg(ran.pid, signal.SIGKILL)
            output, status = ran.communicate()[0], None
    return status, output.splitlines()


def check_session(checks, path, text, programs):
    """Checks what a session prints."""
    text = with_port(text, free_port())
    shown = [it.partition(", ")[0] for it in re.findall(r"# prints (.*)", text)]
    checks.same(f"{path}: a session waits for the server", shown[0].startswith("coap-server: listening on "), True)
    status, lines = played(text, programs)
    checks.same(f"{path}: session", (status, without_repetitions(lines)), (0, without_repetitions(shown)))


def check_commands(checks, path, text, programs):
    """Checks what the commands of a block print, one after the other."""
    commands, shown = re.findall(r"^\$ (.*)", text, re.M), re.sub(r"^\$ .*\n", "", text, flags=re.M)
    checks.same(f"{path}: commands", played("\n".join(commands), programs), (0, shown.splitlines()))


def runs(programs):
    """Yields the check of each block, with its arguments."""
    for path in DOCUMENTS:
        with open(f"{ROOT}/{path}", encoding="utf-8") as file:
            for text in blocks(file.read()):
                if "bin/coap-server -A" in text:
                    yield check_session, path, text, programs
                elif text.startswith("$ "):
                    yield check_commands, path, text, programs


def main(words):
    found = list(runs([os.path.abspath(it) for it in words]))
    checks = side_by_side(found, len(found))
    checks.same("documents with a session", [it[1] for it in found if it[0] == check_session], DOCUMENTS)
    return checks.end()


if __name__ == "__main__":
    sys.exit(main(sys.argv[1:]))
