#!/usr/bin/env python3
"""Does what docs/TUTORIAL.md says, from top to bottom, and compares the output with what the page shows:

    tests/system/tutorial.py

The page has three kinds of blocks of code:

- A block that names a file is the content of this file, in the reader's repository.
- A block marked `sh` has commands, which are run with `~` for a folder of this test. They must succeed, except for the
  last ones below the heading WRONG, where the prover must reject a body.
- Each line of a block marked `text` must be in the output of the commands above it. ` ..` stands for any text.

The libraries are copies of those that `tests/build` or the gate left. The last line is 'N passed, M failed'.
"""

import os
import random
import re
import signal
import subprocess
import sys
import tempfile

HERE = os.path.dirname(os.path.abspath(__file__))
sys.path[:0] = [os.path.join(HERE, "..", it) for it in ("harness", "tools", "mutants")]
from checks import Checks  # noqa: E402
from commands import read  # noqa: E402
from examples import FENCED, TUTORIAL  # noqa: E402
from libraries import is_made  # noqa: E402
from proof import rt_stamp  # noqa: E402
from workspace import ROOT, crates  # noqa: E402

# Heading of the step with a wrong body.
WRONG = "## 5. A wrong body"

# The reader's repository, below `~`.
REPOSITORY = "valve"

# Seconds after which the commands of a block are ended.
MOST_SECONDS = 600


def blocks(text):
    """Returns the blocks of code of a page, each with the heading above it: its language, its file and its content."""
    parts = re.split(r"^(?=## )", text, flags=re.M)
    return [(part.partition("\n")[0], *block) for part in parts for block in FENCED.findall(part)]


def is_shown(line, output):
    """Returns true if the output has a line that the page shows."""
    pattern = ".*".join(map(re.escape, line.split(" ..")))
    return any(re.fullmatch(pattern, it) for it in output)


class Reader:
    """Reader of the page, who pastes its commands into a shell. `home` is the folder for `~`."""

    def __init__(self, home):
        self.home, self.folder, self.output = home, ROOT, []

    def save(self, file, content):
        """Writes a file of the reader's repository."""
        path = f"{self.home}/{REPOSITORY}/{file}"
        os.makedirs(os.path.dirname(path), exist_ok=True)
        with open(path, "w", encoding="utf-8") as it:
            it.write(content)

    def paste(self, commands):
        """Runs commands in the folder in which those before them ended, with their variable `from`. Returns the status,
        or `None` if they had to be ended."""
        words = ["bash", "-c", f'{commands}\nstatus=$?; pwd > "$HOME/folder"; exit $status']
        how = {"stdin": subprocess.DEVNULL, "stdout": subprocess.PIPE, "stderr": subprocess.STDOUT, "text": True,
               "errors": "replace", "process_group": 0}
        ran = subprocess.Popen(words, cwd=self.folder, env={**os.environ, "HOME": self.home, "from": ROOT}, **how)
        try:
            output = ran.communicate(timeout=MOST_SECONDS)[0]
        except subprocess.TimeoutExpired:
            os.killpg(ran.pid, signal.SIGKILL)
            return None
        self.output = output.splitlines()
        with open(f"{self.home}/folder", encoding="utf-8") as file:
            self.folder = file.read().strip()
        return ran.returncode

    def stamp_libraries(self):
        """Writes the stamps by which `rt` accepts the copied libraries: `rt ci` leaves its libraries without them.
        Returns the libraries that are not proved, or are older than their files; these get no stamp."""
        below, unproved = crates(), []
        for library in below:
            made = f"{self.home}/{REPOSITORY}/crates/{library}/out/rlib"
            if not os.path.isdir(os.path.dirname(os.path.dirname(made))) or os.path.exists(f"{made}/stamp"):
                continue
            if is_made(library, below[library]):
                with open(f"{made}/stamp", "w", encoding="utf-8") as it:
                    it.write(rt_stamp(library))
            else:
                unproved.append(library)
        return unproved


def follow(checks, reader, page):
    """Does what the page says, up to the first step with another result than it shows."""
    is_command = [language == "sh" for _, language, *_ in page]
    last_wrong = max(at for at, (heading, *_) in enumerate(page) if heading == WRONG and is_command[at])
    for at, (heading, _, file, content) in enumerate(page):
        if file:
            reader.save(file, content)
        elif is_command[at]:
            checks.same(f"{heading}: status of the commands", reader.paste(content), int(at == last_wrong))
        else:
            missing = [it for it in content.splitlines() if not is_shown(it, reader.output)]
            checks.same(f"{heading}: lines of the page that the output lacks", missing, [])
        if checks.failed:
            print("The output of the last commands:", *reader.output, sep="\n")
            return
        if at == 0:
            checks.same("libraries that are not proved", reader.stamp_libraries(), [])


def main():
    # With one processor, `rt` uses one job. Each further one would load all libraries again.
    os.sched_setaffinity(0, {random.choice(sorted(os.sched_getaffinity(0)))})
    checks = Checks()
    with tempfile.TemporaryDirectory(prefix="tutorial-") as home:
        follow(checks, Reader(home), blocks(read(ROOT, TUTORIAL)))
    return checks.end()


if __name__ == "__main__":
    sys.exit(main())
