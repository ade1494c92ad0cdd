"""Finds the crates that differ from the last commit for which `make mutants` tried all their edits.

The file tests/mutants/last_runs has a line for each crate: `CRATE: COMMIT, DATE, RESULT`. `make mutants` writes the
line of a crate when it has tried the last edit of the crate and none has failed. So a run that is ended early keeps
what it has tried. It writes nothing if a file of crates or tests differed from the commit when the run began, or
differs now. The file is committed with the next change.

A crate differs from its run in each of these cases. Comments and line breaks do not count.

- It has no line.
- A file of its src, specs or proofs differs, or one of its edits.
- A crate below it has other specs, or a function that other crates can call has another signature or other clauses
  there.
"""

import contextlib
import datetime
import functools
import glob
import io
import os
import re
import subprocess
import sys
import tarfile

TESTS = os.path.dirname(os.path.dirname(os.path.abspath(__file__)))
sys.path[:0] = [f"{TESTS}/harness", f"{TESTS}/tools"]
import contract_diff  # noqa: E402
from workspace import ROOT, crates  # noqa: E402

LAST_RUNS = "tests/mutants/last_runs"
LINE = re.compile(r"(\w+): (\w+), \d{4}-\d\d-\d\d, .+")

# Maximum number of commits after a run.
MOST_COMMITS = 200

# The folders of a crate whose files count, and a line of a comment in them.
FOLDERS = ("src", "specs", "proofs")
COMMENT = re.compile(r"^ *(//|--).*$", re.M)

# The marks that `rt fmt` adds to a bracket with line breaks: a last `,` or `;`, and a first `|`.
MARKS = re.compile(r"[,;](?=[)}\]])|(?<=\[)\|")

# An import without white space: its module, and the imported names. Several imports count as one of all names.
IMPORT = re.compile(r"((?:pub|unfoldable|ghost)*use[^{};]*\.)\{([^{}]*)\};?")

# The folder with the edits of each crate, in a file CRATE.edits, and the line before an edit.
EDITS = "tests/mutants"
HEADING = re.compile(r"^= (\w+)\n", re.M)


class BadRun(Exception):
    """A run is too old or unknown; the text has the reason."""


def git(*words):
    """Returns the lines that a command of git writes, or None if it fails."""
    how = {"stdin": subprocess.DEVNULL, "stdout": subprocess.PIPE, "stderr": subprocess.DEVNULL}
    ran = subprocess.run(["git", "-C", ROOT, *words], text=True, **how)
    return None if ran.returncode else ran.stdout.splitlines()


def lines_by_crate():
    """Returns the lines of LAST_RUNS by their crates."""
    with contextlib.suppress(FileNotFoundError), open(f"{ROOT}/{LAST_RUNS}", encoding="utf-8") as file:
        lines = file.read().splitlines()
        if wrong := [it for it in lines if not LINE.fullmatch(it)]:
            raise BadRun(f"has the line {wrong[0]}")
        return {it.partition(":")[0]: it for it in lines}
    return {}


def last_runs():
    """Returns the commit of the last run of each crate that had one. Each must be one of the last MOST_COMMITS of this
    history. A tree without its history, such as a shallow clone, has none."""
    runs = {crate: LINE.fullmatch(line)[2] for crate, line in lines_by_crate().items()}
    if git("rev-parse", "--is-shallow-repository") != ["false"]:
        print(f"{LAST_RUNS}: the history is not here, so all crates count as different")
        return {}
    for commit in sorted(set(runs.values())):
        if git("merge-base", "--is-ancestor", commit, "HEAD") is None:
            raise BadRun(f"names the commit {commit}, which is not in this history (a rebase?)")
        count = int(git("rev-list", "--count", f"{commit}..HEAD")[0])
        if count > MOST_COMMITS:
            raise BadRun(f"names the commit {commit}, after which there are {count} commits, more than {MOST_COMMITS}")
    return runs


def split_edits(text):
    """Returns the name and the text of each edit of a file."""
    parts = HEADING.split(text)
    return [(name, body.strip("\n")) for name, body in zip(parts[1::2], parts[2::2])]


def edits_in(file, text):
    """Returns the texts of the edits in the file of a crate, by crate and name."""
    crate = os.path.basename(file).removesuffix(".edits")
    return {(crate, name): body for name, body in split_edits(text)}


def edits_now():
    """Returns the texts of all edits, by crate and name."""
    found = {}
    for file in glob.glob(f"{ROOT}/{EDITS}/*.edits"):
        with open(file, encoding="utf-8") as it:
            found |= edits_in(file, it.read())
    return found


def files_at(commit, folder):
    """Yields the paths below a folder at a commit, and their texts."""
    words = ["git", "-C", ROOT, "archive", commit, folder]
    archive = subprocess.run(words, stdin=subprocess.DEVNULL, stdout=subprocess.PIPE, check=True).stdout
    with tarfile.open(fileobj=io.BytesIO(archive)) as files:
        for it in filter(tarfile.TarInfo.isfile, files):
            yield it.name, files.extractfile(it).read().decode(errors="replace")


def edits_at(commit):
    """Returns the same for a commit. (Until 2026-11-30 the files were in a folder `edits` of EDITS.)"""
    found = {}
    for file, text in files_at(commit, EDITS):
        if os.path.dirname(file) in (EDITS, f"{EDITS}/edits") and file.endswith(".edits"):
            found |= edits_in(file, text)
    return found


def differing_names(then, now):
    """Returns the names whose texts differ between two tables."""
    return {it for it in then.keys() | now.keys() if essence(then.get(it, "")) != essence(now.get(it, ""))}


def essence(text):
    """Returns a text without comments, white space, and the marks of a bracket with line breaks. Each imported name has
    an import of its own."""
    bare = MARKS.sub("", "".join(COMMENT.sub("", text).split()))
    return IMPORT.sub(lambda it: "".join(f"{it[1]}{name};" for name in it[2].split(",")), bare)


def edits_since(commit):
    """Returns the crate and the name of each edit that differs from a commit."""
    return differing_names(edits_at(commit), edits_now())


def is_counted(file):
    """Returns true for a file of a crate's folders that count."""
    parts = file.split("/")
    return len(parts) > 3 and parts[2] in FOLDERS


def files_now():
    """Returns the files of crates that count, also those that git does not know yet, with their texts."""
    found = {}
    for file in filter(is_counted, git("ls-files", "--cached", "--others", "--exclude-standard", "crates")):
        with contextlib.suppress(FileNotFoundError), open(f"{ROOT}/{file}", encoding="utf-8", errors="replace") as it:
            found[file] = it.read()
    return found


@functools.cache
def files_since(commit):
    """Returns the files of crates that differ from a commit."""
    return differing_names({file: it for file, it in files_at(commit, "crates") if is_counted(file)}, files_now())


def changed_files(runs):
    """Returns the files of crates that differ from the last run of their crate."""
    return {it for commit in set(runs.values()) for it in files_since(commit) if runs.get(crate_of(it)) == commit}


def changed_edits(runs):
    """Returns the crate and the name of each edit that differs from the last run of its crate."""
    return {it for commit in set(runs.values()) for it in edits_since(commit) if runs.get(it[0]) == commit}


def crate_of(file):
    """Returns the crate of a file."""
    return file.split("/")[1]


def changes_since(commit, below):
    """Returns the crates that differ from a commit themselves, and those that differ in what they state to others."""
    files = files_since(commit)
    own = {crate_of(it) for it in files} | {crate for crate, _ in edits_since(commit)}
    stated = {crate_of(it) for it in files if "/specs/" in it}
    coded = {crate_of(it) for it in files if "/src/" in it and crate_of(it) in below} - stated
    stated |= {it for it in coded if contract_diff.contracts(commit, it) != contract_diff.contracts(None, it)}
    return own, stated


def differing(runs):
    """Returns the crates that differ from their last runs, those that a commit changed last first."""
    below = crates()
    since = {commit: changes_since(commit, below) for commit in set(runs.values())}

    def differs(crate):
        own, stated = since[runs[crate]]
        return crate in own or not stated.isdisjoint(below[crate])

    def changed_at(crate):
        file = f"crates/{crate}"
        is_changed = git("status", "--porcelain", "--", file) != []
        return is_changed, git("log", "-1", "--format=%ct", "--", file) or [""]

    found = [it for it in below if it not in runs or differs(it)]
    return sorted(found, key=changed_at, reverse=True)


def retyped(runs):
    """Returns the crates whose edits may have other types than in their last runs. An edit differs, or the code or
    specifications, or those of a crate below."""
    below = crates()
    coded = {it: {crate_of(file) for file in files_since(it) if "/proofs/" not in file} for it in set(runs.values())}
    edited = {it: {crate for crate, _ in edits_since(it)} for it in set(runs.values())}
    return {it for it in below
            if it not in runs or it in edited[runs[it]] or not coded[runs[it]].isdisjoint([it, *below[it]])}


def unchanged_head():
    """Returns the commit of HEAD, or an empty text if files of crates or tests differ from it."""
    head = git("rev-parse", "HEAD")
    differ = git("status", "--porcelain", "--", "crates", "crates.txt", "tests", f":!{LAST_RUNS}")
    return head[0] if head and differ == [] else ""


class Record:
    """The lines of a run that began at a commit. An empty commit says that files differed then."""

    def __init__(self, commit):
        self.commit, self.written = commit, {}
        if not commit:
            print(f"{LAST_RUNS} stays as it is: files differ from HEAD")

    def add(self, results):
        """Writes the lines of further crates. `results` has the number of their edits. Writes nothing if a file has
        changed since the run began."""
        if not self.commit or self.written == results:
            return
        if self.commit != unchanged_head():
            print(f"{LAST_RUNS} stays as it is: files have changed since the run began")
            return
        self.written = results
        lines = lines_by_crate()
        lines |= {it: f"{it}: {self.commit}, {datetime.date.today()}, {count} passed" for it, count in results.items()}
        with open(f"{ROOT}/{LAST_RUNS}", "w", encoding="utf-8") as file:
            file.write("".join(f"{lines[it]}\n" for it in crates() if it in lines))
        print(f"{LAST_RUNS} names the commit {self.commit[:8]} for {len(results)} crates: commit that file", flush=True)
