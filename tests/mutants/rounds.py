"""Tries edits by the prover, several in one check of a crate."""

import os
import shutil
import subprocess
import tempfile
from concurrent.futures import FIRST_COMPLETED, ThreadPoolExecutor, wait
from dataclasses import dataclass, field

from libraries import files_of
from places import BadEdit
from verdicts import all_functions, goal_at, is_real, messages, open_functions
from workspace import PARTS, ROOT, is_static, rattle_words

PROCESSORS = len(os.sched_getaffinity(0))

# Number of rounds of a crate without incremental data that run in turn on its folder. After two, nearly every function
# was proved once.
IN_TURN = 2


def rounds_of(edits):
    """Groups the edits of one crate into rounds in which no two edits change one function."""
    rounds = []
    for edit in edits:
        for one in rounds:
            if not any(it.is_constant() or edit.is_constant() or edit.functions() & it.functions() for it in one):
                one.append(edit)
                break
        else:
            rounds.append([edit])
    return rounds


def check(name, kept, edits):
    """Returns the lines of a check of the crate with these edits, on top of the incremental data in that folder. Only
    the functions that the edits change are checked, and those that they call. An edit of a constant may concern any
    function, so then all are checked."""
    texts, only = {}, []
    for edit in edits:
        texts = edit.applied(texts)
        only += [] if edit.is_constant() else [word for it in sorted(edit.functions()) for word in ("--only", it)]
    if not only:
        return check_texts(name, texts, ["--incremental", kept])
    lines = check_texts(name, texts, ["--incremental", kept, *only])
    # Without this line, a name fits no function, or more than one.
    return lines if any(it.startswith("only=") for it in lines) else check_texts(name, texts, ["--incremental", kept])


def check_texts(name, texts, more):
    """Returns the lines of a check of the crate with these texts in place of its own files."""
    with tempfile.TemporaryDirectory(prefix="edits-", ignore_cleanup_errors=True) as room:
        for part in PARTS:
            if os.path.isdir(f"{ROOT}/crates/{name}/{part}"):
                shutil.copytree(f"{ROOT}/crates/{name}/{part}", f"{room}/{part}")
        for file, text in texts.items():
            with open(f"{room}/{file}", "w", encoding="utf-8") as it:
                it.write(text)
        how = {"cwd": room, "stdin": subprocess.DEVNULL, "stdout": subprocess.PIPE, "stderr": subprocess.STDOUT}
        ran = subprocess.run([*rattle_words("check", name), *more], text=True, errors="replace", **how)
    return messages(ran.stdout.splitlines())


@dataclass
class Outcome:
    """Result of a round: the edits that it rejected, those still to be tried, and the reason why an edit cannot be
    tried. `cited` has the edits for which only a name of a proof is missing, and `goals` the unproved goals of each
    function."""

    refused: list
    left: list
    bad: str = ""
    cited: tuple = ()
    goals: dict = field(default_factory=dict)

    def goal(self, edit):
        """Returns a text with a goal that rejects an edit."""
        named = [goal for it in sorted(edit.functions()) for goal in self.goals.get(it, [])]
        return f"by the goal {named[0]}, " if named else ""


def try_round(name, kept, is_own, edits):
    """Checks a round on top of a folder of incremental data. If the folder is not the round's own, a copy of it is
    used."""
    try:
        if is_own:
            lines = check(name, kept, edits)
        else:
            with tempfile.TemporaryDirectory(prefix="edits-", ignore_cleanup_errors=True) as room:
                lines = check(name, shutil.copytree(kept, f"{room}/kept"), edits)
    except (BadEdit, OSError, shutil.Error) as why:
        # A smaller round may need fewer resources.
        return Outcome([], edits, str(why) or repr(why))
    judged = any(it.startswith(("logic=not-proved", "logic=proved", "only=")) for it in lines)
    if not judged:
        return Outcome([], edits,
                       next((it for it in lines if "error" in it), f"the check gave no verdict: {lines[-1:]}"))
    (goals, cites), known = open_functions(name, lines), all_functions(lines)
    strange = [it for edit in edits for it in edit.functions() - known if not edit.is_constant()]
    if strange:
        return Outcome([], edits, f"the check names no function {strange[0]}")
    if edits[0].is_constant():
        # The value of a constant may be stated by a lemma of its own.
        named = ([goal for it in goals.values() for goal in it]
                 or [goal for it in filter(is_real, lines) if (goal := goal_at(name, it))])
        return Outcome(edits, [], goals={it: named for it in edits[0].functions()}) if named else Outcome([], edits)
    if (goals.keys() | cites) - {it for edit in edits for it in edit.functions()}:
        return Outcome([], edits)
    refused = [it for it in edits if it.functions() & goals.keys()]
    cited = [it for it in edits if it not in refused and it.functions() & cites]
    return Outcome(refused, [it for it in edits if it not in refused and it not in cited], cited=tuple(cited),
                   goals=goals)


def tell(edit, refused, how):
    """Prints the verdict on an edit, and returns it. It is None if the edit could not be tried."""
    verdict = "refused" if refused else "open" if refused is False and edit.layer == "open" else "NOT REFUSED"
    print(f"edit {edit.crate}/{edit.name}: {verdict} ({how})", flush=True)
    return refused


@dataclass
class Work:
    """The rounds of a crate that are still to be tried, and the incremental data for them."""

    crate: str
    rounds: list
    kept: str = ""
    # Number of further rounds that run in turn on the folder itself.
    in_turn: int = 0
    is_busy: bool = False

    def begin(self, room):
        """Chooses the incremental data before the first round: those of the crate's own check, or a new folder."""
        if self.kept:
            return
        self.kept = f"{ROOT}/crates/{self.crate}/out/incremental"
        if not os.path.isdir(self.kept) or not os.listdir(self.kept):
            self.kept, self.in_turn = f"{room}/{self.crate}", IN_TURN
            os.makedirs(self.kept)

    def may_start(self):
        return self.rounds and not (self.in_turn and self.is_busy)


def size_of(crate):
    """Returns the number of bytes of the files of a crate, which is used to find the most expensive crate."""
    return sum(os.path.getsize(it) for it in files_of(crate))


def left_of(one, outcome):
    """Returns the rounds that try the edits that this round left."""
    if len(one) <= 1 or not outcome.left:
        return []
    if outcome.refused or outcome.cited:
        return [[it] for it in outcome.left]
    half = len(outcome.left) // 2
    return [outcome.left[:half], outcome.left[half:]]


def verdicts_of(one, outcome):
    """Prints and returns the verdicts on the edits of a round for which it is the last one."""
    found = {it: tell(it, True, f"{outcome.goal(it)}one of {len(one)} in a check") for it in outcome.refused}
    found |= {it: tell(it, False, "only a name that its proof cites is missing") for it in outcome.cited}
    if len(one) == 1 and outcome.left:
        found[one[0]] = tell(one[0], None if outcome.bad else False, outcome.bad or "alone")
    return found


def judge(edits, ended=None):
    """Tries all edits, with rounds in parallel, and returns for each whether it was rejected. Calls `ended` with the
    verdicts so far each time when the last round of a crate has ended."""
    verdicts, running = {}, {}
    with (tempfile.TemporaryDirectory(prefix="edits-", ignore_cleanup_errors=True) as room,
          ThreadPoolExecutor(PROCESSORS) as pool):
        # A static library comes last, because a build of its archive may run beside and keep what it proves.
        names = sorted(dict.fromkeys(it.crate for it in edits), key=lambda it: (is_static(it), -size_of(it)))
        works = [Work(it, rounds_of([edit for edit in edits if edit.crate == it])) for it in names]
        while running or any(it.rounds for it in works):
            for work in works:
                while len(running) < PROCESSORS and work.may_start():
                    work.begin(room)
                    one, is_own = work.rounds.pop(0), work.in_turn > 0
                    work.is_busy = is_own
                    running[pool.submit(try_round, work.crate, work.kept, is_own, one)] = work, one, is_own
            for done in wait(running, return_when=FIRST_COMPLETED).done:
                (work, one, is_own), outcome = running.pop(done), done.result()
                if is_own:
                    work.is_busy, work.in_turn = False, work.in_turn - (not outcome.bad)
                verdicts |= verdicts_of(one, outcome)
                work.rounds += left_of(one, outcome)
                if ended and not work.rounds and all(it is not work for it, _, _ in running.values()):
                    ended(verdicts)
    return verdicts
