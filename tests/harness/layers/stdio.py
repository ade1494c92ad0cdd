"""Rows for runs over one input and one output, in several forms. Settings are words, each followed by its value: `by`,
`cut`, `cut-again`, `read-fails`, `taking`, `room` and `write-fails` of the devices, and the limits of the
configuration.

    = BYTES SETTINGS      the input, and the settings of all rows after it
    SETTINGS => WRITTEN RESULT [reads N] [writes N]
                          further settings or `as-it-is`; the bytes written; the reason for the end of the run, or
                          `Err(Fault)`; the numbers of reads, and of writes that accepted bytes. With `each-write`,
                          writes accept one byte, and each of them fails in turn, or accepts none
    = messages            BYTES => WRITTEN RESULT: the input, and the output after the CSM, with reads and writes of
                          one byte, of two and of all, and with every split and pair of splits. `read` is the number of
                          bytes up to the stop or the end
    = talk SETTINGS       BYTES => BYTES: messages that arrive one after another in one run, and the output for each,
                          with reads and writes of one byte, of three and of all
    = calls BYTES SETTINGS
                          the calls of the devices as lines, and then the result: `read ROOM gave COUNT` or
                          `read ROOM failed`, and `write BYTES`, followed by `took COUNT` if that is not all, or by
                          `failed`. At `refused?` an allocation may fail: the run then ends with the calls before it
    = many COUNT SETTINGS SETTINGS => RESULT: COUNT Pings and GETs of the root in turn, with tokens of one byte, after
                          a CSM. Each is answered
    = faults              the number and the text of each error
"""

import re
from dataclasses import dataclass, field

from layers import Step
from message_syntax import bytes_of, spelled

# No row depends on those before it.
ALONE = True

ALL = 2**64 - 1

# Settings of the devices and of the configuration, in the order of the probe, with their defaults.
DEVICES = {"by": ALL, "cut": 0, "cut-again": 0, "read-fails": ALL, "taking": ALL, "room": ALL, "write-fails": ALL}
LIMITS = {"max": 65536, "sent": 65536, "queue": 131072, "pending": 16, "observers": 16, "outstanding": 16,
          "connections": 16, "dynamic": 0, "rep": 65000, "turns": 10**12, "moment": 0, "versions": 0, "ids": 0}

OWN = bytes.fromhex("60e1230100004140")


@dataclass
class RunStep(Step):
    """A step with its run."""

    run: object = None


@dataclass
class Run:
    """A run: its settings, its input, and the expected result.

    `calls` has the expected calls of the devices, if the row has them; otherwise `written` has the expected output.
    `refusals` has the numbers of calls after which an allocation may fail. `counts` has the expected numbers of reads
    and writes, if they are checked.
    """

    said: dict
    sent: bytes
    answer: str
    written: bytes = b""
    calls: list = None
    refusals: list = None
    counts: dict = field(default_factory=dict)

    def wanted(self):
        if self.calls is not None:
            return "; ".join(self.calls + [self.answer])
        counts = "".join(f" {name} {count}" for name, count in self.counts.items())
        return f"{self.written.hex() or '-'} {self.answer}{counts}"

    def event(self):
        numbers = (str(self.said.get(name, usual)) for name, usual in DEVICES.items())
        return " ".join(["serve", self.sent.hex() or "-", *numbers])

    def opening(self):
        return "= stdio " + " ".join(str(self.said.get(name, usual)) for name, usual in LIMITS.items())

    def reported(self, line):
        """Returns the line of the probe in the form of the row."""
        return self.reported_by(*calls_of(line))

    def reported_by(self, calls, answer):
        """Returns calls and a result in the form of the row."""
        if self.calls is not None:
            return "; ".join([call_line(*call) for call in calls] + [answer])
        return reported_counts(calls, answer, self.counts)


def calls_of(line):
    """Returns the calls of a line and the result. A call is a word, the bytes or the size of the buffer, and the
    outcome."""
    words, calls = line.split(), []
    while words and words[0] in ("read", "write"):
        word, room, handed, came = words[:4]
        calls.append((word, room if word == "read" else handed, "failed" if came == "None" else came[5:-1]))
        words = words[4:]
    return calls, answer_of(" ".join(words))


def answer_of(text):
    """Returns the result of a run. `unreported` follows if it does not say which device failed."""
    result, *failed = text.rsplit(" ", 2)
    report = re.fullmatch(r"Ok\(Report \{ read: (\d+), messages: (\d+), reason: (.+) \}\)", result)
    if failed != [str(result == it).lower() for it in ("Err(Read)", "Err(Write)")]:
        return f"{result} untold"
    return f"{report[3]} read {report[1]} messages {report[2]}" if report else result


def call_line(word, handed, came):
    if word == "read":
        return f"read {handed} failed" if came == "failed" else f"read {handed} gave {came}"
    if came == "failed":
        return f"write {handed} failed"
    return f"write {handed}" if len(bytes_of(handed)) == int(came) else f"write {handed} took {came}"


def reported_counts(calls, answer, counts):
    """Returns the bytes written, the result, and the counts that are checked."""
    taken = [(bytes_of(handed), int(came)) for word, handed, came in calls if word == "write" and came != "failed"]
    written = b"".join(handed[:count] for handed, count in taken)
    found = {"reads": sum(call[0] == "read" for call in calls), "writes": sum(count > 0 for _, count in taken)}
    return f"{written.hex() or '-'} {answer}" + "".join(f" {name} {found[name]}" for name in counts)


def settings(text):
    """Returns the settings in a text of words, with a value after each."""
    words = [] if text == "as-it-is" else text.split()
    said = dict(zip(words[::2], words[1::2]))
    strange = said.keys() - DEVICES.keys() - LIMITS.keys()
    if strange or len(words) % 2:
        raise KeyError(f"no setting: {text}")
    return {name: int(value) for name, value in said.items()}


def understood(wanted):
    """Returns the expected output, result and counts of a row."""
    written, _, rest = spelled_row(wanted).partition(" ")
    words, counts = rest.split(), {}
    while len(words) > 2 and words[-2] in ("reads", "writes"):
        counts = {words[-2]: int(words[-1]), **counts}
        words = words[:-2]
    return bytes_of(written), " ".join(words), counts


def spelled_row(text):
    """Returns a text with hex digits for its bytes. `Err(Read)` and `BadCsm(1)` are not messages."""
    words = spelled(text.replace("(", "\0").replace(")", "\1")).replace("\0", "(").replace("\1", ")")
    return words


def usual_runs(opening, rows):
    word, _, rest = opening.partition(" ")
    sent, base = bytes_of(word), settings(rest)
    for row in rows:
        event, _, wanted = row.partition(" => ")
        written, answer, counts = understood(wanted)
        if event != "each-write":
            yield Run({**base, **settings(event)}, sent, answer, written, counts=counts)
            continue
        for name in ("write-fails", "room"):
            for count in range(len(written)):
                yield Run({**base, name: count}, sent, "Err(Write)", written[:count])
            yield Run({**base, name: len(written)}, sent, answer, written, counts=counts)


def read_end(begin, length, said):
    """Returns the offset at which the read ends that begins at `begin` in `length` bytes."""
    cuts = [cut for cut in (said.get("cut", 0), said.get("cut-again", 0)) if begin < cut]
    return min(length, cuts[0] if cuts else length, begin + said.get("by", ALL), begin + 4096)


def reads_of(length, judged, answer, said):
    """Returns the offset at which the read of the last processed byte ends, and the number of reads of the run."""
    end = reads = 0
    while end < judged:
        end, reads = read_end(end, length, said), reads + 1
    return end, reads + (answer in ("Ended", "Cut"))


def set_devices(length):
    """Yields each setting of the devices for `= messages`."""
    for by, taking in ((1, 1), (2, 1), (ALL, 1), (1, ALL), (2, ALL), (ALL, ALL)):
        yield {"by": by, "taking": taking}
    for first in range(length):
        for second in range(first, length):
            yield {"cut": first, "cut-again": second, "taking": 1}


def message_runs(rows):
    for row in rows:
        event, _, wanted = row.partition(" => ")
        sent, (written, text, _) = bytes_of(event), understood(wanted)
        answer, _, judged, _, messages = text.split()
        for said in set_devices(len(sent)):
            read, reads = reads_of(len(sent), int(judged), answer, said)
            yield Run(said, sent, f"{answer} read {read} messages {messages}", OWN + written, counts={"reads": reads})


def talk_runs(rest, rows):
    pairs = [row.split(" => ") for row in rows]
    sent, written = (b"".join(bytes_of(pair[side]) for pair in pairs) for side in (0, 1))
    for by in (1, 3, ALL):
        said = {**settings(rest), "by": by, "taking": by}
        answer = f"Ended read {len(sent)} messages {len(pairs)}"
        yield Run(said, sent, answer, written, counts={"reads": -(-len(sent) // by) + 1})


def call_runs(rest, rows):
    word, _, text = rest.partition(" ")
    calls, refusals = [], []
    for row in rows:
        if row == "refused?":
            refusals.append(len(calls))
        else:
            calls.append(spelled_row(row))
    yield Run(settings(text), bytes_of(word), calls.pop(), calls=calls, refusals=refusals or None)


def many_runs(rest, rows):
    count, _, text = rest.partition(" ")
    sent, written = bytes.fromhex("00e1"), OWN
    for number in range(int(count)):
        token = bytes([number % 251])
        sent += (b"\x01\x01" if number % 2 else b"\x01\xe2") + token
        written += b"\xa1\x45" + token + b"\xc0\xffcoap+tcp" if number % 2 else b"\x01\xe3" + token
    for row in rows:
        event, _, wanted = row.partition(" => ")
        _, answer, counts = understood("- " + wanted)
        yield Run({**settings(text), **settings(event)}, sent, answer, written, counts=counts)


def runs(opening, rows):
    """Yields the runs of an opening."""
    form, _, rest = opening.partition(" ")
    if form == "messages":
        return message_runs(rows)
    if form == "talk":
        return talk_runs(rest, rows)
    if form == "many":
        return many_runs(rest, rows)
    return call_runs(rest, rows) if form == "calls" else usual_runs(opening, rows)


def steps(opening, rows):
    if opening == "faults":
        yield Step("= limits", "")
        reported = lambda line: re.sub(r"\w+ (\d) \(([^()]*)\)", r"\1 \2", line).strip()
        yield Step("faults io", rows[0].partition(" => ")[2], reported)
        return
    last = ""
    for run in runs(opening, rows):
        if run.opening() != last:
            last = run.opening()
            yield Step(last, "")
        yield RunStep(run.event(), run.wanted(), run.reported, run=run)


def struck(step, line, again, line_again):
    """Returns the differences after an allocation failure.

    The calls before the failure must be the first calls of the run without a failure. The failure must be at a place
    that the row allows.
    """
    begun, run = line.rpartition("Err(Memory)")[0], getattr(step, "run", None)
    if not line_again.startswith(begun):
        return [f"{again[:120]}: {begun} is not the beginning of {line_again}"]
    if run and run.refusals is not None and len(calls_of(line)[0]) not in run.refusals:
        return [f"{again[:120]}: allocation failed after {begun or 'nothing'}"]
    return []


def refused(event, line, again):
    """Returns the call whose allocation failed, and the state that is left."""
    return "`serve_one`", "a prefix of the input and output with memory"
