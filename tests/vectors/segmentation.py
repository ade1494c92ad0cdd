#!/usr/bin/env python3
"""Replays the rows of servers with each `in` split in two at every place.

    tests/vectors/segmentation.py [--unproved=FOLDER] [FILE..]

A file is tests/vectors/rows/serve/NAME.rows or tests/vectors/rows/calls/NAME.rows. Every line must be as in the file,
except those of the two parts. For these, the sum of their counts, the stop of the last one and the lines of requests
must be as in the file. All splits of an `in` are made in one run of the probe; with --unproved, of the one that
tests/harness/unproved.py built in a folder. A file with a line `cuts:` is left out for the reason in that line. Events
that share a row with others are left out too. The last line is 'N passed, M failed' for the replays, and the status is
0 if M is 0.
"""

import os
import pathlib
import sys
from concurrent.futures import ThreadPoolExecutor

sys.path.insert(0, os.path.join(os.path.dirname(os.path.abspath(__file__)), "..", "harness"))
import rows  # noqa: E402
from layers import serve  # noqa: E402


def cuts_of(event):
    """Yields the events that replace an `in`, two for each place at which it is split."""
    word, _, rest = event.partition(" ")
    connection, _, digits = rest.partition(" ")
    if word == "in" and "|" not in event:
        for place in range(2, len(digits), 2):
            yield [f"in {connection} {digits[:place]}", f"in {connection} {digits[place:]}"]


def wrong_of(steps, at, found):
    """Returns the differences in the lines of a replay whose event at this index was split."""
    first, second = found[at : at + 2]
    wrong = rows.differences(found[:at] + found[at + 2 :], steps[:at] + steps[at + 1 :])
    # Each line of an `in` may be followed by those of requests for the application.
    (first_in, *requests), (second_in, *others) = first.split("|"), second.split("|")
    wanted, *all_of_them = steps[at].wanted.split("|")
    (count, _), (more, stop) = serve.count_of(first_in), serve.count_of(second_in)
    if (count + more, stop) != serve.count_of(wanted) or requests + others != all_of_them:
        wrong.append(f"{steps[at].event}\n    wanted {steps[at].wanted}\n    found  {first}, {second}")
    return wrong


def replay(probe, steps, at):
    """Replays a section on a probe, with the event at this index split at every place. Returns the number of replays
    and the differences."""
    events = [step.event for step in steps]
    cuts = list(cuts_of(events[at]))
    sent = [event for cut in cuts for event in events[:at] + cut + events[at + 1 :]]
    found = rows.run(probe, sent).lines if cuts else []
    size, wrong = len(events) + 1, []
    for number, cut in enumerate(cuts):
        reported = wrong_of(steps, at, found[number * size : (number + 1) * size])
        wrong += [f"{cut[0]} and {cut[1]}: {text}" for text in reported[:1]]
    return len(cuts), wrong


def main(words):
    named, folder = [it for it in words if not it.startswith("--")], rows.folder_of(words)
    files = [rows.read(pathlib.Path(it).resolve()) for it in named] or [
        rows.read(it) for layer in ("serve", "calls") for it in sorted(rows.ROWS.glob(f"{layer}/*.rows"))
    ]
    sections = [(file, list(serve.steps(opening, lines))) for file in files if not file.cuts
                for opening, lines in file.values]
    places = [(file, steps, at) for file, steps in sections for at in range(len(steps))]
    count = failed = 0
    with ThreadPoolExecutor(len(os.sched_getaffinity(0))) as pool:
        replayed = pool.map(lambda place: replay(rows.probe_of(folder=folder), *place[1:]), places)
        for (file, _, _), (replays, wrong) in zip(places, replayed):
            count, failed = count + replays, failed + len(wrong)
            for text in wrong[:3]:
                print(f"{file.name()}: {text}")
    print(f"{count - failed} passed, {failed} failed")
    return 1 if failed else 0


if __name__ == "__main__":
    sys.exit(main(sys.argv[1:]))
