"""Demonstrates the server: recorded streams through `coap-server --stdio`, with the meaning of each message. Then
follows a script on one server through `coap-server --script -`, with the meaning of each line.

    tests/vectors/demo.py bin/coap-server
    tests/vectors/demo.py --try                 the first stream alone, on the same source, built without proofs
"""

import os
import subprocess
import sys
import tempfile

sys.path.insert(0, os.path.join(os.path.dirname(os.path.abspath(__file__)), "..", "harness"))
import messages  # noqa: E402
from unproved import build  # noqa: E402

# An empty CSM, Empty, a Ping with the token 07 and Custody. Then GETs of the root, of /time, of the listing and of an
# absent path.
RECORDED = bytes.fromhex(
    "00e1" "0000" "11e20720" "010109" "51010ab474696d65"
    "d104010bbb2e77656c6c2d6b6e6f776e04636f7265" "21010cb178"
)

# An empty CSM, the first bytes of a message of 4,295,033,106 bytes, and a Ping.
HOSTILE = bytes.fromhex("00e1" "f0ffffffff01" "01e201")

STREAMS = [
    ("A well-behaved peer: Capabilities and Settings Message, Empty, a Ping with Custody, requests.", RECORDED),
    ("A hostile peer: a message size of 4,295,033,106 bytes, followed by a Ping.", HOSTILE),
]

SCRIPT_TITLE = ("A script on one server: two connections observe /time, and the second one is not drained. Each event, "
                "its line, and the meaning.")

# More Pings than the queue has space for Pongs.
PINGS = 22_000

# Each event, and the meaning of its line. For an empty text, the messages in the line are described.
SCRIPT = [
    ("open", "opens a connection, which gets the number 1"),
    ("drain 1", ""),
    ("in 1 00e1" "6101076054" "74696d65",
     "its Capabilities and Settings Message, and a GET of /time with Observe: all 11 bytes are taken"),
    ("drain 1", ""),
    ("open", "opens a second connection"),
    ("in 2 00e1" "6101086054" "74696d65", "this connection observes /time too"),
    ("drain 2", ""),
    ("put /a 0 31", "a put by the program itself is rejected: its resource limit is 0"),
    ("tick 5", "the time is 5 now, and each observer is notified"),
    ("drain 1", ""),
    ("drain 2", ""),
    ("in 2 " + "01e201" * PINGS,
     f"of {PINGS:,} Pings, those are taken whose Pongs fit into the queue of connection 2, which is not drained"),
    ("status 2", "these bytes of Pongs are queued, and the queue has no space for another message of maximum size"),
    ("tick 6", "the observer on connection 1 is notified; the one on connection 2 must wait"),
    ("drain 1", ""),
    ("tick 7", "and again"),
    ("drain 1", ""),
    (f"drain 2 {3 * PINGS}", "all queued Pongs are sent, and the queue has space for the notification"),
    ("drain 2", ""),
    ("drop 1", "connection 1 is dropped"),
    ("status 1", "so connection 1 does not exist"),
]


def show(title, stream):
    print(title, stream.hex())
    frames, rest = messages.split(stream)
    for frame in frames:
        print("    %-26s %s" % (frame.hex(), messages.tell(frame)))
    if rest:
        print("    %-26s (unfinished)" % rest.hex())


def run(command, title, stream):
    print(title, flush=True)
    with tempfile.TemporaryFile() as source:
        source.write(stream)
        source.seek(0)
        done = subprocess.run(command, stdin=source, capture_output=True)
    show("input: ", stream)
    show("output:", done.stdout)
    sys.stdout.flush()
    sys.stderr.buffer.write(done.stderr)
    print("status: %d" % done.returncode)
    return done.returncode


def shortened(line):
    """Returns a line with the middle of its bytes left out if there are many."""
    return line if len(line) <= 60 else line[:22] + ".." + line[-6:]


def meaning(line, sentence):
    """Returns the sentence for a line or, if it is empty, the meaning of the bytes of the line."""
    if sentence:
        return sentence
    frames, rest = messages.split(bytes.fromhex(line.split()[2]))
    return "; ".join([messages.tell(it) for it in frames] + ["(unfinished)"] * bool(rest))


def run_script(command):
    print(SCRIPT_TITLE, flush=True)
    script = "".join(event + "\n" for event, _ in SCRIPT)
    done = subprocess.run(command, input=script.encode(), capture_output=True)
    for (event, sentence), line in zip(SCRIPT, done.stdout.decode().splitlines()):
        print("    %-31s %-41s %s" % (shortened(event), shortened(line), meaning(line, sentence)))
    sys.stdout.flush()
    sys.stderr.buffer.write(done.stderr)
    print("status: %d" % done.returncode)
    return done.returncode


def main(words):
    if words == ["--try"]:
        print("First, the server UNPROVED: the same source, built without proofs in about a minute.", flush=True)
        with tempfile.TemporaryDirectory(prefix="try-") as room:
            if said := build(["program_server"], room, level=0):
                print(said, end="")
                return 1
            return run([f"{room}/coap-server", "--stdio"], *STREAMS[0])
    print(f"Now {words[0]}, built from the proved crates:")
    statuses = []
    for number, (title, stream) in enumerate(STREAMS):
        if number:
            print()
        statuses.append(run([words[0], "--stdio"], title, stream))
    print()
    statuses.append(run_script([words[0], "--script", "-"]))
    return max(statuses)


if __name__ == "__main__":
    sys.exit(main(sys.argv[1:]))
