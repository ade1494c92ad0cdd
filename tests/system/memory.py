"""Counts the allocations of the built programs, since no contract states them.

    tests/system/memory.py bin/coap-server

The checks are:

- Only messages that store a representation allocate. A PUT that replaces one allocates its bytes alone.
- Raising the maximum size of a framer requests the new size in bytes (measured with the probe).
- A queue requests as many bytes as it can hold.
- No memory is lost.

tests/harness/count_memory.c counts. Valgrind finds no error in the messages of all kinds and in a script. A script also
allocates its events and the lines that need memory. Therefore two scripts are compared that have events of the same
form and write the same number of lines of each kind. In one of them, the events are for a connection that does not
exist.
"""

import functools
import os
import subprocess
import sys
import tempfile
from dataclasses import dataclass

sys.path.insert(0, os.path.join(os.path.dirname(os.path.abspath(__file__)), "..", "harness"))
from checks import CSM, GREETING, side_by_side  # noqa: E402
from commands import preloaded  # noqa: E402
from packages import require  # noqa: E402
from workspace import ROOT  # noqa: E402

PACKAGES = {"gcc": "gcc", "valgrind": "valgrind"}

# Folder of the library that counts.
ROOM = tempfile.TemporaryDirectory()

LISTING = b"</>;ct=0,</time>;ct=0;obs,</async>;ct=0".hex()

# Plays events on a framer alone.
PROBE = os.path.join(ROOT, "crates/test_rows/out/test_rows")

# Messages that a peer sends repeatedly, and their responses.
KINDS = [
    ("GET of the root", "010101", "a14501" + GREETING),
    ("GET of /time", "510101b474696d65", "514501c02101ff30"),
    ("GET of /async without delay", "810101b56173796e634130", "614501c0ff646f6e65"),
    ("GET of the listing", "d1040101bb2e77656c6c2d6b6e6f776e04636f7265", "d11d4501c128ff" + LISTING),
    ("GET of an absent path", "210101b178", "018401"),
    ("DELETE of an absent path", "210401b178", "014201"),
    ("PUT with a resource limit of 0", "410301b178ff79", "018401"),
    ("Ping", "01e201", "01e301"),
    ("Ping with Custody", "11e20120", "11e30120"),
    ("Empty", "0000", ""),
    ("Capabilities and Settings", "00e1", ""),
]

# A PUT of `x` at `a`, and its response.
STORED = ("410301b161ff78", "014101")

# The same with an existing resource, for requests that store nothing.
STORED_KINDS = [
    ("GET of a stored resource", "210101b161", "4145014101ff78"),
    ("GET of a longer listing", "d1040101bb2e77656c6c2d6b6e6f776e04636f7265",
     "d1264501c128ff" + LISTING + b",</a>;obs".hex()),
    ("GET with the resource's ETag", "41010141017161", "2143014101"),
    ("PUT whose precondition fails", "510306506161ff79", "018c06"),
    ("DELETE of another path", "210401b178", "014201"),
]

# A PUT of another byte at `a`, and of two bytes.
REPLACING = ("410302b161ff79" "510302b161ff7978", "014402" "014402")


@functools.cache
def shim():
    """Compiles count_memory.c once, and returns its path."""
    return preloaded("count_memory", ROOM.name)


@dataclass
class Counted:
    """A run of a program: its status, its output, and its numbers of allocations, frees and requested bytes."""

    status: int
    written: bytes
    made: int
    freed: int
    requested: int


def run(command, stream):
    """Runs a program, and counts its allocations."""
    with tempfile.NamedTemporaryFile("r") as counts:
        environment = {**os.environ, "LD_PRELOAD": shim(), "COUNT_MEMORY": counts.name}
        ran = subprocess.run(command, input=stream, stdout=subprocess.PIPE, env=environment, timeout=300)
        return Counted(ran.returncode, ran.stdout, *map(int, counts.read().split()))


def watched(checks, name, command, stream, written):
    """Runs the program, checks its output, and returns its number of allocations."""
    ran = run(command, stream)
    checks.same("output of %s" % name, (ran.status, ran.written == written), (0, True))
    checks.same("frees of %s" % name, ran.freed, ran.made)
    return ran.made


def counted(checks, name, command, sent, answered):
    """Returns the number of allocations of the program for the bytes that the peer sends."""
    return watched(checks, name, command, bytes.fromhex(sent), bytes.fromhex(CSM + answered))


def flat(checks, command, before, kind):
    """Checks that 3,000 messages of a kind make as many allocations as 1,000."""
    name, sent, answered = kind
    few, many = (
        counted(checks, "%s, %d times" % (name, times), command, "00e1" + before[0] + sent * times,
                before[1] + answered * times)
        for times in (1000, 3000)
    )
    checks.same("allocations of %s, 3,000 times and 1,000" % name, many, few)


def replacing(checks, storing):
    """Checks that each replacing PUT allocates once."""
    counts = [
        counted(checks, "%d PUTs" % (2 * pairs), storing + ["--stdio"], "00e1" + STORED[0] + REPLACING[0] * pairs,
                STORED[1] + REPLACING[1] * pairs)
        for pairs in (0, 500, 1000, 1500)
    ]
    first, second, third = (after - before for before, after in zip(counts, counts[1:]))
    checks.same("allocations of 1,000 more PUTs", (second, third), (first, first))
    checks.same("one allocation for each PUT, its bytes", first, 1000)


# A script that opens a connection, a script for a stored resource before it, and their lines.
OPENED = ("open\ndrain 1\nin 1 00e1\n", "open 1\nout 1 %s\nin 1 2\n" % CSM)
STORED_BEFORE = ("put /a - 78\n", "put 1\n")

# Maximum number of bytes of all responses to a script, which must fit into the queue. The queue has 131,072 bytes, and
# messages are processed while 65,536 of these are free.
WAITING = 65_536


def replayed(checks, name, command, *parts):
    """Returns the number of allocations of the program for a script, whose parts are texts with the lines that they
    write."""
    script, lines = ("".join(texts) for texts in zip(*parts))
    return watched(checks, name, command, script.encode(), lines.encode())


def arriving(connection, sent, times):
    """Returns `times` messages on a connection, each an event, and their lines. Connection 7 does not exist."""
    line = "in 1 %d" % (len(sent) // 2) if connection == 1 else "in 7 fault 1"
    return "in %d %s\n" % (connection, sent) * times, (line + "\n") * times


def scripted(checks, command, before, kind):
    """Checks that a script of 1,000 messages of a kind allocates as much as one whose messages are for a connection
    that does not exist. Checks 3,000 messages too, if all responses fit into the queue."""
    name, sent, answered = kind
    for times in (1000, 3000):
        if times * len(answered) // 2 <= WAITING:
            handled, refused = (
                replayed(checks, "a script of %s on %d, %d times" % (name, on, times), command, before, OPENED,
                         arriving(on, sent, times)) for on in (1, 7)
            )
            checks.same("allocations of a script of %s, %d times" % (name, times), handled, refused)


def drained(checks, command):
    """Checks that the allocations for a line with bytes are the same for each such line, whatever was drained
    before."""
    sent, line = "01e201", "out 1 01e301\n"

    def more(times):
        reported = ("in 1 %s\ndrain 1\n" % sent * times, ("in 1 3\n" + line) * times)
        unreported = ("in 1 %s\ndrain 7\n" % sent * times, "in 1 3\ndrain 7 fault 1\n" * times)
        return [replayed(checks, "a script with %d %s" % (times, name), command, OPENED, part)
                for name, part in (("lines of bytes", reported), ("rejected drains", unreported))]

    (first, without), (second, without_second) = more(1000), more(3000)
    checks.same("allocations of 3,000 lines of bytes and of 1,000", second - without_second, 3 * (first - without))


# Events that change a resource, and the GET that registers an observer of it.
OBSERVING = ("put", "310104605161"), ("tick", "61010460" "5474696d65")


def changes(word, times):
    """Returns `times` changes of the observed resource, and their lines."""
    if word == "tick":
        text = "".join("tick %d\n" % it for it in range(1, times + 1))
        return text, text
    return "put /a - 79\n" * times, "".join("put %d\n" % it for it in range(2, times + 2))


def telling(checks, storing, word, request):
    """Checks that the notification of an observer makes no allocation."""
    for times in (1000, 3000):
        reported, unreported = (
            replayed(checks, "%d times %s, observed on %d" % (times, word, on), storing + ["--script", "-"],
                     STORED_BEFORE, OPENED, arriving(on, request, 1), changes(word, times))
            for on in (1, 7)
        )
        checks.same("allocations of notifications of %d times %s" % (times, word), reported, unreported)


def putting(checks, server, storing):
    """Checks that a put of the program itself allocates once, for its bytes. In the script for comparison, the server
    rejects all puts."""

    def more(times):
        text, lines = changes("put", times)
        put = replayed(checks, "%d puts" % times, storing + ["--script", "-"], STORED_BEFORE, (text, lines))
        refused = replayed(checks, "%d rejected puts" % times, [server, "--script", "-"],
                           ("put /a - 78\n", "put fault 3\n"), (text, "put fault 3\n" * times))
        return put - refused

    checks.same("allocations of 2,000 more puts", more(3000) - more(1000), 2000)


def raised(sizes):
    """Returns the number of bytes that the probe requests for a framer of 1,152 bytes that is raised to these sizes."""
    events = ["= frame 1152", *("raise %d" % it for it in sizes)]
    return run([PROBE], "".join(it + "\n" for it in events).encode()).requested


def raising(checks):
    """Checks that raising a framer requests as many bytes as its new size."""
    before = raised([1152, 1152])
    checks.same("bytes of a framer raised to 2,000", raised([2000, 2000]) - before, 2000)
    checks.same("bytes of a framer raised to 1,153 and to 1,500", raised([1153, 1500]) - before, 1153 + 1500)


def queueing(checks, server):
    """Checks that a connection requests as many bytes for its queue as the queue can hold."""
    sizes = [65_536, 65_537, 131_072, 4_194_304]
    first, *others = (run([server, "--queue", str(it), "--script", "-"], b"open\n").requested for it in sizes)
    for size, bytes_of_all in zip(sizes[1:], others):
        checks.same("bytes of a queue of %d beside one of %d" % (size, sizes[0]), bytes_of_all - first, size - sizes[0])


def under_valgrind(checks, name, command, stream, written):
    """Checks that valgrind finds no error in a run, and no lost memory."""
    kinds = ["--leak-check=full", "--show-leak-kinds=all", "--errors-for-leak-kinds=all"]
    line = ["valgrind", "--error-exitcode=1", *kinds, *command]
    ran = subprocess.run(line, input=stream, capture_output=True, timeout=300)
    checks.same("valgrind on %s" % name, (ran.returncode, ran.stdout == written), (0, True))


def all_kinds(before, kinds):
    """Returns ten messages of each kind after a CSM, and the output for them."""
    sent, answered = ("".join(it[at] * 10 for it in kinds) for at in (1, 2))
    return bytes.fromhex("00e1" + before[0] + sent), bytes.fromhex(CSM + before[1] + answered)


def all_events():
    """Returns a script that drains bytes, registers an observer and changes its resource, and the lines for it."""
    drains = ("in 1 01e201\ndrain 1\n" * 10, "in 1 3\nout 1 01e301\n" * 10)
    parts = (STORED_BEFORE, OPENED, drains, arriving(1, OBSERVING[0][1], 1), changes("put", 10))
    return ["".join(it).encode() for it in zip(*parts)]


def runs(server):
    """Returns all runs, which are independent of each other."""
    storing, script = [server, "-d", "1000"], [server, "--script", "-"]
    return [
        *((flat, [server, "--stdio"], ("", ""), kind) for kind in KINDS),
        *((flat, [*storing, "--stdio"], STORED, kind) for kind in STORED_KINDS),
        (replacing, storing),
        *((scripted, script, ("", ""), kind) for kind in KINDS),
        *((scripted, [*storing, "--script", "-"], STORED_BEFORE, kind) for kind in STORED_KINDS),
        (drained, script),
        *((telling, storing, *observed) for observed in OBSERVING),
        (putting, server, storing),
        (raising,),
        (queueing, server),
        (under_valgrind, "messages", [server, "--stdio"], *all_kinds(("", ""), KINDS)),
        (under_valgrind, "messages with a resource", [*storing, "--stdio"], *all_kinds(STORED, STORED_KINDS)),
        (under_valgrind, "a script", [*storing, "--script", "-"], *all_events()),
    ]


def main(programs):
    require(PACKAGES)
    shim()
    checks = side_by_side(runs(programs[0]), len(os.sched_getaffinity(0)))
    return checks.end("memory")


if __name__ == "__main__":
    sys.exit(main(sys.argv[1:]))
