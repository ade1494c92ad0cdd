"""Checks streams and scripts of the C library beside the server, and failing allocations."""

import os
import random

import rows
from c_examples import run
from layers import serve, stdio

# At most this many streams are compared, each with pieces of these sizes.
STREAMS, PIECES = 300, ("1", "65536")

# Longer inputs and runs with these settings are left out.
LARGEST, OTHER = 4096, {"pending", "observers", "outstanding", "rep", "connections", "turns", "moment", "versions",
                        "ids", "read-fails", "write-fails", "room"}


def streams():
    """Returns the inputs of the recorded runs, each with its limits."""
    found = {}
    for file in map(rows.read, sorted(rows.ROWS.glob("stdio/*.rows"))):
        for run_step in (it for opening, lines in file.values if opening != "faults"
                         for it in stdio.runs(opening, lines)):
            if run_step.sent and len(run_step.sent) <= LARGEST and not OTHER & run_step.said.keys():
                limits = tuple(str(run_step.said.get(name, default))
                               for name, default in (("max", 65536), ("sent", 65536), ("queue", 131072),
                                                     ("dynamic", 0)))
                found.setdefault((run_step.sent, limits))
    return list(found)[:STREAMS]


def check_streams(checks, program, server):
    """Compares the output of the library with that of the program."""
    for number, (sent, limits) in enumerate(streams()):
        options = [word for pair in zip(("--max-message", "--max-sent", "--queue", "-d"), limits) for word in pair]
        wanted = run([server, "--stdio", *options], sent)
        checks.same(f"stream {number} is served", wanted.returncode, 0)
        for piece in PIECES:
            got = run([program, "stdio", *limits, piece], sent)
            checks.same(f"stream {number} by {piece}", (got.returncode, got.stderr, got.stdout),
                        (0, b"", wanted.stdout))


# The settings of scripts in the order of c_script.c, with their options of the program and their defaults.
SETTINGS = {"max": ("--max-message", 65536), "sent": ("--max-sent", 65536), "queue": ("--queue", 131072),
            "pending": ("--pending", 16), "observers": ("--observers", 16), "connections": ("--connections", 16),
            "dynamic": ("-d", 0)}

# Random scripts, each with this many events.
SCRIPTS, EVENTS_EACH = 150, 120


def recorded_scripts():
    """Returns the scripts of the rows of servers, each with its settings. Settings that the program lacks, and escaped
    slashes, are left out."""
    for path in sorted(rows.ROWS.glob("serve/*.rows")):
        for opening, section in rows.read(path).values:
            said = serve.said_of(opening)
            script = [event for events, _ in serve.lines_of(section) for event in events.split("|")]
            if not said.keys() - SETTINGS.keys() and not any("%2f" in line.lower() for line in script):
                yield said, script


def random_scripts():
    """Returns scripts of up to six connections, with observers, changes, delayed responses, times, releases, ends and
    drops."""
    chance, paths = random.Random(7), ("a", "b", "c/d", "time", "e")
    for _ in range(SCRIPTS):
        script, number = ["open", "in 1 00e1"], 1
        for _ in range(EVENTS_EACH):
            one, token, path = chance.randint(1, number + 1), f"{chance.randrange(8):02x}", chance.choice(paths)
            options = "".join(f"{(0xb0 if first else 0) + len(it):02x}{it.encode().hex()}"
                              for first, it in zip((True, False), path.split("/")))
            body = {"GET": options, "OBSERVE": "60" + options.replace("b", "5", 1),
                    "PUT": f"{options}ff{chance.randrange(256):02x}",
                    "POST": f"{options}ff{'79' * chance.randrange(1, 4)}", "DELETE": options,
                    "ASYNC": "b56173796e634132"}
            method = chance.choice([*body, "OBSERVE", "PUT"])
            code = {"GET": 1, "OBSERVE": 1, "ASYNC": 1, "POST": 2, "PUT": 3, "DELETE": 4}[method]
            count = len(body[method]) // 2
            frame = (f"{count << 4 | 1:02x}{code:02x}{token}{body[method]}" if count < 13
                     else f"d1{count - 13:02x}{code:02x}{token}{body[method]}")
            cut = 2 * chance.randrange(1, len(frame) // 2)
            kinds = {"request": [f"in {one} {frame}"], "halves": [f"in {one} {frame[:cut]}", f"in {one} {frame[cut:]}"],
                     "ping": [f"in {one} 01e2{token}"], "put": [f"put /{path} {chance.choice('-0')} {token}"],
                     "remove": [f"remove /{path}"], "tick": [f"tick {chance.randrange(4) + len(script) // 8}"],
                     "drain": [f"drain {one}"], "part": [f"drain {one} {chance.randrange(9)}"],
                     "status": [f"status {one}"],
                     "open": ["open", f"in {number + 1} {chance.choice(('00e1', '20e12104', '00e100e5'))}"],
                     "end": [f"end {one}"], "drop": [f"drop {one}"], "release": [f"release {one}"],
                     "respond": [f"respond {one} 0144{token}"]}
            kind = chance.choice([*kinds, *("request", "halves", "put", "drain") * 5])
            number += kind == "open" and number < 6
            script += kinds[kind] if kind != "open" or number <= 6 else []
        yield ({"dynamic": str(chance.choice((1, 2, 8))), "pending": str(chance.choice((1, 16))),
                "observers": str(chance.choice((0, 1, 16)))}, script + [f"drain {it}" for it in range(1, 8)])


def check_scripts(checks, programs, server):
    """Compares the lines of scripts with several connections, and so the bytes of each connection, with those of the
    program. The library's program also follows the resources, by what each take reports."""
    scripts = [*recorded_scripts(), *random_scripts()]
    for number, (said, script) in enumerate(scripts):
        values = {name: str(said.get(name, usual)) for name, (_, usual) in SETTINGS.items()}
        given = "".join(f"{line}\n" for line in script).encode()
        wanted = run([server, "--script", "-",
                      *(word for name, (option, _) in SETTINGS.items() for word in (option, values[name]))], given)
        checks.same(f"script {number} is run: {wanted.stderr!r}", wanted.returncode, 0)
        for words in programs if number % 20 == 0 else programs[:1]:
            got = run([*words, *values.values()], given)
            checks.same(f"script {number} {words[0]}", (got.returncode, got.stderr, got.stdout),
                        (0, b"", wanted.stdout))
    checks.same(f"{len(scripts)} scripts and {len(streams())} streams", len(scripts) + len(streams()) >= 300, True)


# A CSM, a GET of the root, PUTs of /a with 3 and with 300 bytes, GETs of /a, and a PUT of another resource.
CHANGES = (bytes.fromhex("00e1" "010101" "410302b161ff787878") + bytes.fromhex("e100260302b161ff") + b"y" * 300
           + bytes.fromhex("210103b161" "410304b162ff78" "210105b161"))


def check_allocations(checks, words, given):
    """Makes each allocation of a run fail in turn. The failed call is made once more, so the output stays the same. The
    sanitizer reports a leak."""
    name = f"{os.path.basename(words[0])} {words[1]}"
    wanted, number = run(words, given), 0
    checks.same(f"{name} without a failure", (wanted.returncode, wanted.stderr), (0, b""))
    while b"refused" in (ran := run(words, given, REFUSE_ALLOCATION=str(number + 1))).stderr:
        number += 1
        checks.same(f"{name}: allocation {number} fails", (ran.returncode, ran.stdout, ran.stderr),
                    (0, wanted.stdout, b"refused\n"))
    checks.same(f"{name} allocates", number > 5, True)


def check_changes(checks, words):
    ran = run([*words, "stdio", "65536", "65536", "131072", "16", "5"], CHANGES)
    checks.same("changes under valgrind", (ran.returncode, ran.stderr), (0, b""))
