"""Checks the example client beside other servers, the example of a socketpair, and the C library beside libcoap's."""

import subprocess

from c_examples import LIMIT, run
from c_programs import compiled
from checks import CSM, GREETING
from peers import Server, accepts, free_port, soon, started
from workspace import ROOT


def check_client(checks, clients, server, example):
    """Runs the client of examples/c against the example, the program and libcoap's server."""
    def observe(name, port, path):
        for client in clients:
            ran = run([*client, f"coap+tcp://127.0.0.1:{port}/{path}", "2"])
            lines = ran.stdout.decode().splitlines()
            checks.same(f"{client[0]} observes {name}: {ran.stderr!r}",
                        (ran.returncode, [it[:5] for it in lines], len(set(lines))), (0, ["2.05 "] * 2, 2))
    port = free_port("127.0.0.1")
    with started([example, str(port), str(LIMIT)], stdout=subprocess.DEVNULL, stderr=subprocess.DEVNULL):
        soon(lambda: accepts(port), seconds=LIMIT)
        observe("the example", port, "inside")
    with Server(server) as running:
        observe("the program", running.port, "time")
    with Server("coap-server-notls", says=False) as running:
        checks.same("libcoap's server starts", running.accepts(), True)
        observe("libcoap", running.port, "time")
    for client in clients:
        for uri in ("x", "coap://127.0.0.1/a", f"coap+tcp://127.0.0.1:{free_port('127.0.0.1')}/a"):
            checks.same(f"{client[0]} fails at {uri}", run([*client, uri]).returncode, 2)


# Output of examples/c/socketpair.c: the time, the kind of the event and the message.
EXCHANGED = """0 s: event 1, code 0.00
0 s: event 3, code 2.05 20
0 s: event 3, code 2.05 21
0 s: event 2, code 2.05 done
10 s: event 2, code 5.04
10 s: event 6, code 0.00
"""


def check_socketpair(checks, words):
    """Runs the example with a server and a client in one process."""
    ran = run(words)
    said = "".join(f"{line.rstrip()}\n" for line in ran.stdout.decode().splitlines())
    checks.same(f"a socketpair {words[0]}", (ran.returncode, said, ran.stderr), (0, EXCHANGED, b""))


def check_libcoap(checks, archive, driver, room):
    """Links libcoap's library too, first shared, then static with every object of both archives. Compares the bytes
    with those of the library alone."""
    requested = run(["pkg-config", "--cflags", "--libs", "libcoap-3-notls"])
    checks.same("pkg-config of libcoap", (requested.returncode, requested.stderr), (0, b""))
    shared = [archive, *requested.stdout.decode().split()]
    both = [word for name in (archive, "-l:libcoap-3-notls.a")
            for word in ("-Wl,--whole-archive", name, "-Wl,--no-whole-archive")]
    sent = bytes.fromhex("00e1" "010101")
    alone = run([driver, "stdio", "65536", "65536", "131072", "0", "65536"], sent)
    checks.same("alone", (alone.returncode, alone.stdout.hex()), (0, f"{CSM}a14501{GREETING}"))
    for name, libraries in (("shared", shared), ("static", both)):
        program = compiled(checks, f"{ROOT}/tests/harness/with_libcoap.c", libraries, f"{room}/with-libcoap-{name}")
        ran = run([program], sent)
        checks.same(f"with libcoap, {name}", (ran.returncode, ran.stdout, ran.stderr), (0, alone.stdout, b""))
