"""Runs 200 hostile peers against the server at once, beside one well-behaved client, and then checks the state of the
server.

    tests/system/hostile.py bin/coap-server

Each hostile peer repeats its attack until the well-behaved client has all its responses.
"""

import asyncio
import contextlib
import itertools
import os
import select
import socket
import sys
import threading
import time

HERE = os.path.dirname(os.path.abspath(__file__))
sys.path[:0] = [os.path.join(HERE, "..", "harness"), os.path.join(HERE, "hostile")]
from attacks import attack, open_all  # noqa: E402
from checks import Checks  # noqa: E402
from good_client import ROUNDS, be_good  # noqa: E402
from known_messages import FLOOD, GET_ROOT, ONE_PING, OWN_SETTINGS, PEER_SETTINGS, PONGS, ROOT  # noqa: E402
from peers import LIMIT, LOCAL, Server, free_port, read_bytes  # noqa: E402

CONNECTIONS = 256

# Maximum seconds for the whole script. Seconds of idling, and their maximum processor time.
WHOLE = 60
IDLE = 2
IDLE_COSTS = 0.05

SILENT = 200

WORDS = ["--connections", str(CONNECTIONS), "-d", "16"]
LISTENS = "coap-server: listening on %s:%d\n"


async def be_hostile(checks, address):
    """Runs all hostile peers at once, and the well-behaved client beside them."""
    over, acts = asyncio.Event(), threading.Semaphore(0)
    peers = await open_all(checks, address)
    attacks = [asyncio.create_task(attack(kind, number, address, peer, over, acts)) for kind, number, peer in peers]
    answered, slowest = await asyncio.to_thread(be_good, address, acts)
    over.set()
    for number, (name, answers, wanted) in enumerate(answered, 1):
        checks.same("good request %d, %s" % (number, name), answers, wanted)
    checks.same("good requests answered", len(answered), 2 + 3 * ROUNDS)
    troubles = await asyncio.gather(*attacks)
    for (kind, number, _), trouble in zip(peers, troubles):
        checks.same("%s %d" % (kind.__name__, number), trouble, "")
    print("the good client waited at most %.3f s" % slowest)


def got(connections, wanted):
    """Returns the number of these connections that receive the expected bytes, up to the first that does not."""
    return len(list(itertools.takewhile(lambda it: read_bytes(it, len(wanted)) == wanted, connections)))


def greeted(connections):
    """Returns the number of these connections that receive the CSM of the server."""
    return got(connections, OWN_SETTINGS)


def ponged(connections):
    """Returns the number of these connections that receive a Pong for a Ping."""
    for it in connections:
        it.sendall(FLOOD[:ONE_PING])
    return got(connections, PONGS[:ONE_PING])


def connect(stack, address):
    """Returns a connection that is closed with the stack."""
    return stack.enter_context(socket.create_connection(address, LIMIT))


def check_room(checks, stack, address):
    """Checks that the server accepts the maximum number of connections, and one more only after one of them ends."""
    taken = [connect(stack, address) for _ in range(CONNECTIONS)]
    checks.same("connections accepted afterwards", greeted(taken), CONNECTIONS)
    for it in taken:
        it.sendall(PEER_SETTINGS)
    late = connect(stack, address)
    # Each Pong took a turn of the server, in which the server could have accepted the late connection.
    checks.same("connections served", [ponged(taken), ponged(taken)], [CONNECTIONS] * 2)
    checks.same("one connection too many waits", select.select([late], [], [], 0)[0], [])
    taken.pop().close()
    late.sendall(PEER_SETTINGS + GET_ROOT)
    checks.same("it is served after one leaves", read_bytes(late, len(OWN_SETTINGS + ROOT)), OWN_SETTINGS + ROOT)


def check_idle(checks, server, address):
    """Checks that a server with silent connections uses almost no processor time."""
    with contextlib.ExitStack() as stack:
        silent = [connect(stack, address) for _ in range(SILENT)]
        checks.same("silent connections", greeted(silent), SILENT)
        before = server.processor_time()
        time.sleep(IDLE)
        used = server.processor_time() - before
    checks.same("processor time of %d idle seconds" % IDLE, used if used >= IDLE_COSTS else 0, 0)


def check_attacked(checks, program, port, stack):
    """Checks a server that is attacked, then used by the maximum number of connections, and then killed."""
    with Server(program, WORDS, port=port) as server:
        checks.same("the server listens", server.said, LISTENS % (LOCAL, port))
        asyncio.run(be_hostile(checks, (LOCAL, port)))
        check_room(checks, stack, (LOCAL, port))
        checks.same("the server still runs", server.process.poll(), None)


def check_again(checks, program, port):
    """Checks a server that is started at the same port at once."""
    with Server(program, WORDS, port=port) as server:
        checks.same("the server listens again", server.said, LISTENS % (LOCAL, port))
        with server.connect() as connection:
            connection.sendall(PEER_SETTINGS + GET_ROOT)
            checks.same("the server serves again", read_bytes(connection, len(OWN_SETTINGS + ROOT)),
                        OWN_SETTINGS + ROOT)
        check_idle(checks, server, (LOCAL, port))


def check_all(checks, program):
    """Runs the attack and the later checks. The connections to the killed server stay open until the end."""
    port = free_port()
    with contextlib.ExitStack() as stack:
        check_attacked(checks, program, port, stack)
        check_again(checks, program, port)


def main(words):
    checks, began = Checks(), time.monotonic()
    try:
        check_all(checks, os.path.abspath(words[0]))
    except OSError as trouble:
        checks.same("all checks run", trouble, None)
    seconds = time.monotonic() - began
    checks.same("total seconds", seconds if seconds > WHOLE else WHOLE, WHOLE)
    return checks.end("hostile")


if __name__ == "__main__":
    sys.exit(main(sys.argv[1:]))
