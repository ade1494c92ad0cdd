"""Counts the cost of removing written bytes from a queue by parts of 1,000 bytes, in a script and over a socket.

In a script, a `drain` of 1,000 bytes is counted with many and with few queued bytes. The cost of 100 drains is reduced
by that of 100 lines for a connection that does not exist. Over a socket, a queue of 4 MiB is filled while its peer
reads nothing. The queue is then drained at once, and in a second run with bench/short.c preloaded, whose sends accept
at most 1,000 bytes each.
"""

import contextlib
import socket
import tempfile
import time

from counting import callgrind, collected, counted_alone
from servers import HOST, ROOT, Server
from commands import preloaded  # in the path that servers.py extends
from peers import processor_time

# A queue of 4 MiB, and the size of a stored representation.
QUEUE, SIZE = 4_194_304, 60_000
OPTIONS = ["--queue", str(QUEUE), "-d", "1"]

# A CSM with a Max-Message-Size of 65,535, and a GET of the resource.
CSM, GET = "30e122ffff", "410101b3626967"
PUT = bytes.fromhex("e1e9580302b3626967ff") + b"x" * SIZE

# Numbers of queued representations, number of counted drains, and maximum ratio of their costs with many and with few
# queued bytes.
WAITING, DRAINS, TIMES = (3, 60), 100, 1.2

# Number of representations that fill a queue, and maximum additional instructions a byte with short sends.
FULL, EACH_BYTE = 68, 2

# Seconds: until a server that callgrind runs must accept, and for each wait.
PATIENCE, LIMIT = 30, 300


def drain_cost(waiting):
    """Returns the instructions of a drain of 1,000 bytes with this number of queued representations."""
    command = [f"{ROOT}/bin/coap-server", *OPTIONS, "--script", "-"]
    before = [f"put /big - {'78' * SIZE}", "open", f"in 1 {CSM}", *[f"in 1 {GET}"] * waiting]
    spent, nothing = (counted_alone(command, "\n".join([*before, *[it] * DRAINS, ""]).encode())
                      for it in ("drain 1 1000", "drain 9 1000"))
    return (spent - nothing) / DRAINS


def by_script():
    """Prints the table of drains in a script, and returns the ratio of the costs with many and with few queued
    bytes."""
    print("\n| `drain N 1000`, by number of queued bytes | Instructions |\n|---|---|")
    costs = []
    for waiting in WAITING:
        costs.append(drain_cost(waiting))
        print(f"| {waiting * SIZE:,} | {costs[-1]:,.0f} |", flush=True)
    return costs[1] / costs[0]


def at_rest(process):
    """Waits until a process has used no processor time for a second."""
    last = None
    while (now := processor_time(process)) != last:
        last = now
        time.sleep(1)


def received(peer, count):
    """Reads `count` bytes, and returns true if all arrived."""
    while count and (piece := peer.recv(min(count, 65_536))):
        count -= len(piece)
    return not count


def ask(server):
    """Fills the queue of a connection, and reads all bytes after nothing more is queued. Returns the number of bytes of
    representations."""
    with socket.socket() as peer:
        # A small buffer, so that the bytes stay in the queue and not in the system.
        peer.setsockopt(socket.SOL_SOCKET, socket.SO_RCVBUF, 4096)
        peer.settimeout(LIMIT)
        peer.connect((HOST, server.port))
        peer.sendall(bytes.fromhex(CSM) + PUT + bytes.fromhex(GET) * FULL)
        at_rest(server.process)
        return FULL * SIZE if received(peer, FULL * SIZE) else 0


def drained(room, shim):
    """Returns the instructions of a server that drains a full queue, and the number of bytes. `shim` is a library to
    preload, or empty."""
    preload = ["env", f"LD_PRELOAD={shim}"] if shim else []
    words = [f"{ROOT}/bin/coap-server", "-A", HOST, *OPTIONS]
    with Server("ours", lambda port: [*preload, *callgrind(f"{room}/profile"), *words, "-p", str(port)],
                PATIENCE) as server:
        count = 0
        with contextlib.suppress(OSError):
            count = 0 if server.trouble else ask(server)
        server.end()
        return collected(server.reported()), count


def over_socket():
    """Prints the costs over a socket. Returns the additional instructions a byte with sends of 1,000 bytes, or None
    without a figure."""
    with tempfile.TemporaryDirectory() as room:
        shim = preloaded("short", room, f"{ROOT}/bench")
        (whole, count), (short, same) = drained(room, ""), drained(room, shim)
    if not count or count != same or None in (whole, short):
        return None
    print(f"\n| A queue of 4 MiB drained over a socket | Instructions |\n|---|---|\n| at once | {whole:,} |\n"
          f"| by 1,000 bytes a send | {short:,} |",
          flush=True)
    return (short - whole) / count
