#!/usr/bin/env python3
"""Makes each allocation of the programs fail in turn.

    tests/system/alloc_failures.py [--write] bin/coap-server bin/coap-client [NAME..]

tests/harness/fail_malloc.c is preloaded into a program and makes one allocation fail: the first, then the second, until
a run makes fewer. Such a run ends with status 3 and `no memory`. Its output, on standard output and over its
connection, is a prefix of the output without a failure. If the program handles the failure in another way, the run is
as without one. The number of failures that end a program must be in tests/vectors/allocations.md; --write writes it
there.

The script also makes every allocation of the server fail after its connections are open. The server must respond as
before, over standard streams on one connection and over sockets on two. Finally, the programs run with their largest
inputs and without a failure, and must report none. The last line is 'N passed, M failed' for the runs, and the status
is 0 if M is 0.
"""

import contextlib
import os
import socket
import subprocess
import sys
import tempfile
import threading
from concurrent.futures import ThreadPoolExecutor
from dataclasses import dataclass

sys.path.insert(0, os.path.join(os.path.dirname(os.path.abspath(__file__)), "..", "harness"))
import allocations  # noqa: E402
from checks import CSM, GREETING  # noqa: E402
from commands import preloaded  # noqa: E402
from peers import free_port, line_of, started  # noqa: E402
from message_syntax import encoded  # noqa: E402

# Addresses of the clients' peers and of the servers. They differ, so that no peer takes a port that was found free for
# a server.
HOST, SERVER_HOST = "127.0.0.1", "127.0.0.2"

# Timeout of each wait, in seconds.
LIMIT = 20

MEBIBYTE = 1 << 20

# More allocations than a server makes until two connections are open.
MOST_MADE = 1 << 10

# The entry of the table for the output of a program after a failed allocation.
LEFT = "a prefix of the output with memory"

# The bytes that a peer sends (a CSM, a GET of the root, a PUT of `x` at `a`), and the output of the server.
SENT = bytes.fromhex("00e1" "010101" "410302b161ff78")
ANSWERED = bytes.fromhex(CSM + "a14501" + GREETING + "014102")

SCRIPT = (b"open\ndrain 1\nin 1 00e1010101410302b161ff78\ndrain 1\nput /b 0 787878\nput /b 0 79\nstatus 1\nremove /b\n"
          b"open\ndrop 2\nend 1\n")
LINES = (f"open 1\nout 1 {CSM}\nin 1 12\nout 1 a14501{GREETING}014102\nput 2\nput 3\n"
         "status 1 open kept 0 waiting 0 pending 0 observers 0\n"
         "remove /b\nopen 2\ndrop 2\nend 1\n").encode()

# The client's arguments, the bytes that it sends for them, and the response of the peer.
ASKING = ["-m", "put", "-e", "a%20b", "-t", "0", "-O", "2048,0x0102", "-w"]
ASKED = bytes.fromhex(CSM + "c10301b17810e206e70102ff612062")
SETTINGS, RESPONSE = bytes.fromhex("00e1"), bytes.fromhex("314401ff6869")


@dataclass
class Ran:
    """A run of a program: its status, its standard output, its error output, and the bytes sent over its connection."""

    status: int
    written: bytes
    said: bytes
    sent: bytes = b""

    def is_refused(self):
        return b"refused\n" in self.said

    def fault(self):
        """Returns the lines of its error output, without the startup line of a server and the lines of
        fail_malloc.c."""
        lines = self.said.decode().splitlines()
        return [it for it in lines if it != "refused" and " listening on " not in it]


def over_streams(*command, stream):
    """Returns a function that runs a program over standard streams."""

    def run(environment):
        with tempfile.TemporaryFile() as file:
            file.write(stream)
            file.seek(0)
            ran = subprocess.run(command, stdin=file, capture_output=True, env=environment, timeout=LIMIT)
        return Ran(ran.returncode, ran.stdout, ran.stderr)

    return run


def received(peer, ends, least=0):
    """Returns the bytes received from a peer, up to this ending after at least `least` bytes, or up to the end of the
    connection."""
    reported = b""
    peer.settimeout(LIMIT)
    with contextlib.suppress(ConnectionError):
        while (len(reported) < least or not reported.endswith(ends)) and (piece := peer.recv(65_536)):
            reported += piece
    return reported


def requested_once(port, process):
    """Returns the bytes that a server sends to one peer. If these are not all, or the connection fails, the server must
    end by itself."""
    sent = b""
    with contextlib.suppress(ConnectionError), socket.create_connection((SERVER_HOST, port), LIMIT) as peer:
        peer.sendall(SENT)
        sent = received(peer, ANSWERED[-6:])
    if sent != ANSWERED:
        process.wait(LIMIT)
    return sent


def requested_two(port, sent, answered):
    """Returns the bytes that a server sends to two peers, which send their requests after both CSMs. The server ends if
    an allocation fails."""
    reported, greeting = [], bytes.fromhex(CSM)
    with contextlib.suppress(ConnectionError), contextlib.ExitStack() as stack:
        peers = [stack.enter_context(socket.create_connection((SERVER_HOST, port), LIMIT)) for _ in range(2)]
        reported += [received(peer, greeting) for peer in peers]
        for peer in peers:
            peer.sendall(sent)
            reported.append(received(peer, answered) if sent else b"")
    return b"".join(reported)


def listened(server, port, environment, ask):
    """Runs a server that listens at a port, until its peers have their responses."""
    command = [server, "-A", SERVER_HOST, "-p", str(port), "-d", "1"]
    with started(command, stdin=subprocess.DEVNULL, stdout=subprocess.PIPE, stderr=subprocess.PIPE,
                 env=environment) as process:
        said = line_of(process.stderr)
        while said.endswith(b"refused\n"):
            said += line_of(process.stderr)
        sent = ask(port, process) if b"listening" in said else b""
        status = process.wait(LIMIT) if b"listening" not in said else process.poll()
        process.kill()
        written, rest = process.communicate()
    return Ran(status or 0, written, said.replace(b" (and then the end)", b"") + rest, sent)


def listening(server, ask=requested_once):
    """Returns a function that runs a listening server with these peers. If another program has its port by then, the
    server runs again."""

    def run(environment):
        for _ in range(3):
            ran = listened(server, free_port(SERVER_HOST), environment, ask)
            if b"cannot listen" not in ran.said:
                break
        return ran

    return run


def answer(listener, got, settings=SETTINGS, request=ASKED, response=RESPONSE):
    """Accepts a client, and sends the response if the client sends the expected request."""
    try:
        peer = listener.accept()[0]
    except OSError:
        return
    with peer:
        peer.sendall(settings)
        # The payload may repeat one byte, so that its last bytes also occur in the middle.
        got.append(received(peer, request[-20:], len(request)))
        if got[0] == request:
            peer.sendall(response)


def asking(client):
    """Returns a function that runs a client over a connection."""

    def run(environment):
        got = []
        with socket.create_server((HOST, 0)) as listener:
            peer = threading.Thread(target=answer, args=(listener, got))
            peer.start()
            command = [client, *ASKING, "coap+tcp://%s:%d/x" % listener.getsockname()]
            ran = subprocess.run(command, stdin=subprocess.DEVNULL, capture_output=True, env=environment, timeout=LIMIT)
            # Wakes the peer if no client came.
            listener.shutdown(socket.SHUT_RDWR)
            peer.join()
        return Ran(ran.returncode, ran.stdout, ran.stderr, b"".join(got))

    return run


def wrong_at_the_greatest_script(server):
    """Returns the error of a script of 1,048,576 bytes, or an empty text."""
    put = b"put /a - " + b"78" * 65_000 + b"\n"
    script = b"open\n" + put + b"status 1\n" * ((MEBIBYTE - len(put) - 5) // 9)
    script += b"#" * (MEBIBYTE - len(script) - 1) + b"\n"
    status = b"status 1 waiting kept 0 waiting 8 pending 0 observers 0\n"
    ran = over_streams(server, "--script", "-", "-d", "1", stream=script)(dict(os.environ))
    wanted = b"open 1\nput 1\n" + status * script.count(b"status")
    return ("" if (len(script), ran.status, ran.written) == (MEBIBYTE, 0, wanted)
            else f"status {ran.status}: {ran.said[-200:]}")


def wrong_at_the_greatest_door(server):
    """Returns the error of a server with the largest limits over sockets, or an empty text."""
    port = free_port(SERVER_HOST)
    limits = ["--max-message", "1048576", "--max-sent", "65536", "--queue", "4194304", "--pending", "256",
              "--observers", "256"]
    command = [server, "-A", SERVER_HOST, "-p", str(port), "-d", "1000", "--connections", "256", *limits]
    greatest = encoded(3, b"\1", [(11, b"a")], b"x" * 1_048_566)
    puts = [encoded(3, bytes([2 + number]), [(11, b"a")], b"x" * 65_000) for number in range(12)]
    wanted = (bytes.fromhex("60e1231000004140" "418d01d22ffde8" "014102")
              + b"".join(bytes([1, 0x44, 3 + number]) for number in range(11)))
    with started(command, stdin=subprocess.DEVNULL, stderr=subprocess.PIPE) as process:
        line_of(process.stderr)
        with contextlib.ExitStack() as stack:
            peers = [stack.enter_context(socket.create_connection((SERVER_HOST, port), LIMIT)) for _ in range(256)]
            peers[-1].sendall(SETTINGS + greatest + b"".join(puts))
            reported = received(peers[-1], wanted[-3:])
        status = process.poll()
        process.kill()
        said = process.communicate()[1]
    return "" if (reported, status) == (wanted, None) else f"status {status}, told {reported.hex()}: {said[-200:]}"


def wrong_at_the_greatest_words(client):
    """Returns the error of a client with the longest arguments and the largest response, or an empty text."""
    got, payload = [], b"y" * 65_000
    target = "coap+tcp://%s:%d" + ("/" + "p" * 255) * 16 + "?" + "&".join(["q" * 255] * 16)
    paths, queries = [(11, b"p" * 255)] * 16, [(15, b"q" * 255)] * 16
    options = [*paths, (12, b"\xff\xff"), *queries, (17, b"\xff\xff"), (65_535, b"J" * 1_034)]
    sent = encoded(3, b"\1", options, b"x" * 56_000)
    words = ["-m", "put", "-e", "x" * 56_000, "-t", "65535", "-A", "65535", "-O", "65535,0x" + "4a" * 1_034, "-B",
             "4294967295"]
    with socket.create_server((HOST, 0)) as listener:
        response = encoded(0x44, b"\1", [], payload)
        peer = threading.Thread(target=answer,
                                args=(listener, got, bytes.fromhex("30e122ffff"), bytes.fromhex(CSM) + sent, response))
        peer.start()
        ran = subprocess.run([client, *words, target % listener.getsockname()], stdin=subprocess.DEVNULL,
                             capture_output=True, timeout=LIMIT)
        listener.shutdown(socket.SHUT_RDWR)
        peer.join()
    is_right = ((ran.returncode, ran.stdout, ran.stderr) == (0, payload, b"")
                and b"".join(got) == bytes.fromhex(CSM) + sent)
    return ("" if is_right
            else f"status {ran.returncode}, {len(b''.join(got))} bytes sent, {len(ran.stdout)} written: "
                 f"{ran.stderr[-200:]}")


def wrong_of(ran, usual):
    """Returns the error of a run with a failed allocation, or an empty text."""
    is_usual = ((ran.status, ran.written, ran.sent, ran.fault())
                == (usual.status, usual.written, usual.sent, usual.fault()))
    is_front = usual.written.startswith(ran.written) and usual.sent.startswith(ran.sent)
    is_reported = ran.status == 3 and [it.partition(": ")[2] for it in ran.fault()] == ["no memory"]
    return "" if is_usual or (is_reported and is_front) else f"{ran}, not {usual}"


def refuse_each(name, run, wanted, shim):
    """Makes each allocation of a run fail in turn. Returns the number of failures, the number of those that end the
    program, and the errors."""
    usual, wrong, count, reported = run(dict(os.environ)), [], 0, 0
    if (usual.status, usual.written, usual.sent) != (0, *wanted):
        return 0, 0, [f"{name}: {usual}"]
    while True:
        ran = run({**os.environ, "LD_PRELOAD": shim, "REFUSE_ALLOCATION": str(count + 1)})
        if not ran.is_refused():
            return count, reported, wrong + ([f"{name}: {trouble}"] if (trouble := wrong_of(ran, usual)) else [])
        count, reported = count + 1, reported + (ran.status == 3)
        trouble = wrong_of(ran, usual)
        wrong += [f"{name}, allocation {count}: {trouble}"] if trouble else []


def made(run, shim):
    """Returns the number of allocations of a run, by bisection."""
    least, most = 0, MOST_MADE
    while least < most:
        middle = (least + most) // 2
        is_refused = run(refusing_after(middle, shim)).is_refused()
        least, most = (middle + 1, most) if is_refused else (least, middle)
    return least


def refusing_after(count, shim):
    return {**os.environ, "LD_PRELOAD": shim, "REFUSE_BEHIND": str(count)}


def wrong_without_growth(opens, run, wanted, shim):
    """Returns the error of a run in which every allocation fails that `opens`, a run that only opens the connections,
    does not make."""
    ran = run(refusing_after(made(opens, shim), shim))
    return "" if (ran.status, ran.written, ran.sent) == (0, *wanted) else f"{ran}"


def without_growth(server, shim):
    """Yields the errors of such runs over standard streams and over sockets, by name."""
    greeting, request, answered = bytes.fromhex(CSM), bytes.fromhex("00e1" "010101"), bytes.fromhex("a14501" + GREETING)
    streams = [over_streams(server, "--stdio", stream=it) for it in (b"", request)]
    yield "standard streams", wrong_without_growth(*streams, (greeting + answered, b""), shim)
    peers = [listening(server, lambda port, _, sent=it: requested_two(port, sent, answered)) for it in (b"", request)]
    yield "sockets", wrong_without_growth(*peers, (b"", 2 * greeting + 2 * answered), shim)


def main(words):
    flags = [it for it in words if it.startswith("--")]
    server, client, *named = [it for it in words if it not in flags]
    server, client = os.path.abspath(server), os.path.abspath(client)
    runs = {
        "serve_one": (over_streams(server, "--stdio", "-d", "1", stream=SENT), (ANSWERED, b"")),
        "replay": (over_streams(server, "--script", "-", "-d", "2", stream=SCRIPT), (LINES, b"")),
        "serve_door": (listening(server), (b"", ANSWERED)),
        "run_client": (asking(client), (b"hi\n", ASKED)),
    }
    passed, failed, calls = 0, 0, {}
    with tempfile.TemporaryDirectory(prefix="refused-") as room, ThreadPoolExecutor(len(runs)) as pool:
        shim = preloaded("fail_malloc", room)
        chosen = {name: run for name, run in runs.items() if not named or name in named}
        running = {name: pool.submit(refuse_each, name, *run, shim) for name, run in chosen.items()}
        for name, it in running.items():
            count, reported, wrong = it.result()
            passed, failed = passed + count - min(count, len(wrong)), failed + len(wrong)
            calls[f"`{name}`, in `{'coap-client' if name == 'run_client' else 'coap-server'}`", LEFT] = reported
            print(f"{name}: {count} failed allocations, of which {reported} end the program")
            for text in wrong[:3]:
                print(text)
        for name, trouble in without_growth(server, shim):
            passed, failed = passed + (not trouble), failed + bool(trouble)
            print(f"no allocations after the connections open, over {name}: {trouble or 'the same bytes'}")
    wrong = [] if named else allocations.compared(calls, flags, in_programs=True)
    failed += len(wrong)
    print("".join(f"{text}\n" for text in wrong), end="")
    for name, wrong in (("script", wrong_at_the_greatest_script(server)), ("door", wrong_at_the_greatest_door(server)),
                        ("words", wrong_at_the_greatest_words(client))):
        passed, failed = passed + (not wrong), failed + bool(wrong)
        print(f"the largest {name}: {wrong or 'no failure is reported'}")
    print(f"{passed} passed, {failed} failed")
    return 1 if failed else 0


if __name__ == "__main__":
    sys.exit(main(sys.argv[1:]))
