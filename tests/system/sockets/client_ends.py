"""Checks clients that end without a response, because of the address, the peer or a timeout."""

import os
import select
import socket
import subprocess
import tempfile
import time

from both_programs import cannot_connect, explained
from checks import CSM
from peers import LIMIT, LOCAL, Server, authority, client, free_port, processor_time, read_bytes, reset, started


def flood(peer, piece):
    """Sends the same bytes repeatedly, until no more are accepted for a while."""
    peer.setblocking(False)
    until = time.monotonic() + LIMIT / 2
    while select.select([], [peer], [], 0.3)[1] and time.monotonic() < until:
        peer.send(piece)


def check_connecting(checks, programs):
    """Checks a client that cannot connect, and that its output file is unchanged then."""
    port = free_port()
    with tempfile.NamedTemporaryFile() as file:
        file.write(b"kept")
        file.flush()
        done = client(programs.client, ["-o", file.name, "coap+tcp://%s:%d/" % (LOCAL, port)])
        with open(file.name, "rb") as it:
            checks.same("no program listens", (done, it.read()),
                        ((3, b"", cannot_connect("connection refused")), b"kept"))
    with Server(programs.server) as server:
        done = client(programs.client, ["-o", "/nothing/here", server.uri()])
        checks.same("no such file", done, (3, b"", b"coap-client: cannot open /nothing/here\n"))
        done = client(programs.client, ["coap+tcp://localhost:%d/" % server.port])
        checks.same("by a name with an address that may refuse", done, (0, b"coap+tcp", b""))


def ended(programs, how):
    """Returns the result of a client whose peer ends the connection with `how` after it received the CSM of the
    client."""
    with socket.create_server((LOCAL, 0)) as listener:
        uri = "coap+tcp://" + authority(*listener.getsockname())
        with started([programs.client, uri], stderr=subprocess.PIPE) as process:
            peer, _ = listener.accept()
            with peer:
                greeting = read_bytes(peer, len(CSM) // 2).hex()
                how(peer)
                return greeting, process.stderr.read(), process.wait(LIMIT)


def check_ended(checks, programs):
    """Checks a client whose peer ends or resets the connection."""
    wanted = (CSM, b"stopped 11\n" + explained("the connection ended before the last response"), 3)
    checks.same("a peer that ends", ended(programs, lambda it: it.shutdown(socket.SHUT_WR)), wanted)
    checks.same("a peer that resets", ended(programs, reset), wanted)


# Arguments of a client, and a path: a GET of 3 bytes, and a PUT of 2,000 bytes. The last is an observation that is
# cancelled after its first notification.
GET, PUT, OBSERVE = (["-B", "1"], ""), (["-m", "put", "-e", "a" * 1992], "/a"), (["-s", "0", "-B", "1"], "/a")

# Such arguments, what the peer sends in turn, the status of the client, and both lines that it writes. A line is empty
# if it is not written.
CAUSES = [
    (PUT, ["00e1"], 3, "request fault 3", "the request has 2000 bytes; the peer accepts 1152"),
    (PUT, ["30e12207cf"], 3, "request fault 3", "the request has 2000 bytes; the peer accepts 1999"),
    (PUT, ["30e12207d0", "014401"], 0, "", ""),
    (OBSERVE, ["20e12106", "11450160"], 3, "request fault 3",
     "the message that cancels the observation has 7 bytes; the peer accepts 6"),
    # The peer announces a smaller size after the request.
    (OBSERVE, ["00e1", "20e1210511450160"], 3, "request fault 3",
     "the message that cancels the observation has 7 bytes; the peer accepts 5"),
    # The options Block2, Block1, Q-Block2, OSCORE, and one that is not registered.
    (GET, ["00e1", "314501d10a0a"], 2, "bad option 23",
     "the response uses block-wise transfer (option 23, Block2), which is not supported"),
    (GET, ["00e1", "314501d10e0a"], 2, "bad option 27",
     "the response uses block-wise transfer (option 27, Block1), which is not supported"),
    (GET, ["00e1", "314501d1120a"], 2, "bad option 31",
     "the response uses block-wise transfer (option 31, Q-Block2), which is not supported"),
    (GET, ["00e1", "11450190"], 2, "bad option 9",
     "the response has a critical option (option 9, OSCORE), which is not supported"),
    (GET, ["00e1", "314501e0fcdc"], 2, "bad option 65001",
     "the response has a critical option (option 65001), which is not supported"),
    (GET, ["00e1", "114501ff"], 3, "stopped 1", "the server sent a malformed message"),
    (GET, ["00e1", "f0ffffffff01"], 3, "stopped 2", "the server sent a message of more than 65536 bytes"),
    (GET, ["00e1", "0d4534"], 3, "stopped 3", "the server sent a token of more than 64 bytes"),
    (GET, ["00e1", "00c0"], 3, "stopped 4", "the server sent a code of a reserved class"),
    (GET, ["014501"], 3, "stopped 5", "the first message of the server is not a CSM"),
    (GET, ["10e110"], 3, "stopped 6", "the CSM of the server has a bad option (option 1)"),
    (GET, ["60e1250000000001"], 3, "stopped 6", "the CSM of the server has a bad option (option 2)"),
    (GET, ["00e1", "10e210"], 3, "stopped 7", "the server sent a signal with an unknown critical option"),
    (GET, ["00e1", "00e5"], 3, "stopped 8", "the server sent Abort"),
    (GET, ["00e1", "00e4"], 3, "stopped 9", "the server sent Release"),
    # After the request, the peer announces a size for which each Pong is too large.
    (GET, ["20e12103", "20e12102" "01e205"], 3, "stopped 10", "a message exceeds the Max-Message-Size of the server"),
    (GET, [], 4, "", "the server sent no CSM within 1 second"),
    (GET, ["00e1"], 4, "", "no response arrived within 1 second"),
    (OBSERVE, ["00e1", "11450160"], 4, "", "no response to the cancellation arrived within 1 second"),
    # Responses that are no error of the transport have no second line.
    (GET, ["00e1", "018401"], 2, "4.04", ""),
    (GET, ["00e1", "014501"], 0, "", ""),
]


def caused(programs, arguments, pieces):
    """Returns the result of a client whose peer sends each of these pieces after it has received bytes from the
    client."""
    words, path = arguments
    with socket.create_server((LOCAL, 0)) as listener:
        uri = "coap+tcp://" + authority(*listener.getsockname()) + path
        with started([programs.client, *words, uri], stdout=subprocess.PIPE, stderr=subprocess.PIPE) as process:
            peer, _ = listener.accept()
            with peer:
                for piece in pieces:
                    select.select([peer], [], [], LIMIT)
                    peer.recv(1 << 16)
                    peer.sendall(bytes.fromhex(piece))
                return process.wait(LIMIT), process.stdout.read(), process.stderr.read()


def check_causes(checks, programs):
    """Checks the last line of a client that ends without a response that it accepts."""
    for arguments, pieces, status, first, cause in CAUSES:
        wanted = b"".join(it.encode() + b"\n" for it in [first] if it) + (explained(cause) if cause else b"")
        checks.same("%r, and the peer sends %r" % ([it[:8] for it in arguments[0]], pieces),
                    caused(programs, arguments, pieces), (status, b"", wanted))


def check_silent(checks, programs):
    """Checks that a client whose peer is silent ends in time, and uses no processor time while it waits."""
    with socket.create_server((LOCAL, 0)) as listener:
        began = time.monotonic()
        with started([programs.client, "-B", "2", "coap+tcp://" + authority(*listener.getsockname())]) as process:
            _, status, usage = os.wait4(process.pid, 0)
            process.returncode = os.waitstatus_to_exitcode(status)
        checks.same("status of the client", process.returncode, 4)
        checks.same("the client waits for its timeout", 2 <= time.monotonic() - began < 3, True)
        checks.same("an idle client", usage.ru_utime + usage.ru_stime < 0.5, True)


def check_flooded_client(checks, programs):
    """Checks a client whose peer sends Pings and never reads: the client waits for space, and still ends in time."""
    with socket.create_server((LOCAL, 0)) as listener:
        # Small socket buffers of the peer, so that the queue of the client is soon full.
        listener.setsockopt(socket.SOL_SOCKET, socket.SO_RCVBUF, 4096)
        with started([programs.client, "-B", "7", "coap+tcp://%s:%d/" % listener.getsockname()],
                     stderr=subprocess.PIPE) as process:
            with listener.accept()[0] as peer:
                peer.sendall(bytes.fromhex("00e1"))
                flood(peer, bytes.fromhex("01e201") * 20_000)
                before = processor_time(process)
                select.select([process.stderr], [], [], 4)
                checks.same("a client in a flood, in 4 s", (process.poll(), processor_time(process) - before < 0.2),
                            (None, True))
                checks.same("it ends in time", (process.wait(LIMIT), process.stderr.read()),
                            (4, explained("no response arrived within 7 seconds")))
