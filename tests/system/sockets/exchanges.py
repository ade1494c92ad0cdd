"""Checks requests, notifications, large bodies, and ETags."""

import os
import socket
import subprocess
import tempfile
import time

import messages
from both_programs import GREETED, HELLO, explained, listens
from checks import ABORTS, CSM, GREETING
from peers import LIMIT, Server, client, line_of, read_bytes, read_to_end, started

# The number of the option ETag.
ETAG = 4


def check_requests(checks, programs):
    """Checks requests of the client to the server."""
    with Server(programs.server, ["-d", "16"]) as server:
        checks.same("line", server.said, listens(server))
        rows = [
            (["-w"], "/", (0, b"coap+tcp\n", b"")),
            (["-m", "put", "-e", "x"], "/a", (0, b"", b"")),
            ([], "/a", (0, b"x", b"")),
            (["-m", "delete"], "/a", (0, b"", b"")),
            ([], "/a", (2, b"", b"4.04\n")),
            (["-B", "5"], "/async?0", (0, b"done", b"")),
            (["-B", "5"], "/async?1", (0, b"done", b"")),
            (["-B", "1"], "/async?5", (4, b"", explained("no response arrived within 1 second"))),
        ]
        for words, path, wanted in rows:
            checks.same("coap-client %r %s" % (words, path), client(programs.client, [*words, server.uri(path)]),
                        wanted)
        began = int(time.time())
        reported = client(programs.client, [server.uri("/time")])
        checks.same("/time is the seconds since 1970", abs(int(reported[1] or 0) - began) <= 2, True)


def requested_by(length):
    """Returns an empty CSM and a GET of the root with a token of this length, and all bytes that a server sends for
    them."""
    token = bytes(range(100, 100 + length))
    nibble, extension = (length, b"") if length < 13 else (13, bytes([length - 13]))
    sent = bytes.fromhex("00e1") + bytes([nibble, 1]) + extension + token
    return sent, bytes.fromhex(CSM) + bytes([10 << 4 | nibble, 0x45]) + extension + token + bytes.fromhex(GREETING)


def check_tokens(checks, programs):
    """Checks that responses have long tokens, and that a token that is too long causes an Abort (RFC 8974 section
    2.1)."""
    with Server(programs.server) as server:
        for length in (8, 9, 12, 13, 64):
            with server.connect() as peer:
                sent, wanted = requested_by(length)
                peer.sendall(sent)
                checks.same("a token of %d bytes" % length, read_bytes(peer, len(wanted)), wanted)
        with server.connect() as peer:
            # An empty CSM, and the message up to the byte that completes its token length.
            peer.sendall(requested_by(65)[0][:5])
            checks.same("a token of 65 bytes", read_to_end(peer),
                        (bytes.fromhex(CSM + ABORTS["bad token length"]), "the end"))


def check_observers(checks, programs):
    """Checks notifications when the time advances, and when another connection changes a resource."""
    with Server(programs.server, ["-d", "16"]) as server:
        done = client(programs.client, ["-s", "2", "-w", "-B", "5", server.uri("/time")])
        moments = [int(it) for it in done[1].split()]
        # The first response, two notifications, and the response to the cancellation.
        are_all = sorted(set(moments)) == list(range(moments[0], moments[-1] + 1))
        checks.same("observe /time", (done[0], len(moments) in (3, 4, 5), are_all, done[2]), (0, True, True, b""))
        # The observation begins in the middle of a second, and each notification arrives at the beginning of one.
        time.sleep((0.5 - time.time()) % 1)
        with started([programs.client, "-s", "2", "-w", server.uri("/time")], stdout=subprocess.PIPE) as watching:
            lines = [(line_of(watching.stdout), time.time() % 1) for _ in range(3)]
            watching.stdout.read()
        late = min(at for _, at in lines[1:])
        checks.same("a notification arrives %.2f s after its second begins" % late, late < 0.4, True)
        client(programs.client, ["-m", "put", "-e", "one", server.uri("/a")])
        with started([programs.client, "-s", "1", "-w", server.uri("/a")], stdout=subprocess.PIPE) as watching:
            checks.same("first state", line_of(watching.stdout), b"one\n")
            client(programs.client, ["-m", "put", "-e", "two", server.uri("/a")])
            checks.same("second state", line_of(watching.stdout), b"two\n")
            checks.same("last response", (watching.stdout.read(), watching.wait(LIMIT)), (b"two\n", 0))


def check_bodies(checks, programs):
    """Checks a PUT and a GET of 65,000 bytes, with files and with standard streams."""
    body = bytes(range(256)) * 253 + bytes(232)
    with Server(programs.server, ["-d", "16"]) as server, tempfile.TemporaryDirectory() as folder:
        sent, got = os.path.join(folder, "sent"), os.path.join(folder, "got")
        with open(sent, "wb") as it:
            it.write(body)
        checks.same("put of a file", client(programs.client, ["-m", "put", "-f", sent, server.uri("/a")]),
                    (0, b"", b""))
        # The old content of the file is longer.
        with open(got, "wb") as it:
            it.write(body + body)
        checks.same("get into a file", client(programs.client, ["-o", got, server.uri("/a")]), (0, b"", b""))
        with open(got, "rb") as it:
            checks.same("the file", it.read() == body, True)
        checks.same("put of standard input", client(programs.client, ["-m", "put", "-f", "-", server.uri("/b")], body),
                    (0, b"", b""))
        checks.same("get", client(programs.client, [server.uri("/b")]) == (0, body, b""), True)
        checks.same("get into standard output",
                    client(programs.client, ["-o", "-", server.uri("/b")]) == (0, body, b""), True)
        largest = bytes(1 << 20)
        done = client(programs.client, ["-m", "put", "-f", "-", server.uri("/c")], largest)
        checks.same("the largest payload, which exceeds any request", done,
                    (3, b"", b"request fault 3\n" + explained(TOO_BIG)))
        done = client(programs.client, ["-m", "put", "-f", "-", server.uri("/c")], largest + b"x")
        checks.same("a file that is longer than the largest payload", done,
                    (1, b"", b"coap-client: bad value for -f\ncoap-client: -f takes a file of at most 1048576 bytes\n"))
        with open("/dev/full", "wb") as full:
            done = subprocess.run([programs.client, server.uri("/a")], stdout=full, stderr=subprocess.PIPE,
                                  timeout=LIMIT)
            checks.same("writing fails", (done.returncode, done.stderr), (3, b"coap-client: cannot write\n"))


# The cause if a PUT of 1,048,576 bytes to /c is not sent.
TOO_BIG = "the request has 1048586 bytes; the client sends at most 65536"


def etag_of(peer, number):
    """Stores /a, and returns its ETag as a number."""
    # A PUT with a payload of one byte, and a GET, each with a token of one byte.
    peer.sendall(bytes.fromhex("410301b161ff%02x" "210102b161" % number))
    read_bytes(peer, 3)
    size = read_bytes(peer, 1)
    _, _, options, _ = messages.parse(size + read_bytes(peer, 2 + (size[0] >> 4)))
    return int.from_bytes(dict(options)[ETAG], "big")


def etags_of(programs, count):
    """Returns the ETags of this number of PUTs to a new server."""
    with Server(programs.server, ["-d", "1"]) as server, server.connect() as peer:
        peer.sendall(HELLO)
        read_bytes(peer, len(GREETED))
        return [etag_of(peer, number) for number in range(count)]


def check_versions(checks, programs):
    """Checks that a server that is started again a second later repeats no ETag."""
    first = etags_of(programs, 3)
    time.sleep(1.05)
    second = etags_of(programs, 3)
    checks.same("ETags rise within a run", [sorted(set(it)) == it for it in (first, second)], [True, True])
    checks.same("no ETag is repeated in a later run", min(second) > max(first), True)


def check_recorded(checks, programs):
    """Checks that the bytes of a connection, replayed with the start values of their server, have the same responses,
    with the same ETag."""
    # PUT and GET of /a.
    sent = "00e1" "410301b161ff78" "210102b161"
    with Server(programs.server, ["-d", "1"]) as server, server.connect() as peer:
        peer.sendall(bytes.fromhex(sent))
        peer.shutdown(socket.SHUT_WR)
        got, _ = read_to_end(peer)
    # The CSM, 2.01, and 2.05 with an ETag of six bytes.
    etag = int.from_bytes(got[15:21], "big")
    moment = etag // 65_536
    checks.same("the server has the time of the system", abs(moment - time.time()) < 60, True)
    words = ["-d", "1", "--starts", "%d,%d,0" % (moment, moment * 65_536)]
    script = "open\nin 1 00e1\nin 1 410301b161ff78\nin 1 210102b161\ndrain 1\n"
    for mode, stream, reported in (
        (["--stdio"], bytes.fromhex(sent), got),
        (["--script", "-"], script.encode(), b"open 1\nin 1 2\nin 1 7\nin 1 5\nout 1 %s\n" % got.hex().encode()),
    ):
        done = subprocess.run([programs.server, *words, *mode], input=stream, capture_output=True, timeout=LIMIT)
        checks.same("replayed with %s" % mode[0], (done.returncode, done.stdout, done.stderr), (0, reported, b""))
