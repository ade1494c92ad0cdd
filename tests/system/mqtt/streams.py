"""Checks peers that send many requests at once, and damaged ones, and the splitting of their bytes."""

import contextlib
import os
import random
import re
import socket
import tempfile
import time

from gateway_checks import SANITIZED, SELDOM, SOURCES, run
from gateways import (
    CHANGED, CONTENT, CREATED, DELETE, FORMAT, GET, IF_MATCH, LIMIT, OBSERVE, POST, PREFIX, PUT, URI_PATH, Setting,
    encode,
)
from peers import LOCAL
from rows import HARNESS
from workspace import ROOT


def check_many(checks, program):
    """Checks many requests of one peer at once, cut into small pieces and joined into large ones."""
    with Setting(program, 1, words=["--pending", "256"], changes=SELDOM) as setting:
        peer, = setting.peers()
        check_unread(checks, peer)
        tokens = [peer.send(PUT, f"{PREFIX}/{at % 20}", payload=b"%d" % at) for at in range(200)]
        checks.same("200 writes", [peer.wait(it).code for it in tokens], 20 * [CREATED] + 180 * [CHANGED])
        checks.same("the last state of each", [peer.get(f"{PREFIX}/{at}")[1] for at in range(20)],
                    [b"%d" % at for at in range(180, 200)])
        path_of = lambda at: [(URI_PATH, b"shared"), (URI_PATH, b"%d" % at)]  # noqa: E731
        stream = b"".join(encode(PUT, b"t%03d" % at, path_of(at), bytes(at * 7)) for at in range(100))
        for at in range(0, len(stream), 611):
            peer.socket.sendall(stream[at:at + 611])
        found = [peer.wait(b"t%03d" % at).code for at in range(100)]
        checks.same("100 writes in pieces", found, 20 * [CHANGED] + 80 * [CREATED])
        peer.socket.sendall(encode(PUT, b"x", [(URI_PATH, b"shared")], bytes(70_000)))
        ended = False
        with contextlib.suppress(OSError):
            while peer.read(LIMIT):
                pass
        ended = any(it.code == 0xE5 for it in peer.received[b""])
        checks.same("a message above the maximum size ends the connection", ended, True)
        with setting.gateways[0].peer() as other:
            other.socket.sendall(b"\x0f\x01" * 100)
            with contextlib.suppress(OSError):
                while other.read(LIMIT):
                    pass
            checks.same("bytes that are no message end the connection",
                        any(it.code == 0xE5 for it in other.received[b""]), True)
        with setting.gateways[0].peer() as other:
            checks.same("other peers are served", other.get(f"{PREFIX}/3")[0], CONTENT)


def check_unread(checks, peer):
    """Checks a peer that reads no response until it has sent all requests: more than its queue and its socket have room
    for."""
    large = bytes(range(250)) * 260
    checks.same("a large resource", peer.code(PUT, f"{PREFIX}/large", payload=large), CREATED)
    get, put = (GET, f"{PREFIX}/large"), (PUT, f"{PREFIX}/small")
    tokens = [(peer.send(*get), peer.send(*put, payload=b"%d" % at)) for at in range(150)]
    time.sleep(0.5)
    found = [(peer.wait(read).payload == large, peer.wait(write).code) for read, write in tokens]
    checks.same("all responses to a peer that did not read", found, [(True, CREATED)] + 149 * [(True, CHANGED)])


def check_noise(checks, program):
    """Checks peers that send damaged messages, and peers that leave at any time. Others are served meanwhile."""
    source = random.Random(7252)
    with Setting(program, 1, words=["--connections", "32"]) as setting:
        peer, = setting.peers()
        checks.same("a resource", peer.code(PUT, f"{PREFIX}/kept", payload=b"kept"), CREATED)
        path = [(URI_PATH, b"shared"), (URI_PATH, b"noise")]
        stream = b"\x00\xe1" + encode(PUT, b"p", path, b"x" * 40) + encode(GET, b"g", [(OBSERVE, b""), *path])
        stream += encode(DELETE, b"d", path)
        stream += encode(POST, b"q", [(IF_MATCH, b"1234"), *path, (FORMAT, b"2")], bytes(300))
        stream += b"\x00\xe2" + encode(31, b"r", path)
        alive = 0
        for _ in range(400):
            damaged = bytearray(stream)
            for _ in range(source.choice((0, 1, 1, 2, 5))):
                damaged[source.randrange(len(damaged))] = source.randrange(256)
            address = (LOCAL, setting.gateways[0].port)
            with socket.create_connection(address, LIMIT) as other, contextlib.suppress(OSError):
                other.sendall(bytes(damaged[:source.choice((len(damaged), source.randrange(len(damaged))))]))
                if source.random() < 0.5:
                    other.settimeout(0.02)
                    other.recv(65536)
            alive += peer.get(f"{PREFIX}/kept") == (CONTENT, b"kept", None)
        checks.same("another peer is served", alive, 400)
        checks.same("the gateway runs", setting.gateways[0].process.poll(), None)

def check_frames(checks, program):
    """Compares the splitting of frames with that of the proved library, on bytes at random."""
    archive = os.path.join(os.path.dirname(program), "libdachreup.a")
    with tempfile.TemporaryDirectory(prefix="coap-mqtt-") as folder:
        line = ["gcc", "-std=c11", "-Wall", "-Wextra", "-Werror", f"-I{SOURCES}", f"-I{ROOT}/include"]
        sources = [f"{HARNESS}/mqtt_frames.c", f"{SOURCES}/screen.c", archive, "-o", f"{folder}/frames"]
        for how, flags, streams in (("", ["-O2"], 20_000), (" with sanitizers", SANITIZED, 2_000)):
            checks.same(f"compiles{how}", run([*line, *flags, *sources]).stderr, "")
            done = run([f"{folder}/frames", "8323", str(streams)])
            found = re.fullmatch(r"(\d+) streams, (\d+) messages, 0 wrong\n", done.stdout)
            checks.same(f"the splitting{how}", (done.returncode, bool(found) or done.stdout), (0, True))
            checks.same(f"messages{how}", bool(found) and int(found[2]) > 2 * streams, True)
