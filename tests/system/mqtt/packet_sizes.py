"""Checks the sizes of packets for the broker, and parts of the program that stand beside libmosquitto."""

import tempfile

from gateway_checks import run
from gateways import (
    CHANGED, CREATED, DELETE, DELETED, GET, INTERNAL, NOT_FOUND, PREFIX, PUT, SIZE1, TOO_LARGE, Setting, option_of,
)
from message_syntax import uint
from rows import HARNESS
from workspace import ROOT

SOURCES = f"{ROOT}/gateway/mqtt"


def check_parts(checks, _):
    """Checks sizes of packets, a lack of memory, failed assertions, owners and pauses by a program of their own."""
    with tempfile.TemporaryDirectory(prefix="coap-mqtt-") as folder:
        names = ("packets", "properties", "guard", "owner", "pauses")
        sources = [f"{HARNESS}/mqtt_packets.c", *(f"{SOURCES}/{it}.c" for it in names)]
        line = ["gcc", "-std=c11", "-D_GNU_SOURCE", "-O2", "-Wall", "-Wextra", "-Werror", f"-I{SOURCES}", *sources]
        checks.same("compiles", run([*line, "-lmosquitto", "-o", f"{folder}/parts"]).stderr, "")
        for name in ("sizes", "memory", "guard", "owner", "pauses"):
            done = run([f"{folder}/parts", name])
            is_right = done.stdout.endswith(", 0 wrong\n") or done.stdout
            checks.same(f"parts: {name}", (done.returncode, is_right), (0, True))


def limited(size):
    """Returns the change of mosquitto's configuration that limits the size of packets."""
    return [("message_size_limit 131072", f"message_size_limit 131072\nmax_packet_size {size}")]


def varint_size(value):
    return 1 if value < 128 else 2 if value < 16384 else 3 if value < 2097152 else 4


def publish_size(topic, payload, form):
    """Returns the size of the PUBLISH of a payload. Shares no code with the gateway."""
    pairs = [("origin", 37 * "0"), *([] if form is None else [("content-format", str(form))])]
    pairs += [] if payload else [("empty", "1")]
    properties = sum(1 + 2 + len(name) + 2 + len(value) for name, value in pairs)
    rest = 2 + len(topic) + 2 + varint_size(properties) + properties + max(payload, 1)
    return 1 + varint_size(rest) + rest


def room(topic, limit, form):
    """Returns the largest payload whose PUBLISH fits into a limit."""
    return max((it for it in range(1, 65001) if publish_size(topic, it, form) <= limit), default=0)


def put_sizes(checks, peer, path, topic, limit, form, sizes):
    """PUTs a payload of each size. Each has one right response. The first wrong one ends this: each can take long."""
    largest, accepted = room(topic, limit, form), []
    for size in sizes:
        response, fits = peer.ask(PUT, path, payload=bytes(size), form=form), publish_size(topic, size, form) <= limit
        wanted = (CHANGED if accepted else CREATED, None) if fits else (TOO_LARGE, uint(largest))
        accepted += [size] if fits else []
        got = (response.code, option_of(response, SIZE1))
        checks.same(f"{size} bytes, format {form}", got, wanted)
        if got != wanted:
            return
    checks.same("sizes on both sides of the limit", (largest in accepted, largest + 1 in accepted), (True, False))
    checks.same("the last one that fits", peer.get(path)[1], bytes(accepted[-1]))


def check_packet_limit(checks, program):
    """Checks payloads around the Maximum Packet Size of mosquitto."""
    with Setting(program, 1, changes=limited(2000)) as setting:
        peer, = setting.peers()
        for form in (50, None):
            put_sizes(checks, peer, f"{PREFIX}/x{form}", f"{PREFIX}/x{form}", 2000, form, range(1850, 2011))
        checks.same("an empty payload", peer.code(PUT, f"{PREFIX}/x", form=50), CREATED)
        large = peer.ask(PUT, f"{PREFIX}/x", payload=bytes(65_001))
        wanted = uint(room(f"{PREFIX}/x", 2000, None))
        checks.same("a payload above both limits", (large.code, option_of(large, SIZE1)), (TOO_LARGE, wanted))
        gateway = setting.gateways[0]
        checks.same("it has one connection", (gateway.log().count("resources"), gateway.process.poll()), (1, None))
    slashes, topic = [PREFIX, 247 * "/"], f"{PREFIX}/{247 * '%2F'}"
    with Setting(program, 1, changes=limited(65536)) as setting:
        peer, = setting.peers()
        put_sizes(checks, peer, slashes, topic, 65536, None, [*range(64_700, 64_760), 65_000])
        checks.same("DELETE", peer.code(DELETE, slashes), DELETED)
    with Setting(program, 1, changes=limited(700)) as setting:
        peer, = setting.peers()
        response = peer.ask(PUT, slashes, payload=b"1")
        checks.same("a topic above the limit", (response.code, option_of(response, SIZE1)), (TOO_LARGE, b""))
        checks.same("its DELETE", (peer.ask(DELETE, slashes).code, peer.code(GET, slashes)), (INTERNAL, NOT_FOUND))
        checks.same("a topic below it", peer.code(PUT, f"{PREFIX}/a", payload=b"1"), CREATED)
        checks.same("the broker has that one", setting.broker.retained(), {f"{PREFIX}/a": b"1"})
        checks.same("it has one connection", setting.gateways[0].log().count("resources"), 1)
