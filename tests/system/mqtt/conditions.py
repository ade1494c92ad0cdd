"""Checks requests with conditions, and the table of the writes under way."""

import concurrent.futures
import socket
import subprocess
import tempfile
import time

from false_brokers import Relay
from gateway_checks import SELDOM, FakeSetting
from gateways import (
    CHANGED, CREATED, DELETE, DELETED, ETAG, GET, IF_MATCH, IF_NONE_MATCH, INTERNAL, LIMIT, PRECONDITION, PREFIX,
    PUT, UNAVAILABLE, Gateway, Setting, option_of, soon,
)
from scripted import codes, scripted, stopped, taken
from workspace import ROOT


def etag_of(peer, path):
    return option_of(peer.ask(GET, path), ETAG)


def check_table(checks, _):
    """Compares the table of writes with a list, after each of many random calls."""
    sources = [f"{ROOT}/tests/harness/mqtt_writes.c", f"{ROOT}/gateway/mqtt/writes.c", f"{ROOT}/gateway/mqtt/names.c"]
    flags = ["-std=c11", "-g", "-O1", "-Wall", "-Wextra", "-Werror", "-fsanitize=address,undefined",
             "-fno-sanitize-recover=all", f"-I{ROOT}/gateway/mqtt", f"-I{ROOT}/include"]
    with tempfile.TemporaryDirectory(prefix="coap-mqtt-") as folder:
        line = ["gcc", *flags, *sources, "-o", f"{folder}/writes"]
        built = subprocess.run(line, capture_output=True, text=True, timeout=LIMIT)
        checks.same("compiles", built.stderr, "")
        for seed in range(1, 4):
            line = [f"{folder}/writes", str(seed), "50000"]
            done = subprocess.run(line, capture_output=True, text=True, timeout=LIMIT)
            found = (done.returncode, done.stdout.split()[-2:], done.stderr)
            checks.same(f"seed {seed}", found, (0, ["0", "differences"], ""))


def check_conditions(checks, program):
    """Checks that of several requests with one condition, one is applied, also beside requests without a condition."""
    with Setting(program, 1) as setting:
        (peer,), broker, at = setting.peers(), setting.broker, f"{PREFIX}/a"
        other = setting.stack.enter_context(setting.gateways[0].peer())
        checks.same("a resource", peer.code(PUT, at, payload=b"a"), CREATED)
        match = (IF_MATCH, etag_of(peer, at))
        with stopped(broker):
            tokens = [peer.send(PUT, at, [match], payload) for payload in (b"b", b"c")]
            third = other.send(DELETE, at, [match])
            taken(peer), taken(other)
        checks.same("three writes with one ETag", [*(peer.wait(it).code for it in tokens), other.wait(third).code],
                    [CHANGED, PRECONDITION, PRECONDITION])
        checks.same("the first one is applied", peer.get(at)[1], b"b")
        with stopped(broker):
            tokens = [peer.send(PUT, f"{PREFIX}/new", [(IF_NONE_MATCH, b"")], payload) for payload in (b"1", b"2")]
            taken(peer)
        checks.same("two creations with If-None-Match", codes(peer, tokens), [CREATED, PRECONDITION])
        match = (IF_MATCH, etag_of(peer, at))
        with stopped(broker):
            tokens = [peer.send(DELETE, at, [match]), peer.send(PUT, at, [(IF_NONE_MATCH, b"")], b"d"),
                      peer.send(PUT, at, [(IF_MATCH, b"")], b"e")]
            taken(peer)
        checks.same("conditions that an earlier request makes true", codes(peer, tokens), [DELETED, CREATED, CHANGED])
        match = (IF_MATCH, etag_of(peer, at))
        with stopped(broker):
            tokens = [peer.send(PUT, at, payload=b"f"), peer.send(PUT, at, [match], b"g"),
                      peer.send(PUT, at, payload=b"h")]
            elsewhere = peer.send(PUT, f"{PREFIX}/new", [(IF_MATCH, b"")], b"3")
            taken(peer)
        checks.same("a condition between writes without one", codes(peer, tokens), [CHANGED, PRECONDITION, CHANGED])
        checks.same("the last write without a condition", peer.get(at)[1], b"h")
        checks.same("another path", peer.wait(elsewhere).code, CHANGED)


def count_up(gateway, wanted, values):
    """Adds one to the counter by its ETag until this has succeeded a number of times. Appends the values to a list."""
    done, at = 0, f"{PREFIX}/counter"
    with gateway.peer() as peer:
        while done < wanted:
            found = peer.ask(GET, at)
            value = int(found.payload) + 1
            code = peer.code(PUT, at, [(IF_MATCH, option_of(found, ETAG))], b"%d" % value)
            if code == CHANGED:
                done += 1
                values.append(value)
            elif code != PRECONDITION:
                time.sleep(0.2)


def check_counters(checks, program):
    """Checks that no increment is lost of peers that read, add one, and write with the ETag."""
    values = []
    with Setting(program, 1, changes=SELDOM) as setting:
        (peer,), gateway = setting.peers(), setting.gateways[0]
        peer.code(PUT, f"{PREFIX}/counter", payload=b"0")
        with concurrent.futures.ThreadPoolExecutor(6) as pool:
            list(pool.map(lambda _: count_up(gateway, 25, values), range(6)))
        checks.same("the counter", int(peer.get(f"{PREFIX}/counter")[1]), 150)
        checks.same("each value once", sorted(values), list(range(1, 151)))


def check_counters_cut(checks, program):
    """Checks that no two increments have one value, while the connection to the broker is cut again and again."""
    values = []
    with Setting(program, 0, changes=SELDOM) as setting, Relay(setting.broker.port) as relay:
        with Gateway(program, FakeSetting(relay.port, setting.folder), setting.folder, 1) as gateway:
            with gateway.peer() as peer:
                checks.same("a counter", peer.code(PUT, f"{PREFIX}/counter", payload=b"0"), CREATED)
                with concurrent.futures.ThreadPoolExecutor(6) as pool:
                    runs = [pool.submit(count_up, gateway, 50, values) for _ in range(6)]
                    for cut in range(1, 4):
                        checks.same(f"increments before cut {cut}", soon(lambda c=cut: len(values) >= 50 * c, True),
                                    True)
                        relay.gateways[-1].shutdown(socket.SHUT_RDWR)
                        checks.same(f"the gateway connects after cut {cut}", gateway.says("connected again", cut), True)
                    for run in runs:
                        run.result(LIMIT)
                checks.same("increments", (len(values), len(set(values))), (300, 300))
                # A write without an answer may have been made, so the counter may be ahead.
                last = int(peer.get(f"{PREFIX}/counter")[1])
                checks.same("the counter", max(values) <= last <= 300 + 6 * 3 or last, True)


def check_order_of_conditions(checks, program):
    """Checks that a request with a condition is published after all others of its path, however they end."""
    reasons = {}

    def decide(published):
        return reasons.get(published.payload, (0, False))

    with scripted(program, decide=decide) as (gateway, broker, peer):
        at = f"{PREFIX}/a"
        first = peer.send(PUT, at, payload=b"1")
        checks.same("the first one is published", soon(lambda: [it.payload for it in broker.published], [b"1"]), [b"1"])
        second, third = peer.send(PUT, at, [(IF_MATCH, b"")], b"2"), peer.send(PUT, at, payload=b"3")
        taken(peer)
        checks.same("a request without a condition does not wait",
                    soon(lambda: [it.payload for it in broker.published], [b"1", b"3"]), [b"1", b"3"])
        broker.release()
        checks.same("the first one is answered", peer.wait(first).code, CREATED)
        taken(peer)
        checks.same("the second one waits for the third", [it.payload for it in broker.published], [b"1", b"3"])
        broker.release()
        checks.same("the third one is answered", peer.wait(third).code, CHANGED)
        checks.same("the second one is published", soon(lambda: broker.published[-1].payload, b"2"), b"2")
        broker.release()
        checks.same("the second one is answered", peer.wait(second).code, CHANGED)
        reasons[b"4"] = (0x83, False)
        fourth, fifth = peer.send(PUT, at, payload=b"4"), peer.send(PUT, at, [(IF_MATCH, b"")], b"5")
        checks.same("a refused one", peer.wait(fourth).code, INTERNAL)
        checks.same("the next one is published", soon(lambda: broker.published[-1].payload, b"5"), b"5")
        sixth = peer.send(PUT, at, [(IF_MATCH, b"")], b"6")
        taken(peer)
        broker.send(b"\xe0\x01\x8b")
        checks.same("one that waits when the connection ends", peer.wait(sixth).code, UNAVAILABLE)
        checks.same("it was never published", [it.payload for it in broker.published if it.payload == b"6"], [])
        checks.same("the gateway connects again", gateway.says("connected again"), True)
        checks.same("one that was published when the connection ended", peer.wait(fifth).code, CHANGED)
