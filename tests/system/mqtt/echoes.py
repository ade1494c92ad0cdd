"""Checks publications that come back late, or never."""

import time

from false_brokers import Relay
from gateway_checks import FakeSetting
from gateways import CHANGED, CREATED, PREFIX, PUT, TIMEOUT, URI_PATH, Gateway, Setting, encode, soon
from scripted import scripted


def check_slow_writes(checks, program):
    """Checks writes over a slow link to the broker: the connection lasts longer than a response may take."""
    count = 8
    with Setting(program, 0) as setting, Relay(setting.broker.port, rate=25_000) as relay:
        behind = FakeSetting(relay.port, setting.folder)
        with Gateway(program, behind, setting.folder, 1) as gateway, gateway.peer() as peer:
            tokens = [peer.send(PUT, f"{PREFIX}/{at}", payload=bytes([at]) * 60_000) for at in range(count)]
            checks.same("the first one in time", peer.wait(tokens[0]).code, CREATED)
            checks.same("the last one needs more than ten seconds", peer.wait(tokens[-1]).code, TIMEOUT)
            wanted = [bytes([at]) * 60_000 for at in range(count)]
            found = soon(lambda: [peer.get(f"{PREFIX}/{at}")[1] for at in range(count)], wanted)
            checks.same("all arrive", [len(it) for it, one in zip(found, wanted) if it == one], count * [60_000])
            checks.same("on one connection", (gateway.log().count("resources"), len(relay.gateways)), (1, 1))
            checks.same("a write afterwards", peer.code(PUT, f"{PREFIX}/0", payload=b"x"), CHANGED)


def check_swallowed(checks, program):
    """Checks an acknowledged publication that does not come back, while other messages come."""
    with scripted(program, decide=lambda it: (0, not it.topic.endswith("/lost"))) as (gateway, broker, peer):
        began, at = time.monotonic(), 0
        peer.send(PUT, f"{PREFIX}/lost", payload=b"1")
        while not gateway.says("an echo did not come", seconds=0.2) and time.monotonic() < began + 20:
            at += 1
            broker.message(f"{PREFIX}/other", b"%d" % at)
        checks.same("the connection ends after more than ten seconds", 9 < time.monotonic() - began < 14, True)
        checks.same("the gateway connects again", gateway.says("connected again"), True)
        checks.same("the mirror has it", soon(lambda: peer.get(f"{PREFIX}/lost")[1], b"1"), b"1")


def check_late_echo(checks, program):
    """Checks that the echo of a write is no answer to a later request with the same token, while the broker is slow."""
    def put(peer, payload):
        peer.socket.sendall(encode(PUT, b"t", [(URI_PATH, PREFIX.encode()), (URI_PATH, b"a")], payload))

    with scripted(program, decide=lambda _: (None, False)) as (gateway, broker, peer):
        began, at = time.monotonic(), 0
        put(peer, b"1")
        while not peer.received[b"t"] and time.monotonic() < began + 20:
            at += 1
            broker.message(f"{PREFIX}/other", b"%d" % at)
            peer.read(0.2)
        checks.same("the deadline of the first write", peer.wait(b"t").code, TIMEOUT)
        put(peer, b"2")
        checks.same("the second one is published", soon(lambda: len(broker.published), 2), 2)
        broker.release()
        checks.same("the echo of the first one is applied", soon(lambda: peer.get(f"{PREFIX}/a")[1], b"1"), b"1")
        checks.same("it answers nothing", list(peer.received[b"t"]), [])
        broker.release()
        checks.same("the echo of the second one answers it", peer.wait(b"t").code, CHANGED)
        checks.same("on one connection", (broker.connections, "did not come" in gateway.log()), (1, False))
