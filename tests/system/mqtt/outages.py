"""Checks gateways and brokers that end, stall and start again."""

import contextlib
import os
import signal
import time

from gateway_checks import state_of
from gateways import (
    CHANGED, CONTENT, CREATED, DELETE, DELETED, ETAG, GET, NOT_ALLOWED, OBSERVE, POST, PREFIX, PUT, SOON, TIMEOUT,
    UNAVAILABLE, Setting, option_of, soon,
)


def check_gateway_killed(checks, program):
    """Checks a gateway that is killed and started again."""
    with Setting(program) as setting:
        (one, two), first = setting.peers(), setting.gateways[0]
        for name in "abc":
            checks.same(f"PUT {name}", one.code(PUT, f"{PREFIX}/{name}", payload=name.encode()), CREATED)
        etag = option_of(one.ask(GET, f"{PREFIX}/a"), ETAG)
        first.kill()
        checks.same("a change meanwhile", two.code(PUT, f"{PREFIX}/b", payload=b"new"), CHANGED)
        checks.same("a removal meanwhile", two.code(DELETE, f"{PREFIX}/c"), DELETED)
        first.start()
        with first.peer() as again:
            token = again.send(GET, f"{PREFIX}/b", [(OBSERVE, b"")])
            checks.same("an observer that connects again", again.wait(token).payload, b"new")
            checks.same("the state", state_of(again, "abc"), {"a": b"a", "b": b"new"})
            checks.same("another ETag for the same bytes", option_of(again.ask(GET, f"{PREFIX}/a"), ETAG) != etag, True)
            two.code(PUT, f"{PREFIX}/b", payload=b"newer")
            checks.same("it is notified", again.wait(token).payload, b"newer")


def check_broker_killed(checks, program):
    """Checks a broker that is killed, and one that stalls."""
    with Setting(program) as setting:
        one, two = setting.peers()
        for name in "abc":
            one.code(PUT, f"{PREFIX}/{name}", payload=name.encode(), form=0)
        all_three = {"a": b"a", "b": b"b", "c": b"c"}
        checks.same("the state", soon(lambda: state_of(two, "abc"), all_three), all_three)
        tokens = [peer.send(GET, f"{PREFIX}/b", [(OBSERVE, b"")]) for peer in (one, two)]
        checks.same("observers", [peer.wait(token).payload for peer, token in zip((one, two), tokens)], [b"b", b"b"])
        checks.same("the broker has saved them", [setting.broker.saved(f"{PREFIX}/{it}".encode()) for it in "abc"],
                    3 * [True])
        setting.broker.kill()
        checks.same("the gateways notice", [it.says("broker: connection") for it in setting.gateways], [True, True])
        began = time.monotonic()
        checks.same("writes meanwhile", [one.code(it, f"{PREFIX}/b", payload=b"lost") for it in (PUT, POST, DELETE)],
                    3 * [UNAVAILABLE])
        checks.same("they are answered at once", time.monotonic() - began < SOON, True)
        checks.same("reads meanwhile", [state_of(it, "abc") for it in (one, two)], 2 * [all_three])
        setting.broker.start()
        checks.same("both connect again", [it.says("resources", 2) for it in setting.gateways], [True, True])
        found = [peer.wait(token, 0.3) for peer, token in zip((one, two), tokens)]
        checks.same("no notification of an unchanged state", found, [None, None])
        kept = {it.removeprefix(f"{PREFIX}/"): payload for it, payload in setting.broker.retained().items()}
        checks.same("the broker has kept them", kept, all_three)
        found = [soon(lambda p=it: state_of(p, "abc"), all_three) for it in (one, two)]
        checks.same("the stores", found, 2 * [all_three])
        checks.same("a write afterwards", one.code(PUT, f"{PREFIX}/b", payload=b"new", form=0), CHANGED)
        checks.same("notifications", [peer.wait(token).payload for peer, token in zip((one, two), tokens)],
                    [b"new", b"new"])
        setting.broker.process.send_signal(signal.SIGSTOP)
        began = time.monotonic()
        checks.same("a write while the broker stalls", one.code(PUT, f"{PREFIX}/b", payload=b"late"), TIMEOUT)
        checks.same("its deadline", 8 < time.monotonic() - began < 13, True)
        checks.same("the gateway connects anew", setting.gateways[0].says("did not come within 10 seconds"), True)
        setting.broker.process.send_signal(signal.SIGCONT)
        checks.same("the store is read again", setting.gateways[0].says("resources", 3), True)
        wanted = setting.broker.retained()[f"{PREFIX}/b"]
        checks.same("all stores are equal", [soon(lambda p=it: p.get(f"{PREFIX}/b")[1], wanted) for it in (one, two)],
                    [wanted, wanted])


def check_stale(checks, program):
    """Checks reads while the broker is away, if they are refused."""
    with Setting(program, 1, words=["--stale", "refuse"]) as setting:
        peer, = setting.peers()
        peer.code(PUT, f"{PREFIX}/a", payload=b"a")
        token = peer.send(GET, f"{PREFIX}/a", [(OBSERVE, b"")])
        checks.same("a read", peer.wait(token).payload, b"a")
        checks.same("the broker has saved it", setting.broker.saved(f"{PREFIX}/a".encode()), True)
        setting.broker.kill()
        setting.gateways[0].says("broker: connection")
        checks.same("a read while the broker is away", soon(lambda: peer.code(GET, f"{PREFIX}/a"), UNAVAILABLE),
                    UNAVAILABLE)
        checks.same("Observe", peer.code(GET, f"{PREFIX}/a", [(OBSERVE, b"")]), UNAVAILABLE)
        checks.same("an absent resource", peer.code(GET, f"{PREFIX}/no"), UNAVAILABLE)
        checks.same("a resource that is not shared", peer.code(GET, "time"), CONTENT)
        checks.same("a method that is not assigned", peer.code(30, f"{PREFIX}/a"), NOT_ALLOWED)
        setting.broker.start()
        checks.same("a read afterwards", soon(lambda: peer.get(f"{PREFIX}/a")[0], CONTENT), CONTENT)


def check_start(checks, program):
    """Checks a gateway that starts before its broker, and removals while it is away."""
    with Setting(program, 1) as setting:
        gateway, broker = setting.gateways[0], setting.broker
        peer, = setting.peers()
        for name in "abc":
            peer.code(PUT, f"{PREFIX}/{name}", payload=name.encode())
        broker.kill()
        gateway.says("broker: connection")
        with contextlib.suppress(FileNotFoundError):
            os.remove(f"{broker.folder}/kept/mosquitto.db")
        broker.start()
        checks.same("the gateway connects again", gateway.says("resources", 2), True)
        checks.same("a broker that lost all", state_of(peer, "abc"), {})
        broker.kill()
        gateway.kill()
        gateway.start(waits=False)
        checks.same("it does not listen before the broker runs", gateway.says("listening", seconds=1.5), False)
        broker.start()
        checks.same("it listens then", gateway.says("listening"), True)
