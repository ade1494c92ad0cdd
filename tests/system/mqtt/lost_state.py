"""Checks that gateways agree with a broker that comes back with an older state or without one, and on messages that
expire."""

import os
import shutil
import time

from gateway_checks import state_of
from gateways import CHANGED, CREATED, DELETE, DELETED, GET, NOT_FOUND, OBSERVE, PREFIX, PUT, Gateway, Setting, soon


def replaced(checks, setting, make, said):
    """Kills the broker, lets a function change its file, and starts it. Checks the line that each gateway logs then."""
    setting.broker.kill()
    checks.same("the gateways notice", [it.says("broker: connection") for it in setting.gateways], [True, True])
    make(f"{setting.folder}/kept/mosquitto.db")
    setting.broker.start()
    checks.same(f"both say {said}", [it.says(said) or it.log() for it in setting.gateways], [True, True])


def check_older_broker(checks, program):
    """Checks two gateways whose broker is restored from a copy, which has their records, and then loses its state."""
    with Setting(program) as setting:
        one, two = setting.peers()
        for name in "abc":
            checks.same(f"PUT {name}", one.code(PUT, f"{PREFIX}/{name}", payload=b"old"), CREATED)
        setting.broker.process.terminate()
        checks.same("the broker ends", setting.broker.ended(), 0)
        copy = f"{setting.folder}/copy.db"
        shutil.copy(f"{setting.folder}/kept/mosquitto.db", copy)
        setting.broker.start()
        found = [it.says("connected again: 3 resources, 0 new, 0 removed") for it in setting.gateways]
        checks.same("it comes back as it was", found, [True, True])
        checks.same("a removal", two.code(DELETE, f"{PREFIX}/a"), DELETED)
        checks.same("a change", one.code(PUT, f"{PREFIX}/b", payload=b"new"), CHANGED)
        checks.same("a creation", one.code(PUT, f"{PREFIX}/d", payload=b"new"), CREATED)
        wanted = {"b": b"new", "c": b"old", "d": b"new"}
        found = [soon(lambda p=it: state_of(p, "abcd"), wanted) for it in (one, two)]
        checks.same("both have that", found, 2 * [wanted])
        replaced(checks, setting, lambda kept: shutil.copy(copy, kept), "3 resources, 1 new, 1 removed, 0 left out")
        wanted = {name: b"old" for name in "abc"}
        checks.same("both have the older state", [state_of(it, "abcd") for it in (one, two)], 2 * [wanted])
        replaced(checks, setting, os.remove, "it is empty: 0 resources, 0 new, 3 removed, 0 left out")
        checks.same("both have none", [state_of(it, "abcd") for it in (one, two)], 2 * [{}])
        checks.same("a write afterwards", one.code(PUT, f"{PREFIX}/b", payload=b"newest"), CREATED)
        found = soon(lambda: state_of(two, "abcd"), {"b": b"newest"})
        checks.same("it is seen through the other gateway", found, {"b": b"newest"})


def check_expired(checks, program):
    """Checks a message that expires: gateways that have seen it and one that has not are equal, before and after."""
    with Setting(program) as setting:
        peers = setting.peers()
        checks.same("PUT", peers[0].code(PUT, f"{PREFIX}/a", payload=b"a"), CREATED)
        checks.same("it is seen", soon(lambda: peers[1].code(GET, f"{PREFIX}/a") != NOT_FOUND, True), True)
        token = peers[1].send(GET, f"{PREFIX}/a", [(OBSERVE, b"")])
        checks.same("an observer", peers[1].wait(token).payload, b"a")
        began = time.monotonic()
        for name in ("a", "new"):
            setting.broker.publish(f"{PREFIX}/{name}", b"b", "-D", "PUBLISH", "message-expiry-interval", "2")
        checks.same("the observer is notified", peers[1].wait(token).code, NOT_FOUND)
        checks.same("each gateway logs both", [it.says("expiry interval", 2) for it in setting.gateways], [True, True])
        checks.same("nobody has them", [state_of(it, ("a", "new")) for it in peers], [{}, {}])
        checks.same("the broker has none after two seconds", soon(setting.broker.retained, {}), {})
        checks.same("it had them until then", time.monotonic() - began > 1, True)
        checks.same("the observer is not notified again", peers[1].wait(token, 0.3), None)
        with Gateway(program, setting.broker, setting.folder, 3) as later, later.peer() as other:
            checks.same("all are equal", [state_of(it, ("a", "new")) for it in (*peers, other)], 3 * [{}])
            checks.same("a write afterwards", other.code(PUT, f"{PREFIX}/a", payload=b"c"), CREATED)
            found = [soon(lambda p=it: state_of(p, "a"), {"a": b"c"}) for it in peers]
            checks.same("all have it", found, 2 * [{"a": b"c"}])
