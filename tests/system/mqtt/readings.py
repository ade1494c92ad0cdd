"""Checks when a gateway reads all retained messages again, and what it logs of a broker that comes back."""

import contextlib
import os
import shutil
import subprocess
import time

from gateways import (
    CHANGED, CONTENT, CREATED, DELETE, GET, NOT_ACCEPTABLE, NOT_FOUND, PREFIX, PUT, Gateway, Setting, soon,
)
from scripted import codes, scripted


def readings(gateway):
    return gateway.log().count(" resources, ")


def check_reading_pauses(checks, program):
    """Checks that a peer of another gateway cannot make this one read all retained messages each second."""
    with Setting(program, 1) as setting, Gateway(program, setting.broker, setting.folder, 2, ["-d", "2"]) as small:
        (peer,), began, rounds = setting.peers(), time.monotonic(), 0

        def left_out():
            return small.log().count("left out: ")

        # On a busy machine a round takes a second. The next pause is a minute.
        while (readings(small) < 3 or left_out() <= 20) and time.monotonic() < began + 60:
            for method in (PUT, DELETE):
                tokens = [peer.send(method, f"{PREFIX}/{name}", payload=b"%d" % rounds) for name in "abc"]
                codes(peer, tokens)
            rounds += 1
            time.sleep(0.1)
        checks.same("more topics than places, many times", left_out() > 20, True)
        # The first one at the start, one after a second, and one after ten more.
        checks.same("readings", (readings(small), time.monotonic() - began > 9), (3, True))


def check_reread(checks, program):
    """Checks that the gateway gets what the broker had dropped, and answers requests meanwhile."""
    with contextlib.ExitStack() as stack:
        gateway, broker, peer = stack.enter_context(scripted(program, "--reread", "1"))
        _, never, other = stack.enter_context(scripted(program, "--reread", "0"))
        for writer in (peer, other):
            checks.same("PUT", [writer.code(PUT, f"{PREFIX}/{name}", payload=b"1") for name in "ab"], 2 * [CREATED])
        for which in (broker, never):
            with which.lock:
                which.retained.pop(f"{PREFIX}/a")
                which.retained[f"{PREFIX}/b"].payload = b"2"
        broker.keeps_markers = True
        checks.same("it reads again", soon(lambda: len(broker.subscribed), 2, 90), 2)
        checks.same("after a minute", 59 < broker.subscribed[1] - broker.subscribed[0] < 65, True)
        checks.same("what was changed", soon(lambda: peer.get(f"{PREFIX}/b")[1], b"2"), b"2")
        checks.same("a write during the reading", peer.code(PUT, f"{PREFIX}/c", payload=b"3"), CREATED)
        checks.same("what was removed", peer.code(GET, f"{PREFIX}/a"), CONTENT)
        broker.release()
        checks.same("after the marker", soon(lambda: peer.code(GET, f"{PREFIX}/a"), NOT_FOUND), NOT_FOUND)
        checks.same("the log", gateway.says("2 resources, 1 new, 1 removed, 0 left out"), True)
        checks.same("never", (len(never.subscribed), other.code(GET, f"{PREFIX}/a"), other.get(f"{PREFIX}/b")[1]),
                    (1, CONTENT, b"1"))


def check_reread_under_way(checks, program):
    """Checks that a path counts again if a reading removes its resource while a write of it is under way."""
    held, at = (lambda published: (0, published.payload != b"held")), f"{PREFIX}/a"
    with scripted(program, "--reread", "1", "-d", "1", decide=held) as (_, broker, peer):
        checks.same("a resource", peer.code(PUT, at, payload=b"1"), CREATED)
        with broker.lock:
            del broker.retained[at]
            broker.keeps_markers = True
        checks.same("the marker of another reading", soon(lambda: len(broker.kept), 1, 90), 1)
        token = peer.send(PUT, at, payload=b"held")
        checks.same("a write is under way", soon(lambda: len(broker.kept), 2), 2)
        broker.release()
        checks.same("the reading removes the resource", soon(lambda: peer.code(GET, at), NOT_FOUND), NOT_FOUND)
        checks.same("another path", peer.code(PUT, f"{PREFIX}/b", payload=b"2"), NOT_ACCEPTABLE)
        broker.release()
        checks.same("the write creates it again", peer.wait(token).code, CREATED)


def check_lost_state(checks, program):
    """Checks what the log says, at its default level, of a broker that comes back as it was, empty, or older."""
    with Setting(program, 0) as setting:
        broker, kept = setting.broker, f"{setting.folder}/kept/mosquitto.db"
        broker.publish(f"{PREFIX}/old", b"old payload")
        checks.same("the broker has saved it", broker.saved(b"old payload"), True)
        shutil.copy(kept, f"{setting.folder}/older.db")
        gateway = Gateway(program, broker, setting.folder, 1)
        with contextlib.ExitStack() as stack:
            open(gateway.name, "wb").close()
            with open(gateway.name, "ab") as log:
                gateway.begin([*gateway.line, "-p", str(gateway.port), "--id", "1"], stdout=subprocess.DEVNULL,
                              stderr=log)
            stack.push(gateway)
            checks.same("it listens", gateway.says("listening on"), True)
            peer = stack.enter_context(gateway.peer())
            for name in "ab":
                payload = b"payload of " + name.encode()
                checks.same(f"PUT {name}", peer.code(PUT, f"{PREFIX}/{name}", payload=payload), CREATED)
                checks.same(f"the broker has saved {name}", broker.saved(payload), True)
            checks.same("no line on a connection that was never lost", "resources" in gateway.log(), False)
            again = lambda: [broker.kill(), gateway.says("broker: connection")]  # noqa: E731
            again()
            broker.start()
            checks.same("as it was", gateway.says("connected again: 3 resources, 0 new, 0 removed, 0 left out"), True)
            checks.same("a write", peer.code(PUT, f"{PREFIX}/b", payload=b"newer payload"), CHANGED)
            again()
            os.remove(kept)
            broker.start()
            checks.same("empty", gateway.says("it is empty: 0 resources, 0 new, 3 removed, 0 left out"), True)
            checks.same("PUT again", peer.code(PUT, f"{PREFIX}/c", payload=b"newest payload"), CREATED)
            checks.same("the broker has saved it", broker.saved(b"newest payload"), True)
            again()
            shutil.copy(f"{setting.folder}/older.db", kept)
            broker.start()
            checks.same("older", gateway.says("it has an older state: 1 resources, 1 new, 1 removed, 0 left out"), True)
            checks.same("its state", (peer.get(f"{PREFIX}/old")[1], peer.code(GET, f"{PREFIX}/c")),
                        (b"old payload", NOT_FOUND))
