"""Checks gateways with the same id: with different prefixes, and with the same one."""

import contextlib
import os
import re
import shutil
import socket
import tempfile

from connections import StrictBroker, alone, stepped, write_number
from false_brokers import CONNACK, SUBACK, FalseBroker, Relay
from gateway_checks import FakeSetting
from gateways import CHANGED, CREATED, PREFIX, PUT, Gateway, Setting, soon


def check_prefixes(checks, program):
    """Checks two gateways with one id and different prefixes: both stay connected."""
    with Setting(program, 0) as setting, contextlib.ExitStack() as stack:
        prefixes = (f"{PREFIX}/one", f"{PREFIX}/two")
        gateways = []
        for at, prefix in enumerate(prefixes):
            folder = stack.enter_context(tempfile.TemporaryDirectory(prefix="coap-mqtt-"))
            gateways.append(stack.enter_context(Gateway(program, setting.broker, folder, 1, ["--prefix", prefix])))
        peers = [stack.enter_context(it.peer()) for it in gateways]
        for peer, prefix in zip(peers, prefixes):
            checks.same(f"a write at {prefix}", peer.code(PUT, f"{prefix}/a", payload=prefix.encode()), CREATED)
        wanted = {f"{it}/a": it.encode() for it in prefixes}
        checks.same("the broker has both", setting.broker.retained(), wanted)
        checks.same("no connection was lost", [it.log().count("next attempt") for it in gateways], [0, 0])
    with contextlib.ExitStack() as stack:
        names = {}
        for gateway, prefix in ((0, PREFIX), (65535, PREFIX), (7, "a"), (7, "b"), (7, "a/b")):
            broker = stack.enter_context(StrictBroker())
            alone(stack, program, broker, gateway, ["--prefix", prefix])
            names[gateway, prefix] = broker.connected(1)[0][1]
        # MQTT 5 section 3.1.3.1: every broker accepts 1 to 23 digits and letters.
        others = [it for it in names.values() if not re.fullmatch("[0-9a-zA-Z]{1,23}", it)]
        checks.same("client identifiers that a broker may refuse", others, [])
        checks.same("different ones", len(set(names.values())), len(names))


def check_session_taken(checks, program):
    """Checks DISCONNECT 0x8E: the gateway gives way, and tries again after pauses that grow."""
    with FalseBroker([CONNACK, SUBACK, bytes.fromhex("e0018e")]) as broker, contextlib.ExitStack() as stack:
        gateway = alone(stack, program, broker)
        checks.same("it gives way twice", gateway.says("another gateway has taken over the id 7", 2), True)
        pauses = [float(it) for it in re.findall(r"id 7; next attempt in ([\d.]+) s", gateway.log())]
        checks.same("its pauses", [1 <= pauses[0] <= 1.25, 2 <= pauses[1] <= 2.5], [True, True])


TAKEN = "another gateway has taken over the id 1"


def check_ids(checks, program):
    """Checks two gateways with one id and prefix: the newer takes over, and one serves when the other has ended."""
    with Setting(program, 1) as setting, contextlib.ExitStack() as stack:
        first = setting.gateways[0]
        folder = stack.enter_context(tempfile.TemporaryDirectory(prefix="coap-mqtt-"))
        with first.peer() as peer:
            checks.same("a write", peer.code(PUT, f"{PREFIX}/a", payload=b"1"), CREATED)
        second = stack.enter_context(Gateway(program, setting.broker, folder, 1))
        checks.same("the first one gives way", first.says(TAKEN), True)
        # Each that gives way waits twice as long as before, so both have given way some times after these seconds.
        checks.same("they take turns", (first.says(TAKEN, 3), second.says(TAKEN, 2)), (True, True))
        for it in (first, second):
            pauses = map(float, re.findall(TAKEN + r"; next attempt in ([\d.]+) s", it.log()))
            grow = all(2 ** at <= pause <= 1.25 * 2 ** at for at, pause in enumerate(pauses))
            checks.same("its pauses grow", grow or it.log(), True)
        with first.peer() as one, second.peer() as two:
            checks.same("reads are served meanwhile", [it.get(f"{PREFIX}/a")[1] for it in (one, two)], [b"1", b"1"])
            checks.same("the other one ends", second.stop(), 0)
            code = soon(lambda: one.code(PUT, f"{PREFIX}/a", payload=b"2"), CHANGED)
            checks.same("the one that stays serves writes", code, CHANGED)


def check_restored(checks, program):
    """Checks a run whose clock is an hour less than that of the run before, at a broker with an older state."""
    with tempfile.TemporaryDirectory(prefix="coap-mqtt-") as folder:
        before, step = stepped(folder)
        with Setting(program, 1, before=before) as setting:
            gateway, broker = setting.gateways[0], setting.broker
            kept = f"{broker.folder}/kept/mosquitto.db"
            with gateway.peer() as peer:
                checks.same("a write of the first run", peer.code(PUT, f"{PREFIX}/a", payload=b"first"), CREATED)
            checks.same("the broker has saved it", broker.saved(b"first"), True)
            checks.same("the first run ends", gateway.stop(), 0)
            shutil.copy(kept, f"{folder}/older.db")
            write_number(step, -3600)
            gateway.start()
            with gateway.peer() as peer:
                checks.same("a write of the second run", peer.code(PUT, f"{PREFIX}/a", payload=b"second"), CHANGED)
                for name in ("older.db", None):
                    broker.kill()
                    os.remove(kept)
                    if name:
                        shutil.copy(f"{folder}/{name}", kept)
                    broker.start()
                    wanted = CHANGED if name else CREATED
                    code = soon(lambda: peer.code(PUT, f"{PREFIX}/a", payload=b"third"), wanted)
                    checks.same(f"a write at a broker with {name}", code, wanted)
                checks.same("it never gave way", (gateway.process.poll(), TAKEN in gateway.log()), (None, False))


# Records of the owner that another program publishes, one after the other, and whether the gateway gives way to each.
# Its own number is 1 at first, and afterwards one more than the last one to which it gave way.
FORGED = [("ffffffffffffffff-18446744073709551615", False), ("0000000000000001-1", False), ("x", False), ("", False),
          ("ffffffffffffffff-5000", True), ("ffffffffffffffff-1", False), ("ffffffffffffffff-5001", True)]

# Two more: the second is the last number that counts as later than one above the first.
FORGED_WHILE_AWAY, LAST = "ffffffffffffffff-9000", "ffffffffffffffff-%d" % (2**63 - 1 + 9001)


def check_forged(checks, program):
    """Checks records of the owner that another program publishes, while the gateway is connected or away."""
    with Setting(program, 0) as setting, Relay(setting.broker.port) as relay, contextlib.ExitStack() as stack:
        topic, to = f"{PREFIX}/%gateway-1/owner", FakeSetting(relay.port, setting.folder)
        gateway = stack.enter_context(Gateway(program, to, setting.folder, 1))
        peer, count = stack.enter_context(gateway.peer()), 0
        write = lambda: peer.code(PUT, f"{PREFIX}/a", payload=b"1")  # noqa: E731
        checks.same("a write", write(), CREATED)
        for record, is_later in FORGED:
            setting.broker.publish(topic, record.encode())
            count += is_later
            checks.same(f"it gives way to {record}", gateway.says(TAKEN, count), True)
            # The record comes before the echo of a later write.
            checks.same(f"a write after {record}", soon(write, CHANGED), CHANGED)
            checks.same(f"it gave way to {count}", gateway.log().count(TAKEN), count)
        relay.open.clear()
        relay.gateways[-1].shutdown(socket.SHUT_RDWR)
        setting.broker.publish(topic, FORGED_WHILE_AWAY.encode())
        relay.open.set()
        checks.same("it gives way when it connects again", gateway.says(TAKEN, count + 1), True)
        checks.same("a write then", soon(write, CHANGED), CHANGED)
        setting.broker.publish(topic, LAST.encode())
        checks.same("it gives way to the last number", gateway.says(TAKEN, count + 2), True)
        checks.same("a write afterwards", soon(write, CHANGED), CHANGED)
        checks.same("it runs", gateway.process.poll(), None)
