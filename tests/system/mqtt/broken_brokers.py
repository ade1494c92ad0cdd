"""Checks brokers that are none, slow ones, and garbage on a good connection."""

import contextlib
import tempfile
import time

from false_brokers import FALSE_BROKERS, INJECTED, FalseBroker, Relay
from gateway_checks import FakeSetting, write_file
from gateways import CHANGED, CONTENT, CREATED, PREFIX, PUT, UNAVAILABLE, Gateway, Setting
import proxies


def check_false_brokers(checks, program):
    """Checks brokers that send garbage or nothing. The gateway must not listen, and keep trying."""
    with contextlib.ExitStack() as stack:
        running, authority = {}, stack.enter_context(tempfile.TemporaryDirectory(prefix="coap-mqtt-"))
        proxies.certify(authority)
        for at, (name, (pieces, _)) in enumerate(FALSE_BROKERS.items()):
            folder = stack.enter_context(tempfile.TemporaryDirectory(prefix="coap-mqtt-"))
            write_file(f"{folder}/password", "x\n")
            broker = stack.enter_context(FalseBroker(pieces))
            words = ["--cafile", f"{authority}/authority.pem"] if "TLS" in name else []
            running[name] = Gateway(program, FakeSetting(broker.port, folder), folder, at, words)
            running[name].start(waits=False)
            stack.push(running[name])
        for name, gateway in running.items():
            text = FALSE_BROKERS[name][1]
            checks.same(f"a broker that sends {name}: {text}", gateway.says(text) or gateway.log(), True)
        for name, gateway in running.items():
            checks.same(f"it does not listen: {name}", (gateway.process.poll(), "listening" in gateway.log()),
                        (None, False))
            checks.same(f"it ends: {name}", gateway.stop(), 0)


def check_slow_broker(checks, program):
    """Checks a broker that needs more than ten seconds to send its retained messages."""
    with Setting(program, 0) as setting, Relay(setting.broker.port, rate=25_000) as relay:
        for at in range(5):
            setting.broker.publish(f"{PREFIX}/{at}", bytes(60_000))
        began = time.monotonic()
        with Gateway(program, FakeSetting(relay.port, setting.folder), setting.folder,
                     1) as gateway, gateway.peer() as peer:
            checks.same("it listens after more than ten seconds", time.monotonic() - began > 10, True)
            found = [it in gateway.log() for it in ("broker: 5 resources", "did not come")]
            checks.same("the connection was not lost", found, [True, False])
            checks.same("the state", {peer.get(f"{PREFIX}/{at}") for at in range(5)}, {(CONTENT, bytes(60_000), None)})


def check_injected(checks, program):
    """Checks garbage on a connection to the broker that was good before. Peers are served meanwhile, and the gateway
    connects again."""
    path = f"{PREFIX}/a"
    with Setting(program, 0) as setting, Relay(setting.broker.port) as relay:
        with Gateway(program, FakeSetting(relay.port, setting.folder), setting.folder,
                     1) as gateway, gateway.peer() as peer:
            checks.same("a write", peer.code(PUT, path, payload=b"0"), CREATED)
            texts = list(INJECTED.values())
            for count, (noise, text) in enumerate(INJECTED.items(), 1):
                name = noise[:8].hex()
                relay.open.clear()
                relay.gateways[-1].sendall(noise)
                checks.same(f"{name} ends the connection", gateway.says(text, texts[:count].count(text)), True)
                before = (CONTENT, b"%d" % (count - 1), None)
                checks.same(f"a read after {name}", peer.get(path), before)
                # The gateway cannot connect again yet.
                checks.same(f"a write after {name}", peer.code(PUT, path, payload=b"lost"), UNAVAILABLE)
                relay.open.set()
                checks.same(f"the gateway connects again after {name}", gateway.says("resources", count + 1), True)
                checks.same(f"the same state after {name}", peer.get(path), before)
                checks.same(f"another write after {name}", peer.code(PUT, path, payload=b"%d" % count), CHANGED)
