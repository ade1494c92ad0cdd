"""Checks TLS: HAProxy in front of two gateways, and the connection to the broker."""

import contextlib
import tempfile

from gateway_checks import BYTES
from gateways import (
    CHANGED, CONTENT, CREATED, GET, OBSERVE, PREFIX, PUT, SOON, Broker, Gateway, GatewayFront, format_of, soon,
)
import proxies


class Front(GatewayFront):
    """Gateways that can be killed and started again."""

    def start(self, name):
        self.running[name] = self.stack.enter_context(contextlib.ExitStack())
        self.running[name].enter_context(self.gateway(name, self.broker))


def check_seen(checks, one, two, name, form, payload):
    """Checks that a PUT of one peer is seen by GET and by an observer, both of another peer, within a second."""
    path, wanted = f"{PREFIX}/{name}", (CONTENT, payload, form)
    checks.same(f"a first PUT of {name}", one.code(PUT, path, payload=b"first", form=form), CREATED)
    first = (CONTENT, b"first", form)
    checks.same(f"the first state of {name}", soon(lambda: two.get(path), first, SOON), first)
    token = two.send(GET, path, [(OBSERVE, b"")])
    checks.same(f"an observer of {name}", two.wait(token).payload, b"first")
    checks.same(f"PUT {name}", one.code(PUT, path, payload=payload, form=form), CHANGED)
    seen = two.wait(token, SOON)
    checks.same(f"{name} by the observer", seen and (seen.code, seen.payload, format_of(seen)), wanted)
    checks.same(f"{name} by GET", two.get(path), wanted)
    # An observer that ends its observation has places for others.
    two.ask(GET, path, [(OBSERVE, b"\1")])


def check_front(checks, program):
    """Checks two gateways after HAProxy with TLS, of which one is killed."""
    with tempfile.TemporaryDirectory(prefix="coap-mqtt-") as folder, Broker(folder) as broker:
        proxies.certify(folder)
        broker.publish(f"{PREFIX}/probe", b"probe")
        with Front(program, broker, folder) as front:
            found = front.sources()
            with front.reach(found[1]) as one, front.reach(found[2]) as two:
                for name, form, payload in BYTES:
                    check_seen(checks, one, two, name, form, payload)
            one, two = front.reach(found[1]), front.reach(found[2])
            path = f"{PREFIX}/text"
            tokens = [peer.send(GET, path, [(OBSERVE, b"")]) for peer in (one, two)]
            checks.same("observers", [peer.wait(token).payload for peer, token in zip((one, two), tokens)],
                        2 * [b"21.5"])
            front.kill("one")
            checks.same("a change while it is down", two.code(PUT, path, payload=b"22", form=0), CHANGED)
            checks.same("the other one is notified", two.wait(tokens[1]).payload, b"22")
            checks.same("its peers come to the other gateway", soon(lambda: front.gateway_of(found[1]), 2), 2)
            with front.reach(found[1]) as again:
                token = again.send(GET, path, [(OBSERVE, b"")])
                checks.same("the observer connects again", again.wait(token).payload, b"22")
                two.code(PUT, path, payload=b"23", form=0)
                checks.same("it is notified", again.wait(token).payload, b"23")
            front.start("one")
            checks.same("its peers come back", soon(lambda: front.gateway_of(found[1]), 1), 1)
            with front.reach(found[1]) as again:
                checks.same("the state", again.get(path)[1], b"23")
            for peer in (one, two):
                peer.__exit__()


def check_broker_tls(checks, program):
    """Checks the connection to the broker with TLS and certificates on both sides."""
    with tempfile.TemporaryDirectory(prefix="coap-mqtt-") as folder:
        proxies.certify(folder)
        names = {"cafile": "authority.pem", "certfile": "signed.pem", "keyfile": "server.key"}
        lines = "".join(f"{word} {folder}/{name}\n" for word, name in names.items()) + "require_certificate true\n"
        own = ["--cafile", f"{folder}/authority.pem", "--cert", f"{folder}/signed.pem", "--key", f"{folder}/server.key"]
        with Broker(folder, [("# Only the gateways: each", lines + "# Only the gateways: each")]) as broker:
            with contextlib.ExitStack() as stack:
                gateways = [stack.enter_context(Gateway(program, broker, folder, at, own)) for at in (1, 2)]
                first, second = (stack.enter_context(it.peer()) for it in gateways)
                for name, form, payload in BYTES:
                    path = f"{PREFIX}/{name}"
                    checks.same(f"PUT {name} over TLS", first.code(PUT, path, payload=payload, form=form), CREATED)
                    wanted = (CONTENT, payload, form)
                    checks.same(f"{name} through the other gateway", soon(lambda p=path: second.get(p), wanted, SOON),
                                wanted)
            # The certificate has the names localhost and 127.0.0.1. libmosquitto checks the name, and connects to an
            # address of the gateway.
            by_name = [*own, "--broker-host", "localhost"]
            with Gateway(program, broker, folder, 3, by_name) as named, named.peer() as peer:
                checks.same("a broker with a name, over TLS", peer.get(f"{PREFIX}/text")[1], b"21.5")
            for name, words in (("no certificate", own[:2]),
                                ("another authority", ["--cafile", f"{folder}/another.pem", *own[2:]]),
                                ("another name of the broker", [*own, "--broker-host", "127.1"])):
                other = Gateway(program, broker, folder, 4, words)
                other.start(waits=False)
                with contextlib.ExitStack() as stack:
                    stack.push(other)
                    # The handshake fails in the call that connects, "cannot connect", or later, "connection failed".
                    checks.same(f"a gateway with {name}", (other.says("broker: c"), "listening" in other.log()),
                                (True, False))
