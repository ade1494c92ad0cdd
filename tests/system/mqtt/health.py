"""Checks the resource for the health, and HAProxy with it."""

import contextlib
import csv
import socket

from false_brokers import Relay
from gateway_checks import FakeSetting
from gateways import (
    CHANGED, CONTENT, DELETE, ETAG, GET, IF_MATCH, IF_NONE_MATCH, LIMIT, NOT_ACCEPTABLE, NOT_ALLOWED, NOT_FOUND,
    OBSERVE, POST, PRECONDITION, PREFIX, PUT, UNAVAILABLE, URI_QUERY, Gateway, GatewayFront, Setting, soon,
)
from peers import LOCAL
import proxies
from signals import end_of

ACCEPT = 17


def raw(port, stream, count):
    """Sends a CSM and other bytes. Returns `count` bytes that follow the CSM of the gateway."""
    with socket.create_connection((LOCAL, port), LIMIT) as it:
        it.sendall(bytes.fromhex("00e1") + stream)
        found = b""
        while len(found) < 8 + count and (piece := it.recv(65536)):
            found += piece
        return found[8:]


# GET /health with the token `hc`, and its responses.
ASK, GOOD, BAD = bytes.fromhex("72016863b66865616c7468"), bytes.fromhex("02456863"), bytes.fromhex("02a36863")


def check_health(checks, program):
    """Checks the resource of the health while the broker runs, is away, and is read again."""
    with Setting(program, 1, words=["--stale", "refuse"]) as setting:
        gateway, (peer,) = setting.gateways[0], setting.peers()
        checks.same("the bytes of a good health", raw(gateway.port, ASK, 4), GOOD)
        observed = peer.ask(GET, "health", [(OBSERVE, b"")])
        checks.same("Observe", (observed.code, observed.options, observed.payload), (CONTENT, [], b""))
        for method in (POST, PUT, DELETE, 5, 30, 31):
            checks.same(f"method {method}", peer.code(method, "health", payload=b"x"), NOT_ALLOWED)
        for option, code in ((IF_MATCH, b""), CONTENT), ((IF_MATCH, b"x"), PRECONDITION), ((ETAG, b"x"), CONTENT), \
                ((IF_NONE_MATCH, b""), PRECONDITION), ((ACCEPT, b""), NOT_ACCEPTABLE), ((URI_QUERY, b"x"), CONTENT):
            checks.same(f"the option {option}", peer.code(GET, "health", [option]), code)
        below = ("health/a", ["health", ""], ["health", ".."])
        checks.same("paths below", [peer.code(GET, it) for it in below], 3 * [NOT_FOUND])
        listed = peer.ask(GET, ".well-known/core").payload
        checks.same("it is listed", b'</health>;rt="dachreup.health"' in listed, True)
        setting.broker.kill()
        checks.same("the bytes while the broker is away", soon(lambda: raw(gateway.port, ASK, 4), BAD), BAD)
        checks.same("a read of a shared resource", peer.code(GET, f"{PREFIX}/a"), UNAVAILABLE)
        setting.broker.start()
        checks.same("the bytes afterwards", soon(lambda: raw(gateway.port, ASK, 4), GOOD), GOOD)
        with Gateway(program, setting.broker, setting.folder, 2, ["--health", "none"]) as other, other.peer() as peer:
            codes = [peer.code(it, "health", payload=b"x") for it in (GET, PUT)]
            checks.same("no health", codes, [NOT_FOUND, NOT_ALLOWED])
        words = ["--health", ".well-known/a b"]
        with Gateway(program, setting.broker, setting.folder, 3, words) as other, other.peer() as peer:
            codes = [peer.code(GET, it) for it in (".well-known/a b", ".well-known/core", "health")]
            checks.same("another path", codes, [CONTENT, CONTENT, NOT_FOUND])


class Front(GatewayFront):
    """The backends of gateways, each of which has its own way to the broker."""

    def __init__(self, program, broker, folder):
        super().__init__(program, broker, folder)
        # The servers of coap-server are removed.
        self.places = proxies.places_for(folder, self.port, {}) + proxies.certificate_in(folder) + proxies.QUICK_CHECKS
        self.places += [("\nbackend coap\n", "\nbackend coap\n    disabled\n")]
        self.places += [(f"backend {it}\n    disabled\n", f"backend {it}\n") for it in ("gateways", "gateways_alive")]
        for name, port in self.ports.items():
            old, new = (f" {name} {LOCAL}:{it} maxconn" for it in (proxies.SERVERS[name], port))
            self.places += [(f"{old} {count}", f"{new} {count}") for count in (190, 64)]
        self.relays = {}

    def start(self, name):
        self.relays[name] = self.stack.enter_context(Relay(self.broker.port))
        way = FakeSetting(self.relays[name].port, self.broker.folder)
        self.stack.enter_context(self.gateway(name, way))

    def states(self):
        """Returns the states of the servers: of both in the backend of the healthy ones, then of both in the other."""
        rows = csv.DictReader(self.tell("show stat").removeprefix("# ").splitlines())
        found = {(row["pxname"], row["svname"]): row["status"] for row in rows}
        return [found.get((backend, name)) for backend in ("gateways", "gateways_alive") for name in self.ports]

    def are_up(self):
        return self.states() == 4 * ["UP"]

    def lose(self, name):
        """Cuts the way of a gateway to the broker."""
        self.relays[name].open.clear()
        self.relays[name].cut()


def check_front_health(checks, program):
    """Checks HAProxy and two gateways of which one, then both, lose their broker."""
    with Setting(program, 0) as setting, contextlib.ExitStack() as stack:
        proxies.certify(setting.folder)
        setting.broker.publish(f"{PREFIX}/probe", b"0")
        front = stack.enter_context(Front(program, setting.broker, setting.folder))
        found = front.sources()
        one, two = (stack.enter_context(front.reach(found[it])) for it in (1, 2))
        path = f"{PREFIX}/probe"
        checks.same("writes at both gateways", [it.code(PUT, path, payload=b"1") for it in (one, two)], 2 * [CHANGED])
        front.lose("one")
        wanted = ["DOWN", "UP", "UP", "UP"]
        checks.same("one gateway without its broker", soon(front.states, wanted), wanted)
        checks.same("its peers are disconnected", end_of(one) is not None, True)
        checks.same("those of the other one are not", two.get(path)[1], b"1")
        with front.reach(found[1]) as again:
            checks.same("they can write at the other gateway", again.code(PUT, path, payload=b"2"), CHANGED)
        checks.same("which is the second one", front.gateway_of(found[1]), 2)
        front.lose("two")
        wanted = ["DOWN", "DOWN", "UP", "UP"]
        checks.same("no gateway with its broker", soon(front.states, wanted), wanted)
        checks.same("the peers of the second one are disconnected", end_of(two) is not None, True)
        late = stack.enter_context(front.reach(found[2]))
        token = late.send(GET, path, [(OBSERVE, b"")])
        checks.same("reads from the mirror", late.wait(token).payload, b"2")
        checks.same("writes", late.code(PUT, path, payload=b"3"), UNAVAILABLE)
        checks.same("each peer is at its own gateway", [front.gateway_of(found[it]) for it in (1, 2)], [1, 2])
        for relay in front.relays.values():
            relay.open.set()
        checks.same("both gateways again", soon(front.states, 4 * ["UP"], 2 * LIMIT), 4 * ["UP"])
        with front.reach(found[1]) as again:
            checks.same("a write at the first one", again.code(PUT, path, payload=b"4"), CHANGED)
        checks.same("an observer that connected meanwhile is still there", late.wait(token).payload, b"4")
