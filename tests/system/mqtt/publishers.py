"""Checks messages of other programs, refused publications, and the limits of the mirror."""

import signal
import time

from gateway_checks import run, state_of
from gateways import (
    CHANGED, CONTENT, CREATED, DENIED, ETAG, FORBIDDEN, GET, IF_MATCH, NOT_ACCEPTABLE, NOT_FOUND, OBSERVE, PRECONDITION,
    PREFIX, PUT, SOON, UNAVAILABLE, Setting, option_of, soon,
)
from peers import LOCAL


def check_limits(checks, program):
    """Checks more topics than there are places, and a place that becomes free."""
    with Setting(program, 1, words=["-d", "5"]) as setting:
        broker, (peer,) = setting.broker, setting.peers()
        names = [f"n{at}" for at in range(7)]
        for name in names:
            broker.publish(f"{PREFIX}/{name}", name.encode())
        checks.same("two are left out", setting.gateways[0].says("(2 left out)"), True)
        checks.same("five are stored", len(state_of(peer, names)), 5)
        stored = sorted(state_of(peer, names))
        # The second reading follows ten seconds after the first one.
        for count in (2, 1):
            broker.publish(f"{PREFIX}/{stored.pop()}", b"")
            checks.same("a place is occupied again", soon(lambda: len(state_of(peer, names)), 5), 5)
            checks.same("the others", len(broker.retained()), 4 + count)
        broker.publish(f"{PREFIX}/{stored.pop()}", b"")
        wanted = {it.removeprefix(f"{PREFIX}/"): payload for it, payload in broker.retained().items()}
        checks.same("all are stored", soon(lambda: state_of(peer, names), wanted), wanted)


def check_refused(checks, program):
    """Checks publications that the broker refuses, and more publications under way than requests can be pending."""
    with Setting(program, 1, words=["--pending", "4"]) as setting:
        peer, = setting.peers()
        checks.same("a refused publication", peer.code(PUT, DENIED, payload=b"a"), FORBIDDEN)
        checks.same("it is logged", setting.gateways[0].says(f"refused a publication: 0x87: {DENIED}"), True)
        # mosquitto 2.0.11 ends the connection after its PUBACK.
        checks.same("the gateway connects again", setting.gateways[0].says("resources", 2), True)
        checks.same("the resource", peer.code(GET, DENIED), NOT_FOUND)
        checks.same("a publication that is not refused", peer.code(PUT, f"{PREFIX}/a", payload=b"a"), CREATED)
        etag = option_of(peer.ask(GET, f"{PREFIX}/a"), ETAG)
        setting.broker.process.send_signal(signal.SIGSTOP)
        tokens = [peer.send(PUT, f"{PREFIX}/a", [(IF_MATCH, etag)], payload) for payload in (b"b", b"c")]
        setting.broker.process.send_signal(signal.SIGCONT)
        checks.same("two writes with one condition", [peer.wait(it).code for it in tokens], [CHANGED, PRECONDITION])
        checks.same("the first one wins", peer.get(f"{PREFIX}/a")[1], b"b")
        setting.broker.process.send_signal(signal.SIGSTOP)
        began = time.monotonic()
        tokens = [peer.send(PUT, f"{PREFIX}/n{at}", payload=b"n") for at in range(10)]
        codes = [peer.wait(it).code for it in tokens[4:]]
        checks.same("the fifth to tenth write at once", (codes, time.monotonic() - began < SOON),
                    (6 * [UNAVAILABLE], True))
        setting.broker.process.send_signal(signal.SIGCONT)
        checks.same("the first four", [peer.wait(it).code for it in tokens[:4]], 4 * [CREATED])
        wanted = {f"{PREFIX}/{it}" for it in ("a", "n0", "n1", "n2", "n3")}
        checks.same("the broker has them alone", set(setting.broker.retained()), wanted)


# Topics below the prefix that are the image of no path.
NO_PATHS = ["%41", "%2", "%zz", "%2b", "a/..", "./a", "/".join("a" * 17), "x" * 300, "a/%gateway-1/owner", "%"]


def check_publishers(checks, program):
    """Checks messages of other programs."""
    with Setting(program) as setting:
        broker, (one, two) = setting.broker, setting.peers()
        one.code(PUT, f"{PREFIX}/a", payload=b"a", form=0)
        checks.same("a resource", soon(lambda: two.get(f"{PREFIX}/a"), (CONTENT, b"a", 0)), (CONTENT, b"a", 0))
        token = two.send(GET, f"{PREFIX}/a", [(OBSERVE, b"")])
        checks.same("its observer", two.wait(token).payload, b"a")
        for topic in NO_PATHS:
            broker.publish(f"{PREFIX}/{topic}", b"x")
        found = [it.says("ignored", len(NO_PATHS)) for it in setting.gateways]
        checks.same("topics of no path are logged", found, [True, True])
        broker.publish(f"{PREFIX}/a", b"x", retain=False)
        checks.same("a message that is not retained is logged", setting.gateways[0].says("not retained"), True)
        # The removal of an absent resource.
        broker.publish(f"{PREFIX}/no", b"")
        checks.same("nobody is notified", two.wait(token, 0.3), None)
        broker.publish(f"{PREFIX}/b", bytes(65_001))
        checks.same("a payload above the limit is left out", setting.gateways[1].says("left out"), True)
        checks.same("it is absent", two.get(f"{PREFIX}/b")[0], NOT_FOUND)
        check_properties(checks, broker, two, token)
        two.wait(token := two.send(GET, f"{PREFIX}/a", [(OBSERVE, b"")]))
        broker.publish(f"{PREFIX}/a", bytes(65_001))
        checks.same("a payload above the limit removes a stored resource", two.wait(token).code, NOT_FOUND)
        broker.publish(f"{PREFIX}/a", b"c", "-D", "PUBLISH", "user-property", "empty", "1")
        wanted = 2 * [(CONTENT, b"", None)]
        found = soon(lambda: [it.get(f"{PREFIX}/a") for it in (one, two)], wanted)
        checks.same("an empty representation", found, wanted)
        broker.publish(f"{PREFIX}/a", b"cc", "-D", "PUBLISH", "user-property", "empty", "1")
        checks.same("not an empty one", soon(lambda: one.get(f"{PREFIX}/a")[1], b"cc"), b"cc")
        line = ["mosquitto_pub", "-h", LOCAL, "-p", str(broker.port), "-V", "5", "-q", "1", "-t", f"{PREFIX}/a", "-n"]
        checks.same("a publisher without a password", run(line).returncode != 0, True)
        # mosquitto_pub 2.0.11 reports a refusal by a warning alone.
        refused = (0, "Warning: Publish 1 failed: Not authorized.\n")
        checks.same("another topic", broker.reply("elsewhere", b"x"), refused)
        checks.same("the end", [it.stop() for it in setting.gateways], [0, 0])


def check_properties(checks, broker, peer, token):
    """Checks user properties of other programs. The token is that of an observation of the resource."""
    seen = lambda: peer.get(f"{PREFIX}/a")  # noqa: E731
    form = ["-D", "PUBLISH", "user-property", "content-format"]
    broker.publish(f"{PREFIX}/a", b"b", *form, "50")
    checks.same("another Content-Format: an observation has one", peer.wait(token).code, NOT_ACCEPTABLE)
    checks.same("its resource", seen(), (CONTENT, b"b", 50))
    for text in ("65536", "-1", "x", "", "1 ", "99999999999999999999999"):
        wanted = (CONTENT, text.encode() + b"!", None)
        broker.publish(f"{PREFIX}/a", wanted[1], *form, text)
        checks.same(f"a Content-Format {text!r}", soon(seen, wanted), wanted)
    for origin in ("x", "0000000000000000-1", "ffffffffffffffff-1", "ffffffffffffffff-99999999999999999999999",
                   "f" * 60_000):
        wanted = (CONTENT, origin.encode()[:64], None)
        broker.publish(f"{PREFIX}/a", wanted[1], "-D", "PUBLISH", "user-property", "origin", origin)
        checks.same(f"an origin of {len(origin)} characters", soon(seen, wanted), wanted)
