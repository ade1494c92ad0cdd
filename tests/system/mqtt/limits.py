"""Checks the limits of resources and of bytes under way."""

import signal

from gateways import (
    CHANGED, CREATED, DELETE, DELETED, DENIED, FORBIDDEN, GET, IF_MATCH, NOT_ACCEPTABLE, NOT_FOUND, POST, PREFIX,
    PUT, SOON, UNAVAILABLE, Setting, soon,
)
from peers import reset
from scripted import codes, scripted, stopped, taken


def check_creations(checks, program):
    """Checks that creations under way count against the maximum number of resources."""
    with Setting(program, 1, words=["-d", "3"]) as setting:
        (peer,), broker = setting.peers(), setting.broker
        for name in "ab":
            checks.same(f"PUT {name}", peer.code(PUT, f"{PREFIX}/{name}", payload=b"1"), CREATED)
        with stopped(broker):
            first, second = (peer.send(PUT, f"{PREFIX}/{name}", payload=b"2") for name in "cd")
            checks.same("the second creation at once", peer.wait(second).code, NOT_ACCEPTABLE)
            again = [peer.send(PUT, f"{PREFIX}/c", payload=b"3"), peer.send(DELETE, f"{PREFIX}/c"),
                     peer.send(POST, f"{PREFIX}/c", payload=b"4")]
            checks.same("a third path", peer.code(POST, f"{PREFIX}/e", payload=b"5"), NOT_ACCEPTABLE)
        checks.same("the first creation, and others of its path", codes(peer, [first, *again]),
                    [CREATED, CHANGED, DELETED, CREATED])
        checks.same("the broker", broker.retained(),
                    {f"{PREFIX}/{name}": value for name, value in (("a", b"1"), ("b", b"1"), ("c", b"4"))})
        checks.same("no place", peer.code(PUT, f"{PREFIX}/d", payload=b"6"), NOT_ACCEPTABLE)
        checks.same("DELETE", peer.code(DELETE, f"{PREFIX}/c"), DELETED)
        checks.same("a creation that the broker refuses", peer.code(PUT, DENIED, payload=b"7"), FORBIDDEN)
        checks.same("the gateway connects again", setting.gateways[0].says("connected again"), True)
        checks.same("its place is free", peer.code(PUT, f"{PREFIX}/d", payload=b"8"), CREATED)
        checks.same("no place again", peer.code(PUT, f"{PREFIX}/e", payload=b"9"), NOT_ACCEPTABLE)


def check_removed_under_way(checks, program):
    """Checks that a path counts again if a message removes its resource while a write of it is under way."""
    with scripted(program, "-d", "1", decide=lambda published: (0, False)) as (_, broker, peer):
        first = peer.send(PUT, f"{PREFIX}/a", payload=b"1")
        checks.same("it is published", soon(lambda: len(broker.published), 1), 1)
        broker.release()
        checks.same("a creation", peer.wait(first).code, CREATED)
        second = peer.send(PUT, f"{PREFIX}/a", payload=b"2")
        checks.same("another write is published", soon(lambda: len(broker.published), 2), 2)
        broker.message(f"{PREFIX}/a", b"")
        checks.same("another publisher removes the resource", soon(lambda: peer.code(GET, f"{PREFIX}/a"), NOT_FOUND),
                    NOT_FOUND)
        checks.same("another path", peer.code(PUT, f"{PREFIX}/b", payload=b"3"), NOT_ACCEPTABLE)
        broker.release()
        checks.same("the write creates it again", peer.wait(second).code, CREATED)


def check_in_flight(checks, program):
    """Checks the limit of bytes under way."""
    with Setting(program, 1, words=["--in-flight", "131072"]) as setting:
        (peer,), broker = setting.peers(), setting.broker
        with stopped(broker):
            tokens = [peer.send(PUT, f"{PREFIX}/{at}", payload=bytes(60_000)) for at in range(2)]
            checks.same("a third one", peer.code(PUT, f"{PREFIX}/2", payload=bytes(60_000)), UNAVAILABLE)
            # 131,072 bytes are 2 times 61,024, and 9,024.
            checks.same("one byte more than there is room for", peer.code(PUT, f"{PREFIX}/3", payload=bytes(8001)),
                        UNAVAILABLE)
            tokens.append(peer.send(PUT, f"{PREFIX}/4", payload=bytes(8000)))
            taken(peer)
            checks.same("no room for a removal", peer.code(DELETE, f"{PREFIX}/5"), UNAVAILABLE)
        checks.same("those below the limit", codes(peer, tokens), 3 * [CREATED])
        checks.same("the broker has them alone", sorted(broker.retained()), [f"{PREFIX}/{at}" for at in (0, 1, 4)])
        with stopped(broker):
            tokens = [peer.send(PUT, f"{PREFIX}/0", payload=bytes(60_000)),
                      peer.send(PUT, f"{PREFIX}/0", [(IF_MATCH, b"")], bytes(60_001))]
            checks.same("one beside one that waits", peer.code(PUT, f"{PREFIX}/2", payload=bytes(60_000)), UNAVAILABLE)
        checks.same("one after the other", codes(peer, tokens), 2 * [CHANGED])
        checks.same("there is room again", [peer.code(PUT, f"{PREFIX}/2", payload=bytes(60_000)) for _ in range(4)],
                    [CREATED] + 3 * [CHANGED])
        with stopped(broker):
            first = peer.send(PUT, f"{PREFIX}/0", payload=bytes(60_000))
            with setting.gateways[0].peer() as other:
                other.send(PUT, f"{PREFIX}/0", [(IF_MATCH, b"")], b"never" + bytes(60_000))
                taken(other)
                checks.same("no room", peer.code(PUT, f"{PREFIX}/6", payload=bytes(60_000)), UNAVAILABLE)
                # After a mere end of the input, the peer would get a response.
                reset(other.socket)
            # A write that is accepted has no response while the broker is stopped.
            again = lambda: peer.code(PUT, f"{PREFIX}/6", payload=bytes(60_000), seconds=0.3)  # noqa: E731
            checks.same("the room of a request that waited, after a reset by its peer", soon(again, None, 5), None)
        checks.same("the first one", peer.wait(first).code, CHANGED)
        checks.same("it was not published", peer.get(f"{PREFIX}/0")[1], bytes(60_000))


def check_peers_gone(checks, program):
    """Checks that a peer that resets its connection occupies no place of the next one."""
    with Setting(program, 1, words=["--pending", "1", "--connections", "1"]) as setting:
        gateway, broker = setting.gateways[0], setting.broker
        with gateway.peer() as peer:
            checks.same("a resource", peer.code(PUT, f"{PREFIX}/a", payload=b"1"), CREATED)
        with stopped(broker):
            with gateway.peer() as peer:
                peer.send(PUT, f"{PREFIX}/a", payload=b"2")
                taken(peer)
                waits = peer.send(PUT, f"{PREFIX}/a", [(IF_MATCH, b"")], b"never")
                checks.same("a second request of one peer", peer.wait(waits).code, UNAVAILABLE)
                reset(peer.socket)
            with gateway.peer() as peer:
                token = peer.send(PUT, f"{PREFIX}/a", payload=b"3")
                taken(peer)
                checks.same("a write of the next peer is taken", peer.wait(token, SOON), None)
                broker.process.send_signal(signal.SIGCONT)
                checks.same("it is made", (peer.wait(token).code, peer.get(f"{PREFIX}/a")[1]), (CHANGED, b"3"))
