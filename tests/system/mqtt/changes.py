"""Checks requests: a change through one gateway is seen through the other."""

import time

from gateway_checks import BYTES
from gateways import (
    BAD_OPTION, BAD_REQUEST, CHANGED, CONTENT, CREATED, DELETE, DELETED, ETAG, FORMAT, GET, IF_MATCH, IF_NONE_MATCH,
    LOCATION_PATH, NOT_ACCEPTABLE, NOT_ALLOWED, NOT_FOUND, OBSERVE, POST, PRECONDITION, PREFIX, PUT, SIZE1, SOON,
    TOO_LARGE, Response, Setting, format_of, option_of, soon,
)
from message_syntax import uint


def check_changes(checks, program):
    """Checks that a change through one gateway is seen through the other, within a second."""
    began = int(time.time())
    with Setting(program) as setting:
        one, two = setting.peers()
        first_versions(checks, (one, two), began)
        observer, etags = setting.gateways[1].peer(), set()
        for name, form, payload in BYTES:
            path = f"{PREFIX}/{name}"
            checks.same(f"{name} is absent", two.get(path), (NOT_FOUND, b"", None))
            checks.same(f"PUT {name}", one.code(PUT, path, payload=payload, form=form), CREATED)
            wanted = (CONTENT, payload, form)
            checks.same(f"{name} through the same gateway", one.get(path), wanted)
            checks.same(f"{name} through the other one", soon(lambda p=path: two.get(p), wanted, SOON), wanted)
            token = observer.send(GET, path, [(OBSERVE, b"")])
            first = observer.wait(token)
            checks.same(f"an observer of {name}", (first.code, first.payload, format_of(first)), wanted)
            checks.same(f"another PUT of {name}", one.code(PUT, path, payload=b"new", form=form), CHANGED)
            after = observer.wait(token, SOON)
            checks.same(f"its notification for {name}", after and (after.payload, format_of(after)), (b"new", form))
            etags |= {option_of(it.ask(GET, path), ETAG) for it in (one, two)}
        checks.same("different ETags", len(etags), 2 * len(BYTES))
        checks.same("their gateways", sorted({int.from_bytes(it, "big") >> 48 for it in etags}), [1, 2])
        check_equal_state(checks, one, observer)
        observer.__exit__()


def first_versions(checks, peers, began):
    """Checks the ETags of the first resource: the id of the gateway, the second of its start, and the number 1."""
    checks.same("the first PUT", peers[0].code(PUT, f"{PREFIX}/first", payload=b"1"), CREATED)
    for gateway, peer in enumerate(peers, 1):
        soon(lambda p=peer: p.code(GET, f"{PREFIX}/first"), CONTENT)
        version = int.from_bytes(option_of(peer.ask(GET, f"{PREFIX}/first"), ETAG), "big")
        seconds = version // 65536 % 2**32
        found = (version // 2**48, began <= seconds <= time.time(), version % 65536)
        checks.same(f"the first ETag of gateway {gateway}", found, (gateway, True, 1))


def check_equal_state(checks, peer, observer):
    """Checks that a PUT of the stored state notifies nobody."""
    path = f"{PREFIX}/text"
    token = observer.send(GET, path, [(OBSERVE, b"")])
    observer.wait(token)
    checks.same("a PUT of the same state", peer.code(PUT, path, payload=b"new", form=0), CHANGED)
    checks.same("no notification", observer.wait(token, 0.5), None)
    checks.same("DELETE", peer.code(DELETE, path), DELETED)
    checks.same("the notification of a DELETE", observer.wait(token).code, NOT_FOUND)
    checks.same("PUT again", peer.code(PUT, path, payload=b"new", form=0), CREATED)
    checks.same("the resource again", soon(lambda: observer.get(path), (CONTENT, b"new", 0)), (CONTENT, b"new", 0))
    observer.wait(token := observer.send(GET, path, [(OBSERVE, b"")]))
    checks.same("a PUT of another format", peer.code(PUT, path, payload=b"new", form=50), CHANGED)
    # An observation has one Content-Format (RFC 7641 section 4.2).
    checks.same("the observation ends", observer.wait(token).code, NOT_ACCEPTABLE)
    checks.same("another format", observer.get(path), (CONTENT, b"new", 50))


def check_requests(checks, program):
    """Checks the responses to requests."""
    with Setting(program, 1, words=["-d", "3"]) as setting:
        peer, = setting.peers()
        at = f"{PREFIX}/a"
        made = peer.ask(POST, at, payload=b"1")
        checks.same("POST", (made.code, [it for it in made.options if it[0] == LOCATION_PATH]),
                    (CREATED, [(8, b"shared"), (8, b"a")]))
        checks.same("POST again", peer.ask(POST, at, payload=b"2"), Response(CHANGED, b"", []))
        etag = option_of(peer.ask(GET, at), ETAG)
        checks.same("If-Match of another ETag", peer.code(PUT, at, [(IF_MATCH, b"\1")]), PRECONDITION)
        checks.same("If-Match", peer.code(PUT, at, [(IF_MATCH, b"\1"), (IF_MATCH, etag)], b"3"), CHANGED)
        checks.same("If-Match of the ETag before", peer.code(DELETE, at, [(IF_MATCH, etag)]), PRECONDITION)
        checks.same("If-Match of any", peer.code(PUT, at, [(IF_MATCH, b"")], b"4"), CHANGED)
        checks.same("If-Match of an absent resource", peer.code(PUT, f"{PREFIX}/no", [(IF_MATCH, b"")], b"4"),
                    PRECONDITION)
        checks.same("If-None-Match", peer.code(PUT, at, [(IF_NONE_MATCH, b"")], b"5"), PRECONDITION)
        checks.same("If-None-Match of an absent resource", peer.code(PUT, f"{PREFIX}/b", [(IF_NONE_MATCH, b"")], b"5"),
                    CREATED)
        large = peer.ask(PUT, at, payload=bytes(65_001))
        checks.same("a payload above the limit", (large.code, option_of(large, SIZE1)), (TOO_LARGE, uint(65_000)))
        checks.same("DELETE of an absent resource", peer.code(DELETE, f"{PREFIX}/no"), DELETED)
        checks.same("a third resource", peer.code(PUT, f"{PREFIX}/c", payload=b"6"), CREATED)
        checks.same("a resource above the limit", peer.code(PUT, f"{PREFIX}/d", payload=b"7"), NOT_ACCEPTABLE)
        for name, path in (("dots", [PREFIX, ".."]), ("17 segments", [PREFIX] + 16 * ["a"]),
                           ("256 bytes", [PREFIX] + ["a" * 248])):
            checks.same(f"a path with {name}", [peer.code(it, path, payload=b"8") for it in (PUT, POST, DELETE)],
                        [BAD_REQUEST, BAD_REQUEST, DELETED])
            large = peer.ask(PUT, path, payload=bytes(65_001))
            checks.same(f"a path with {name} and a large payload", (large.code, option_of(large, SIZE1)),
                        (TOO_LARGE, uint(65_000)))
            checks.same(f"If-Match and a path with {name}", peer.code(DELETE, path, [(IF_MATCH, b"")]), PRECONDITION)
        peer.code(PUT, at, [(FORMAT, b"\0\0\1"), (FORMAT, b"\1")], b"9")
        checks.same("the second Content-Format after one that is too long", peer.get(at), (CONTENT, b"9", None))
        for method in (PUT, POST, DELETE):
            checks.same(f"method {method} elsewhere", peer.code(method, "other/a", payload=b"9"), NOT_ALLOWED)
            checks.same(f"method {method} of a name that begins alike", peer.code(method, "sharedly", payload=b"9"),
                        NOT_ALLOWED)
            checks.same(f"method {method} of /time", peer.code(method, "time"), NOT_ALLOWED)
        checks.same("GET elsewhere", peer.code(GET, "other/a"), NOT_FOUND)
        checks.same("GET /time", peer.code(GET, "time"), CONTENT)
        for method in (5, 6, 7, 30, 31):
            checks.same(f"method {method}", peer.code(method, at), NOT_ALLOWED)
        checks.same("a critical option", peer.code(PUT, at, [(9, b"")]), BAD_OPTION)
        checks.same("the end", setting.gateways[0].stop(), 0)
