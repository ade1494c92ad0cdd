"""Checks many endpoints, the limit of registrations, and lifetimes."""

import random
import time

from directory_peers import (
    BAD_REQUEST, CREATED, DELETE, DELETED, LINK_FORMAT, POST, UNAVAILABLE, Peer, links_of, targets_of,
)
from peers import LIMIT, Server

# Peers and endpoints of the test under load.
PEERS, ENDPOINTS = 200, 10_000

# Endpoints that are registered at once, and their number in the test of a large limit.
AT_ONCE, MOST_ENDPOINTS = 100, 20_100

# Lifetime in seconds of a registration whose end is awaited.
LIFETIME = 3


def check_lifetime(checks, peer):
    """A registration ends with its lifetime, and at most a second before, since the directory counts whole seconds."""
    checks.same("long lifetime", peer.register(["ep=long", "base=coap://h"], b"</a>")[0], CREATED)
    sent = time.monotonic()
    checks.same("short lifetime", peer.register(["ep=short", "base=coap://h", f"lt={LIFETIME}"], b"</a>")[0], CREATED)
    registered = found_at = requested = time.monotonic()

    def is_found(name):
        return any(f"ep={name}" in attributes for _, attributes in links_of(peer.look("ep")[1]))

    # Only times before and after requests are compared. So a pause of this script or of the directory is no failure.
    while is_found("short") and requested < registered + LIMIT:
        found_at = requested
        time.sleep(0.02)
        requested = time.monotonic()
    checks.same("it was found until a second before its end", time.monotonic() >= sent + LIFETIME - 1, True)
    checks.same("it was not found after its end", found_at <= registered + LIFETIME or found_at - registered, True)
    checks.same("one is left", [is_found(it) for it in ("short", "long")], [False, True])
    checks.same("no other", len(links_of(peer.look("ep")[1])), 1)
    checks.same("and its resources", len(links_of(peer.look("res")[1])), 1)


def check_many(checks, server):
    """Endpoints registered over many connections, looked up while they change."""
    choice = random.Random(9176)
    peers = [Peer(server) for _ in range(PEERS)]
    known, created, wrong = set(), 0, 0
    for number in range(ENDPOINTS):
        peer = peers[number % PEERS]
        code, _ = peer.register([f"ep=e{number}", "base=coap://h"], b"</a>;rt=t%d" % number)
        created += code == CREATED
        known.add(number)
        if number % 10 == 9:
            requested = choice.choice(tuple(known) if len(known) < 50 else (number, number - 5))
            _, text = peers[(number * 7) % PEERS].look("ep", f"ep=e{requested}")
            wrong += [it for it in links_of(text) if f"ep=e{requested}" in it[1]] == [] or len(links_of(text)) != 1
    checks.same("registrations under load", (created, wrong), (ENDPOINTS, 0))
    removed = 0
    for number in range(0, ENDPOINTS, 100):
        place = targets_of(peers[0].look("ep", f"ep=e{number}")[1])[0]
        removed += peers[number % PEERS].ask(DELETE, place.strip("/").split("/"))[0] == DELETED
        wrong += peers[1].look("ep", f"ep=e{number}")[1] != ""
    checks.same("removals under load", (removed, wrong), (ENDPOINTS // 100, 0))
    for peer in peers:
        peer.close()


def check_more(checks, program):
    """A limit of more than 20,000 registrations. The endpoints are registered over few connections, many at once."""
    with Server(program, ["--registrations", "50000"]) as server:
        peers, created = [Peer(server) for _ in range(4)], 0
        for first in range(0, MOST_ENDPOINTS, AT_ONCE):
            peer = peers[first // AT_ONCE % len(peers)]
            queries = [[f"ep=e{number}", "base=coap://h"] for number in range(first, first + AT_ONCE)]
            tokens = [peer.send(POST, ["rd"], it, b"", LINK_FORMAT) for it in queries]
            created += sum(peer.next()[:2] == (CREATED, token) for token in tokens)
        checks.same("registrations above 20,000", created, MOST_ENDPOINTS)
        for number in (0, 19_999, 20_000, MOST_ENDPOINTS - 1):
            checks.same(f"endpoint {number}", len(links_of(peers[0].look("ep", f"ep=e{number}")[1])), 1)
        for peer in peers:
            peer.close()


def check_limit(checks, program):
    """The limit of registrations, and places that become free."""
    with Server(program, ["--registrations", "2"]) as server:
        peer = Peer(server)
        for name in ("a", "b"):
            checks.same(f"registration of {name}", peer.register([f"ep={name}", "base=coap://h"], b"")[0], CREATED)
        checks.same("one more", peer.register(["ep=c", "base=coap://h"], b"")[0], UNAVAILABLE)
        checks.same("malformed links", peer.register(["ep=a", "base=coap://h"], b"<" + 1000 * b"a")[0], BAD_REQUEST)
        checks.same("both are kept", [len(links_of(peer.look("ep", f"ep={name}")[1])) for name in ("a", "b", "c")],
                    [1, 1, 0])
        code, location = peer.register(["ep=a", "base=coap://h"], b"</x>")
        checks.same("one again", code, CREATED)
        checks.same("a removal", peer.ask(DELETE, location)[0], DELETED)
        checks.same("and one more", peer.register(["ep=c", "base=coap://h"], b"")[0], CREATED)
        peer.close()
