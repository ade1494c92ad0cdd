"""Checks lookups and registrations near the largest message."""

from directory_peers import (
    BAD_REQUEST, CONTENT, CONTENT_FORMAT, CREATED, GET, LINK_FORMAT, Peer, links_of, targets_of, uint,
)

# Number of bytes that the directory keeps for a response beside its token and the text of a lookup.
HEAD = 11


def check_large(checks, server):
    """A lookup that exceeds the peer's size names `page` and `count`."""
    peer = Peer(server)
    links = b",".join(b"</resources/number/%04d>;rt=something" % number for number in range(200))
    for number in range(20):
        checks.same(f"registration {number}",
                    peer.register([f"ep=large{number}", "base=coap://a-long-host.example.com"], links)[0], CREATED)
    code, _, payload = peer.ask(GET, ["rd-lookup", "res"])
    checks.same("large lookup", (code, b"page" in payload and b"count" in payload), (BAD_REQUEST, True))
    code, text = peer.look("res", "page=3", "count=10")
    checks.same("a page of it", (code, len(links_of(text))), (CONTENT, 10))
    peer.close()


def check_long_links(checks, server):
    """A registration of more than 30,000 bytes of links is stored, and each of its links is found."""
    peer = Peer(server, size=65_536)
    names = ["/resources/%05d" % number for number in range(1_500)]
    links = ",".join(f"<{name}>;rt=long" for name in names).encode()
    checks.same("more than 30,000 bytes", len(links) > 30_000, True)
    checks.same("a registration of them", peer.register(["ep=links", "base=coap://h"], links)[0], CREATED)
    code, text = peer.look("res", "ep=links", "rt=long")
    checks.same("its links", (code, targets_of(text) == ["coap://h" + name for name in names]), (CONTENT, True))
    peer.close()


def check_room(checks, server):
    """Lookups whose text nearly fills the largest message of the client. The response has the whole text if HEAD bytes
    and the token fit beside it. Otherwise it is 4.00 with a text that names `page` and `count`."""
    base, format_of_links = "coap://" + 100 * "h", (CONTENT_FORMAT, uint(LINK_FORMAT))
    # The tokens have 1 byte, or 64. The last limit is also that of the directory itself.
    for limit, tokens in ((300, 0), (1152, 0), (1152, 256 ** 63), (65_536, 0)):
        peer = Peer(server, limit, tokens)
        length = len(uint(tokens + 1))
        for size in range(limit - length - HEAD - 2, limit + 3):
            name = f"a text of {size} bytes within {limit}, token of {length} bytes"
            # Both targets get the base, so the text is longer than the registration.
            paths = "/a", "/" + (size - 2 * len(base) - 8) * "b"
            links, text = (",".join(f"<{start}{it}>" for it in paths).encode() for start in ("", base))
            checks.same(f"registration for {name}", peer.register(["ep=room", "base=" + base], links)[0], CREATED)
            code, options, payload = peer.ask(GET, ["rd-lookup", "res"], ["ep=room"])
            if size + HEAD + length <= limit:
                checks.same(name, (code, options, payload == text, len(text)), (CONTENT, [format_of_links], True, size))
            else:
                checks.same(name, (code, options, b"page" in payload and b"count" in payload), (BAD_REQUEST, [], True))
        peer.close()
