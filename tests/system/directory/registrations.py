"""Checks registrations, lookups and refusals over one connection."""

import re

from directory_peers import (
    ACCEPT, BAD_OPTION, BAD_REQUEST, CHANGED, CONTENT, CONTENT_FORMAT, CREATED, DELETE, DELETED, FAILED, GET, IF_MATCH,
    LINK_FORMAT, NODE, NOT_ACCEPTABLE, NOT_ALLOWED, NOT_FOUND, POST, PUT, SENSORS, UNSUPPORTED, links_of, targets_of,
    uint,
)


def check_discovery(checks, peer):
    """The directory lists its own resources (RFC 9176 section 4.3)."""
    code, options, payload = peer.ask(GET, [".well-known", "core"])
    checks.same("discovery", (code, (CONTENT_FORMAT, uint(LINK_FORMAT)) in options), (CONTENT, True))
    listed = dict(links_of(payload.decode()))
    for path, kind in (("/rd", "core.rd"), ("/rd-lookup/ep", "core.rd-lookup-ep"),
                       ("/rd-lookup/res", "core.rd-lookup-res")):
        checks.same(f"discovery of {path}", "rt=" + kind in listed.get(path, ()), True)


def check_registration(checks, peer):
    """Registration, update, removal and both lookups (RFC 9176 sections 5 and 6)."""
    code, location = peer.register(NODE, SENSORS)
    checks.same("registration", (code, location[:1], len(location)), (CREATED, ["rd"], 2))
    checks.same("the same endpoint again", peer.register(NODE, SENSORS), (CREATED, location))
    code, other = peer.register(["ep=node2", "d=floor", "base=coap+tcp://h:1", "lt=600", "et=thing"],
                                b'</light>;rt=light;if=actuator')
    checks.same("another endpoint", (code, other != location), (CREATED, True))
    code, text = peer.look("ep", "ep=node1")
    checks.same("endpoint", (code, targets_of(text)), (CONTENT, ["/" + "/".join(location)]))
    checks.same("its name and base", {"ep=node1", "base=coap://local-proxy-old.example.com"} <= links_of(text)[0][1],
                True)
    checks.same("endpoints", targets_of(peer.look("ep")[1]), sorted("/" + "/".join(it) for it in (location, other)))
    checks.same("endpoints of a sector", targets_of(peer.look("ep", "d=floor")[1]), ["/" + "/".join(other)])
    checks.same("endpoints by their type", targets_of(peer.look("ep", "et=thing")[1]), ["/" + "/".join(other)])
    checks.same("no such endpoint", peer.look("ep", "ep=none"), (CONTENT, ""))
    checks.same("resources by type", targets_of(peer.look("res", "rt=light")[1]), ["coap+tcp://h:1/light"])
    checks.same("resources by a prefix", targets_of(peer.look("res", "rt=temp*")[1]),
                ["coap://local-proxy-old.example.com/sensors/temp"])
    checks.same("resources by interface", targets_of(peer.look("res", "if=sensor")[1]),
                ["coap://local-proxy-old.example.com/sensors/temp"])
    checks.same("resources of an endpoint", len(links_of(peer.look("res", "ep=node1")[1])), 2)
    checks.same("two filters", peer.look("res", "ep=node1", "rt=light"), (CONTENT, ""))
    pages = [peer.look("ep", f"page={page}", "count=1")[1] for page in (0, 1, 2)]
    checks.same("pages", [len(links_of(it)) for it in pages], [1, 1, 0])
    checks.same("pages differ", len(set(pages)), 3)
    checks.same("update", peer.ask(POST, location, ["lt=1000"])[0], CHANGED)
    checks.same("update of the base", peer.ask(POST, other, ["base=coap://new"])[0], CHANGED)
    checks.same("new base", targets_of(peer.look("res", "rt=light")[1]), ["coap://new/light"])
    checks.same("removal", peer.ask(DELETE, location)[0], DELETED)
    checks.same("removed endpoint", targets_of(peer.look("ep")[1]), ["/" + "/".join(other)])
    checks.same("update of a removed endpoint", peer.ask(POST, location, ["lt=1000"])[0], NOT_FOUND)
    checks.same("removal of the other", peer.ask(DELETE, other)[0], DELETED)
    checks.same("no endpoints", peer.look("ep"), (CONTENT, ""))


def check_names(checks, peer):
    """Lookups by the name of an endpoint: the same name in several sectors, and links with an attribute `ep`, in the
    order of the registrations."""
    places = {}
    for name, queries, links in (
        ("first", ["ep=lamp", "d=one"], b"</on>;rt=light"),
        ("odd", ["ep=odd"], b'</a>;ep=lamp,</b>;ep="lamp",</c>;rt=x'),
        ("second", ["ep=lamp", "d=two"], b"</on>;rt=light"),
        ("prefix", ["ep=lamp2"], b"</on>;rt=light"),
        ("plain", ["ep=lamp"], b"</on>;rt=light"),
    ):
        code, location = peer.register([*queries, f"base=coap://{name}"], links)
        checks.same(f"registration of {name}", code, CREATED)
        places[name] = "/" + "/".join(location)

    def endpoints(*names):
        return [places[it] for it in names]

    def found(*filters):
        return [re.match(r"<([^>]*)>", it)[1] for it in peer.look("ep", *filters)[1].split(",") if it]

    checks.same("endpoints by name", found("ep=lamp"), endpoints("first", "odd", "second", "plain"))
    checks.same("endpoints by name and sector", found("ep=lamp", "d=two"), endpoints("second"))
    checks.same("endpoints by a prefix", found("ep=lamp*"), endpoints("first", "odd", "second", "prefix", "plain"))
    checks.same("endpoints of two names", found("ep=lamp", "ep=odd"), endpoints("odd"))
    checks.same("resources by name", peer.look("res", "ep=lamp", "rt=light")[1].count("<"), 3)
    checks.same("resources with the attribute", targets_of(peer.look("res", "ep=lamp", "ep=odd")[1]),
                ["coap://odd/a", "coap://odd/b"])
    checks.same("pages of them", [found("ep=lamp", f"page={page}", "count=3") for page in (0, 1)],
                [endpoints("first", "odd", "second"), endpoints("plain")])
    checks.same("the same again", peer.register(["ep=lamp", "d=one", "base=coap://first"], b"</off>")[0], CREATED)
    checks.same("links without the attribute", peer.register(["ep=odd", "base=coap://odd"], b"</a>")[0], CREATED)
    checks.same("endpoints after both", found("ep=lamp"), endpoints("first", "second", "plain"))
    checks.same("their resources", targets_of(peer.look("res", "ep=lamp", "d=one")[1]), ["coap://first/off"])
    checks.same("removal of the first", peer.ask(DELETE, places["first"].strip("/").split("/"))[0], DELETED)
    checks.same("endpoints after it", found("ep=lamp"), endpoints("second", "plain"))
    code, location = peer.register(["ep=lamp", "d=one", "base=coap://first"], b"</on>")
    checks.same("registration after it", (code, "/" + "/".join(location) in places.values()), (CREATED, False))
    places["first"] = "/" + "/".join(location)
    checks.same("it is last", found("ep=lamp"), endpoints("second", "plain", "first"))
    for name in places:
        checks.same(f"removal of {name}", peer.ask(DELETE, places[name].strip("/").split("/"))[0], DELETED)
    checks.same("none is found", found("ep=lamp"), [])


def check_refusals(checks, peer):
    """Requests that the directory refuses, with their codes."""
    base = "base=coap://h"
    for name, queries, links, content_format, wanted in (
        ("no endpoint name", [base], b"", LINK_FORMAT, BAD_REQUEST),
        ("empty endpoint name", ["ep=", base], b"", LINK_FORMAT, BAD_REQUEST),
        ("long endpoint name", ["ep=" + 64 * "a", base], b"", LINK_FORMAT, BAD_REQUEST),
        ("two endpoint names", ["ep=a", base, "ep=b"], b"", LINK_FORMAT, BAD_REQUEST),
        ("one endpoint name twice", ["ep=a", "ep=a", base], b"", LINK_FORMAT, BAD_REQUEST),
        ("two sectors", ["ep=a", base, "d=x", "d=y"], b"", LINK_FORMAT, BAD_REQUEST),
        ("two lifetimes", ["ep=a", base, "lt=60", "lt=61"], b"", LINK_FORMAT, BAD_REQUEST),
        ("two bases", ["ep=a", base, base], b"", LINK_FORMAT, BAD_REQUEST),
        ("no base", ["ep=a"], b"", LINK_FORMAT, BAD_REQUEST),
        ("base with a byte of no URI", ["ep=a", "base=coap://a^b"], b"", LINK_FORMAT, BAD_REQUEST),
        ("no lifetime", ["ep=a", base, "lt=0"], b"", LINK_FORMAT, BAD_REQUEST),
        ("large lifetime", ["ep=a", base, "lt=4294967296"], b"", LINK_FORMAT, BAD_REQUEST),
        ("no number", ["ep=a", base, "lt=1h"], b"", LINK_FORMAT, BAD_REQUEST),
        ("another format", ["ep=a", base], b"</a>", 50, UNSUPPORTED),
        ("no links", ["ep=a", base], b"<a", LINK_FORMAT, BAD_REQUEST),
        ("no comma", ["ep=a", base], b"</a></b>", LINK_FORMAT, BAD_REQUEST),
        ("no attribute", ["ep=a", base], b"</a>;", LINK_FORMAT, BAD_REQUEST),
    ):
        checks.same(name, peer.register(queries, links, content_format), (wanted, []))
    checks.same("unknown critical option", peer.ask(POST, ["rd"], ["ep=a", base], more=[(9, b"x")])[0], BAD_OPTION)
    checks.same("unknown lookup", peer.ask(GET, ["rd-lookup", "gp"])[0], NOT_FOUND)
    checks.same("bad page", peer.look("ep", "page=x", "count=1")[0], BAD_REQUEST)
    checks.same("bad count", peer.look("ep", "count=x")[0], BAD_REQUEST)
    checks.same("method", peer.ask(PUT, ["rd", "1"])[0] in (NOT_ALLOWED, NOT_FOUND), True)
    checks.same("removal of nothing", peer.ask(DELETE, ["rd", "99999"])[0], NOT_FOUND)
    checks.same("nothing was registered", peer.look("ep"), (CONTENT, ""))


def check_names_of_parameters(checks, peer):
    """A query cannot add an attribute of another name, by which lookups of another endpoint find this one."""
    code, location = peer.register(["ep=victim", "base=coap://victim"], b"</a>")
    checks.same("registration of the victim", code, CREATED)
    for query in ("x;ep=victim", "EP=victim", "rt=core.rd-ep", "title*=x"):
        checks.same(f"registration with {query}",
                    peer.register(["ep=attacker", query, "base=coap://attacker"], b"</a>"), (BAD_REQUEST, []))
        checks.same(f"update with {query}", peer.ask(POST, location, [query])[0], BAD_REQUEST)
    checks.same("the victim's name", targets_of(peer.look("ep", "ep=victim")[1]), ["/" + "/".join(location)])
    checks.same("removal of the victim", peer.ask(DELETE, location)[0], DELETED)


def check_attributes(checks, peer):
    """An endpoint has at most 64 attributes, with its name and its resource type."""
    many = [f"a{number}=x" for number in range(63)]
    checks.same("65 attributes", peer.register(["ep=many", "base=coap://h", *many], b""), (BAD_REQUEST, []))
    code, location = peer.register(["ep=many", "base=coap://h", *many[:62]], b"")
    checks.same("64 attributes", code, CREATED)
    checks.same("one more", peer.ask(POST, location, ["a62=x"])[0], BAD_REQUEST)
    checks.same("the same again", peer.ask(POST, location, ["a61=y"])[0], CHANGED)
    checks.same("it is found", targets_of(peer.look("ep", "a61=y", "a0=x")[1]), ["/" + "/".join(location)])
    checks.same("the old one is not", peer.look("ep", "a61=x"), (CONTENT, ""))
    checks.same("removal", peer.ask(DELETE, location)[0], DELETED)


def check_conditions(checks, peer):
    """Accept and If-Match, which a server hands to its application."""
    code, location = peer.register(["ep=a", "base=coap://h"], b"</a>")
    checks.same("registration", code, CREATED)
    checks.same("lookup of another format", peer.ask(GET, ["rd-lookup", "ep"], more=[(ACCEPT, b"")])[0], NOT_ACCEPTABLE)
    checks.same("lookup of link format", peer.ask(GET, ["rd-lookup", "ep"], more=[(ACCEPT, b"\x28")])[0], CONTENT)
    checks.same("removal of another version", peer.ask(DELETE, location, more=[(IF_MATCH, b"\xab\xcd")])[0], FAILED)
    checks.same("it stays", len(links_of(peer.look("ep", "ep=a")[1])), 1)
    checks.same("removal of any version", peer.ask(DELETE, location, more=[(IF_MATCH, b"")])[0], DELETED)
