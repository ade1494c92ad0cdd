"""Checks that paths and topics map to each other, and paths with a slash inside a segment."""

import random
import subprocess
import tempfile

from gateway_checks import SANITIZED, SOURCES, run
from gateways import (
    CHANGED, CONTENT, CREATED, DELETE, DELETED, ETAG, GET, IF_MATCH, IF_NONE_MATCH, LIMIT, LOCATION_PATH, NOT_FOUND,
    OBSERVE, POST, PRECONDITION, PREFIX, PUT, SOON, Setting, option_of, soon,
)
from peers import LOCAL
from workspace import ROOT


def topic_of(segments):
    """Returns the topic of a path, by the rule in the manual, or None if no resource has the path. Shares no code with
    the gateway."""
    is_long = len(segments) > 16 or sum(len(it) + 1 for it in segments) > 255
    if is_long or segments in ([], [b""]) or any(it in (b".", b"..") for it in segments):
        return None
    return "/".join(map(level_of, segments))


def level_of(segment):
    # Bytes that are no UTF-8 become U+DC80 to U+DCFF, which are no scalar values.
    text = segment.decode("utf-8", "surrogateescape")
    return "".join(it if is_plain(it) else escaped(it) for it in text)


def escaped(character):
    return "".join("%%%02X" % byte for byte in character.encode("utf-8", "surrogateescape"))


def is_plain(character):
    point = ord(character)
    is_control, is_surrogate = point < 32 or 127 <= point < 160, 0xD800 <= point < 0xE000
    is_noncharacter = 0xFDD0 <= point < 0xFDF0 or point & 0xFFFF in (0xFFFE, 0xFFFF)
    return not (is_control or is_surrogate or is_noncharacter or character in "/+#%")


# Bytes that the rule treats in different ways.
SOME_BYTES = b"a/%+#.\x00\x7f\x80\xbf\xc2\xe2\x82\xac\xed\xa0\xf0\x9f\xff"


def some_paths(source):
    """Returns paths that are near a limit of the rule."""
    points = [0, 31, 32, 37, 43, 35, 47, 126, 127, 128, 159, 160, 0x7FF, 0x800, 0xD7FF, 0xE000, 0xFDCF, 0xFDD0, 0xFDEF,
              0xFDF0, 0xFFFD, 0xFFFE, 0xFFFF]
    points += [plane << 16 | low for plane in range(1, 17) for low in (0, 0xFFFD, 0xFFFE, 0xFFFF)]
    odd = (b"\xed\xa0\x80", b"\xc0\x80", b"\xf4\x90\x80\x80", b"\xe2\x82", b"%41", b".", b"..", b"...", b"")
    paths = [[chr(it).encode()] for it in points] + [[it] for it in odd]
    paths += [[b"a"] * count for count in (15, 16, 17)] + [[b"a" * count] for count in (253, 254, 255)]
    paths += [[b""] * count for count in (2, 16)] + [[]]
    for _ in range(20_000):
        lengths = [source.choice((0, 1, 2, 3, 8)) for _ in range(source.randrange(1, 6))]
        paths.append([bytes(source.choice(SOME_BYTES) for _ in range(it)) for it in lengths])
        paths.append([source.randbytes(it) for it in lengths])
    return paths


def check_names(checks, _):
    """Checks that paths and topics map to each other, against another implementation of the rule."""
    with tempfile.TemporaryDirectory(prefix="coap-mqtt-") as folder:
        program, sources = f"{folder}/names", [f"{ROOT}/tests/harness/mqtt_names.c", f"{SOURCES}/names.c"]
        line = ["gcc", "-std=c11", "-O2", "-Wall", "-Wextra", "-Werror", f"-I{SOURCES}", *sources, "-lmosquitto"]
        checks.same("compiles", run([*line, "-o", f"{program}-all"]).stderr, "")
        checks.same("compiles with sanitizers", run([*line, *SANITIZED, "-o", program]).stderr, "")
        done = subprocess.run([f"{program}-all", "all"], capture_output=True, text=True, timeout=120)
        checks.same("all short topics and paths", (done.returncode, done.stdout.endswith(", 0 wrong\n") or done.stdout),
                    (0, True))
        paths = some_paths(random.Random(1883))
        encoded = [b"".join(bytes([min(len(it), 255)]) + it for it in path).hex() for path in paths]
        wanted = [topic_of(path) for path in paths]
        topics = subprocess.run([program, "topics"], input="".join(f"{it}\n" for it in encoded), capture_output=True,
                                text=True, timeout=LIMIT)
        got = [None if it == "-" else bytes.fromhex(it).decode() for it in topics.stdout.splitlines()]
        wrong = ((path, a, b) for path, a, b in zip(paths, got, wanted) if a != b)
        checks.same("the topics of paths", next(wrong, len(got)), len(paths))
        pairs = {topic: path for path, topic in zip(encoded, wanted) if topic}
        different = {path for path, topic in zip(encoded, wanted) if topic}
        checks.same("different topics of different paths", len(pairs), len(different))
        back = subprocess.run([program, "paths"], input="".join(f"{it.encode().hex()}\n" for it in pairs),
                              capture_output=True, text=True, timeout=LIMIT)
        checks.same("the paths of topics", back.stdout.splitlines() == list(pairs.values()), True)


# Segments with slashes, and the levels of their topics.
SLASHED = [(["a/b"], "a%2Fb"), (["/"], "%2F"), (["x", "a//", "y"], "x/a%2F%2F/y"), (["%2F/"], "%252F%2F"),
           (["/" * 120], 120 * "%2F")]


def check_slashes(checks, program):
    """Checks paths that have a slash inside a segment: requests through two gateways, topics, other programs, URIs and
    a restart."""
    with Setting(program) as setting:
        one, two = setting.peers()
        for segments, levels in SLASHED:
            check_slashed(checks, setting.broker, (one, two), [PREFIX, *segments], f"{PREFIX}/{levels}")
        for path, payload in (([PREFIX, "a/b"], b"one"), ([PREFIX, "a", "b"], b"two")):
            checks.same(f"PUT {path}", one.code(PUT, path, payload=payload, form=0), CREATED)
            checks.same(f"GET {path}", soon(lambda p=path: two.get(p), (CONTENT, payload, 0), SOON),
                        (CONTENT, payload, 0))
        checks.same("two resources", setting.broker.retained(), {f"{PREFIX}/a%2Fb": b"one", f"{PREFIX}/a/b": b"two"})
        listed = two.ask(GET, ".well-known/core").payload
        checks.same("both are listed", [it in listed for it in (b"</shared/a%2Fb>", b"</shared/a/b>")], [True, True])
        made = one.ask(POST, [PREFIX, "p/q"], payload=b"3")
        checks.same("Location-Path", (made.code, [value for at, value in made.options if at == LOCATION_PATH]),
                    (CREATED, [PREFIX.encode(), b"p/q"]))
        setting.broker.publish(f"{PREFIX}/p%2Fq", b"4")
        found = soon(lambda: [it.get([PREFIX, "p/q"]) for it in (one, two)], 2 * [(CONTENT, b"4", None)])
        checks.same("a message of another program", found, 2 * [(CONTENT, b"4", None)])
        setting.broker.publish(f"{PREFIX}/p%2Fq", b"")
        checks.same("its removal", soon(lambda: [it.code(GET, [PREFIX, "p/q"]) for it in (one, two)], 2 * [NOT_FOUND]),
                    2 * [NOT_FOUND])
        check_slashed_uris(checks, setting)
        checks.same("a gateway ends", setting.gateways[1].stop(), 0)
        setting.gateways[1].start()
        with setting.gateways[1].peer() as again:
            both = (([PREFIX, "a/b"], b"one"), ([PREFIX, "a", "b"], b"two"))
            found = [soon(lambda p=path: again.get(p)[1], wanted) for path, wanted in both]
            checks.same("the resources again", found, [b"one", b"two"])


def check_slashed(checks, broker, peers, path, topic):
    """Checks PUT, GET, Observe and DELETE of a path, and the message with its topic."""
    one, two = peers
    wanted = (CONTENT, b"1", 0)
    checks.same(f"{topic} is absent", two.code(GET, path), NOT_FOUND)
    checks.same(f"PUT {topic}", one.code(PUT, path, payload=b"1", form=0), CREATED)
    checks.same(f"{topic} through the other gateway", soon(lambda: two.get(path), wanted, SOON), wanted)
    checks.same(f"the path of the text of {topic}", two.code(GET, "/".join(path)), NOT_FOUND)
    checks.same(f"the message of {topic}", broker.retained(), {topic: b"1"})
    token = two.send(GET, path, [(OBSERVE, b"")])
    checks.same(f"an observer of {topic}", two.wait(token).payload, b"1")
    checks.same(f"If-None-Match of {topic}", one.code(PUT, path, [(IF_NONE_MATCH, b"")], b"2"), PRECONDITION)
    etag = option_of(one.ask(GET, path), ETAG)
    checks.same(f"If-Match of {topic}", one.code(PUT, path, [(IF_MATCH, etag)], b"2", form=0), CHANGED)
    after = two.wait(token, SOON)
    checks.same(f"a notification for {topic}", after and (after.code, after.payload), (CONTENT, b"2"))
    checks.same(f"DELETE {topic}", one.code(DELETE, path), DELETED)
    checks.same(f"the notification of its DELETE, {topic}", two.wait(token).code, NOT_FOUND)
    checks.same(f"{topic} is absent again", (two.code(GET, path), broker.retained()), (NOT_FOUND, {}))


def check_slashed_uris(checks, setting):
    """Checks URIs of such a path, through the client."""
    one, two = (f"coap+tcp://{LOCAL}:{it.port}/{PREFIX}/c%2Fd" for it in setting.gateways)
    client = f"{ROOT}/bin/coap-client"
    checks.same("PUT of a URI", run([client, "-m", "put", "-e", "21.5", one]).returncode, 0)
    checks.same("GET of a URI", soon(lambda: run([client, two]).stdout.strip(), "21.5"), "21.5")
    checks.same("its message", setting.broker.retained().get(f"{PREFIX}/c%2Fd"), b"21.5")
    checks.same("DELETE of a URI", run([client, "-m", "delete", two]).returncode, 0)
    checks.same("its message is removed", f"{PREFIX}/c%2Fd" in setting.broker.retained(), False)
