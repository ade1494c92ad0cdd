"""Tests libcoap's client with the server, and the client with libcoap's server, over sockets, and decodes the bytes of
both sides with tshark.

    tests/system/interop.py bin/coap-server bin/coap-client

The script needs Debian's packages libcoap3-bin and tshark, and installs the missing ones. Each run of a client uses its
own relay to the server, which records every byte of both directions.
"""

import collections
import os
import random
import re
import struct
import subprocess
import sys
import tempfile

sys.path.insert(0, os.path.join(os.path.dirname(os.path.abspath(__file__)), "..", "harness"))
import messages  # noqa: E402
from capture import decode, faults, of_side  # noqa: E402
from checks import Checks  # noqa: E402
from packages import install  # noqa: E402
from peers import LIMIT, Server, started  # noqa: E402
from relay import RecordingRelay  # noqa: E402

PACKAGES = {"coap-client-notls": "libcoap3-bin", "coap-server-notls": "libcoap3-bin", "tshark": "tshark"}

# The codes of CoAP that this script uses.
CREATED, DELETED, CHANGED, CONTENT, NOT_FOUND, SETTINGS = 0x41, 0x42, 0x44, 0x45, 0x84, 0xE1

OBSERVE = 6

# Resources of the servers: a path, and a pattern for the content.
OUR_RESOURCES = [
    ("/", rb"coap\+tcp"),
    ("/time", rb"[1-9][0-9]{9}"),
    ("/async?0", rb"done"),
    ("/async?1", rb"done"),
    ("/.well-known/core", re.escape(b"</>;ct=0,</time>;ct=0;obs,</async>;ct=0")),
]

LIBCOAP_RESOURCES = [
    ("/", rb"This is a test server made with libcoap .*"),
    ("/time", rb"[A-Z][a-z]{2} [0-9]{2} [0-9]{2}:[0-9]{2}:[0-9]{2}"),
    ("/async?1", rb"done"),
    ("/.well-known/core", rb'</>;title="General Info";ct=0,</time>.*'),
    ("/example_data", rb"(?:[a-z]123456789)+"),
]

# Requests for one stored resource: method, payload, code of the response, and pattern for the output of the client.
STORED = [
    ("put", "one", CREATED, rb""),
    ("put", "two", CHANGED, rb""),
    ("get", "", CONTENT, rb"two"),
    ("delete", "", DELETED, rb""),
    ("get", "", NOT_FOUND, rb""),
]

# States of an observed resource: the first one, and three changes.
STATES = [b"first", b"second", b"third", b"fourth"]

# Seconds of that observation, and of those of /time by libcoap's client and by coap-client.
WATCHES_STATES = 3
LIBCOAP_WATCHES_TIME = 2
WE_WATCH_TIME = 3

BODY = random.Random(8323).randbytes(65_000)

# Timeout of a client.
WAITS = ["-B", "5"]

Told = collections.namedtuple("Told", "status output error")


def finish(process):
    """Waits for the end of a client, and returns its status, output and error output."""
    try:
        output, error = process.communicate(timeout=LIMIT)
        return Told(process.returncode, output, error.decode(errors="replace"))
    except subprocess.TimeoutExpired:
        process.kill()
        output, error = process.communicate()
        return Told("no end within %d s" % LIMIT, output, error.decode(errors="replace"))


def start(client, words, uri):
    """Starts a client, which runs until it ends or the block of its process ends."""
    return started([client, *words, uri], stdin=subprocess.DEVNULL, stdout=subprocess.PIPE, stderr=subprocess.PIPE)


def like(pattern, output):
    """Returns the pattern if the output matches it, otherwise the output."""
    return pattern if re.fullmatch(pattern, output, re.DOTALL) else output


def first_word(text):
    return " ".join(text.split()[:1])


def parsed(frame):
    """Returns code, token, options and payload of a message, or empty values if it is malformed."""
    try:
        return messages.parse(frame)
    except (messages.Malformed, IndexError):
        return None, b"", [], b""


def parsed_of(conversation, from_server):
    """Returns the messages of one side, in the form of `parsed`."""
    return [parsed(frame) for side, frame in conversation.messages() if side == from_server]


def code_text(code):
    return "%d.%02d" % (code >> 5, code & 31)


class Ends:
    """A client and a server, with all conversations between them."""

    # For coap-client: the bytes that it prints after the content, and its status for a response other than 2.xx. Last,
    # whether it waits for the last response of an observation.
    ending = b""
    declined = 2
    waits_for_the_end = True

    def __init__(self, checks, name, client, server):
        self.checks = checks
        self.name = name
        self.client = client
        self.server = server
        self.conversations = []

    def relay(self, name):
        """Returns a relay for one client, and records its conversation under a name."""
        relay = RecordingRelay(self.server.host, self.server.port)
        self.conversations.append((name, relay.conversation))
        return relay

    def run(self, name, words, path):
        """Runs the client once. Returns its result, and the conversation."""
        with self.relay(name) as relay, start(self.client, WAITS + words, relay.origin + path) as process:
            reported = finish(process)
        return reported, relay.conversation

    def expect(self, words, path, code, pattern):
        """Runs the client once, checks its result and the code that the server sends, and returns the conversation."""
        name = " ".join([self.name + ":", *words, path])
        reported, conversation = self.run(name, words, path)
        pattern += self.ending if pattern else b""
        is_error = code >= NOT_FOUND
        wanted = (self.declined if is_error else 0, pattern, code_text(code) if is_error else "")
        got = (reported.status, like(pattern, reported.output), first_word(reported.error))
        self.checks.same(name + ": the client's status, output and error", got, wanted)
        self.checks.same(name + ": the server's codes", [it[0] for it in parsed_of(conversation, True)],
                         [SETTINGS, code])
        return conversation

    def put(self, path, text, code):
        return self.expect(["-m", "put", "-e", text], path, code, b"")


class LibcoapAsks(Ends):
    """libcoap's client, and the server that it uses."""

    ending = b"\n"
    declined = 0
    waits_for_the_end = False


def check_resources(ends, resources):
    """Checks existing resources, and an absent one."""
    for path, pattern in resources:
        ends.expect([], path, CONTENT, pattern)
    ends.expect([], "/none", NOT_FOUND, b"")


def check_stored(ends):
    """Checks a resource that a client creates, changes, reads and deletes."""
    for method, payload, code, pattern in STORED:
        ends.expect(["-m", method] + (["-e", payload] if payload else []), "/stored", code, pattern)


def content_of(name):
    """Returns the bytes of a file, or None if it does not exist."""
    if not os.path.exists(name):
        return None
    with open(name, "rb") as file:
        return file.read()


def check_body(ends):
    """Checks a large body, in one message in each direction."""
    with tempfile.TemporaryDirectory() as folder:
        there, back = os.path.join(folder, "there"), os.path.join(folder, "back")
        with open(there, "wb") as file:
            file.write(BODY)
        sent = ends.expect(["-m", "put", "-t", "42", "-f", there], "/body", CREATED, b"")
        payloads = [it[3] for it in parsed_of(sent, False)]
        ends.checks.same(ends.name + ": the body is sent in one message", [len(it) for it in payloads if it == BODY],
                         [len(BODY)])
        ends.expect(["-o", back], "/body", CONTENT, b"")
        ends.checks.same(ends.name + ": the body comes back", content_of(back) == BODY, True)


def watch(ends, path, seconds, states):
    """Observes a resource while another client stores these states, each after the notification of the one before.
    Returns a name, the result of the observer, and its conversation."""
    name = "%s: -s %d %s" % (ends.name, seconds, path)
    with ends.relay(name) as relay, start(ends.client, WAITS + ["-s", str(seconds)], relay.origin + path) as process:
        for state in states[:1]:
            ends.checks.same(name + ": notified of %r" % state, relay.conversation.wait_for(True, state), True)
        for state in states[1:]:
            ends.put(path, state.decode(), CHANGED)
            ends.checks.same(name + ": notified of %r" % state, relay.conversation.wait_for(True, state), True)
        reported = finish(process)
    return name, reported, relay.conversation


def check_end(ends, name, conversation):
    """Checks the messages at the end of an observation. Returns the payloads of all responses and notifications."""
    requested = [it for it in parsed_of(conversation, False) if it[0] != SETTINGS]
    answered = [it for it in parsed_of(conversation, True) if it[0] != SETTINGS]
    first = requested[0][1] if requested else None
    asks = [(code, token == first, [value for number, value in options if number == OBSERVE])
            for code, token, options, _ in requested]
    ends.checks.same(name + ": GETs with Observe 0 and 1, with one token", asks,
                     [(1, True, [b""]), (1, True, [b"\x01"])])
    reports = [[number for number, _ in options if number == OBSERVE] for _, _, options, _ in answered]
    ends.checks.same(name + ": Observe in all responses but the last", reports,
                     [[OBSERVE]] * (len(answered) - 1) + [[]])
    kinds = {(code, token == first) for code, token, _, _ in answered}
    ends.checks.same(name + ": every response is 2.05 with that token", kinds, {(CONTENT, True)})
    return [it[3] for it in answered]


def check_watched(ends, name, reported, contents):
    """Checks the output of the observer. The last of these contents is that of the last response."""
    printed = contents if ends.waits_for_the_end else contents[:-1]
    wanted = (0, b"".join(printed) + ends.ending, "")
    ends.checks.same(name + ": the client's status, output and error", tuple(reported), wanted)


def check_states(ends):
    """Checks an observation of a stored resource that another client changes."""
    ends.put("/watched", STATES[0].decode(), CREATED)
    name, reported, conversation = watch(ends, "/watched", WATCHES_STATES, STATES)
    contents = check_end(ends, name, conversation)
    ends.checks.same(name + ": each state once, and the last one again at the end", contents, STATES + STATES[-1:])
    check_watched(ends, name, reported, contents)


def check_time(ends, seconds):
    """Checks an observation of /time. Returns a name and the times received."""
    name, reported, conversation = watch(ends, "/time", seconds, [])
    contents = check_end(ends, name, conversation)
    moments = contents[:-1]
    ends.checks.same(name + ": enough times, each sent once", len(set(moments)) == len(moments) >= seconds or moments,
                     True)
    check_watched(ends, name, reported, contents)
    return name, moments


def check_rising(ends, name, moments):
    """Checks that the server sends seconds in increasing order."""
    ends.checks.same(name + ": seconds", [re.sub(rb"[0-9]+", b"", it) for it in moments], [b""] * len(moments))
    ends.checks.same(name + ": increasing order", moments, sorted(moments))


def check_read(checks, conversations):
    """Checks that tshark decodes every message of both sides without a remark."""
    sent = [conversation.messages() for _, conversation in conversations]
    for (name, conversation), frames, rows in zip(conversations, sent, decode(sent)):
        for side, whose in ((False, "the client's"), (True, "the server's")):
            read = "".join(row["tcp.payload"] for row in of_side(rows, side))
            checks.same("%s: tshark is given %s bytes" % (name, whose), read == conversation.stream(side).hex(), True)
        codes = [str(parsed(frame)[0]) for _, frame in frames]
        checks.same(name + ": the codes that tshark reads", [row["coap.code"] for row in rows], codes)
        checks.same(name + ": remarks of tshark", faults(rows), [])


def check_our_server(checks, program):
    """Tests libcoap's client with the server. Returns all conversations."""
    with Server(program, ["-d", "16"]) as server:
        ends = LibcoapAsks(checks, "libcoap's client, coap-server", "coap-client-notls", server)
        check_resources(ends, OUR_RESOURCES)
        check_stored(ends)
        check_body(ends)
        check_states(ends)
        check_rising(ends, *check_time(ends, LIBCOAP_WATCHES_TIME))
        checks.same("coap-server still runs", server.process.poll(), None)
    return ends.conversations


def check_our_server_at_6(checks, program):
    """Tests libcoap's client with the server over IPv6."""
    with Server(program, ["-d", "16"], "::1") as server:
        ends = LibcoapAsks(checks, "libcoap's client, coap-server, IPv6", "coap-client-notls", server)
        check_resources(ends, OUR_RESOURCES)
        check_stored(ends)
    return ends.conversations


def check_our_client(checks, client):
    """Tests coap-client with libcoap's server. Returns all conversations."""
    with Server("coap-server-notls", ["-d", "16"], says=False) as server:
        checks.same("libcoap's server listens", server.accepts(), True)
        ends = Ends(checks, "coap-client, libcoap's server", client, server)
        check_resources(ends, LIBCOAP_RESOURCES)
        check_stored(ends)
        check_body(ends)
        check_states(ends)
        check_time(ends, WE_WATCH_TIME)
    return ends.conversations


def check_our_client_at_6(checks, client):
    """Tests coap-client with libcoap's server over IPv6."""
    with Server("coap-server-notls", ["-d", "16"], "::1", says=False) as server:
        checks.same("libcoap's server listens, IPv6", server.accepts(), True)
        ends = Ends(checks, "coap-client, libcoap's server, IPv6", client, server)
        check_resources(ends, LIBCOAP_RESOURCES)
        check_stored(ends)
    return ends.conversations


def check_all(checks, server, client):
    """Runs both directions, and then decodes all bytes."""
    conversations = check_our_server(checks, server) + check_our_server_at_6(checks, server)
    conversations += check_our_client(checks, client) + check_our_client_at_6(checks, client)
    check_read(checks, conversations)


def main(words):
    checks = Checks()
    try:
        checks.same("packages can be installed", install(PACKAGES), True)
        check_all(checks, *(os.path.abspath(it) for it in words))
    except (OSError, struct.error, subprocess.SubprocessError) as trouble:
        checks.same("all checks run", trouble, None)
    return checks.end("interop")


if __name__ == "__main__":
    sys.exit(main(sys.argv[1:]))
