"""HAProxy with install/haproxy.cfg in front of servers, and peers that speak TLS with it."""

import collections
import contextlib
import csv
import os
import random
import socket
import ssl
import subprocess
import tempfile
import time
import warnings

import messages
from checks import CSM
from peers import LIMIT, Server, free_port, soon
from peers import LOCAL as HOST
from workspace import ROOT

CONFIGURATION = os.path.join(ROOT, "install", "haproxy.cfg")

# The servers of the file, with their ports in it.
SERVERS = {"one": 5701, "two": 5702, "three": 5703, "four": 5704}

# Replacements for parts that require root, and a lower limit for fewer file descriptors.
ANY_USER = [
    ("log /dev/log local0", "log stdout format raw local0"),
    ("    chroot /var/lib/haproxy\n", ""),
    ("    user haproxy\n", ""),
    ("    group haproxy\n", ""),
    ("maxconn 2000", "maxconn 400"),
]

# Replacements for more frequent checks of a server.
QUICK_CHECKS = [("check inter 2s fastinter 500ms", "check inter 200ms fastinter 100ms")]

# Maximum seconds of a TLS handshake and a response, for a peer that is served without waiting.
AT_ONCE = 5

GET, PUT, CREATED, CHANGED, CONTENT, NOT_FOUND = 0x01, 0x03, 0x41, 0x44, 0x45, 0x84
SETTINGS, PING, PONG = 0xE1, 0xE2, 0xE3

OBSERVE, URI_PATH = 6, 11

OWN_SETTINGS = bytes.fromhex(CSM)
PEER_SETTINGS = bytes.fromhex("00e1")

BODY = random.Random(5684).randbytes(60_000)

# A peer: its address, the protocols that it offers, and optionally its TLS version, its only cipher and its
# certificate.
FIELDS = ["source", "protocols", "tls", "cipher", "certificate"]
Kind = collections.namedtuple("Kind", FIELDS, defaults=[HOST, ("coap",), None, "DEFAULT", None])


def spelled(code, token, path="", observes=False, payload=b""):
    """Returns a request of less than 13 bytes after its token, with a path of at most one segment."""
    options = b"\x60" if observes else b""
    if path:
        options += bytes([URI_PATH - (OBSERVE if observes else 0) << 4 | len(path)]) + path.encode()
    rest = options + (b"\xff" + payload if payload else b"")
    assert len(rest) < 13 and len(path) < 13
    return bytes([len(rest) << 4 | len(token), code]) + token + rest


def context(folder, kind):
    """Returns the TLS context of a peer: the server needs a certificate of the test's authority for this address."""
    it = ssl.create_default_context(cafile=os.path.join(folder, "authority.pem"))
    if kind.protocols:
        it.set_alpn_protocols(list(kind.protocols))
    if kind.certificate:
        it.load_cert_chain(*(os.path.join(folder, name) for name in kind.certificate))
    if kind.tls:
        # The system may disallow old versions and short keys for its own programs, but this peer must try them.
        it.set_ciphers(kind.cipher + ":@SECLEVEL=0")
        with warnings.catch_warnings():
            warnings.simplefilter("ignore", DeprecationWarning)
            it.minimum_version = it.maximum_version = kind.tls
    return it


class NoPlace(Exception):
    """The text of a replacement is not in the configuration exactly once."""


class Stream(messages.Stream):
    """A connection that sends and receives messages."""

    def __enter__(self):
        return self

    def __exit__(self, *_):
        self.socket.close()

    def next(self):
        """Returns the code, token and payload of the next message, or None at a timeout or at the end of the
        connection."""
        with contextlib.suppress(OSError):
            code, token, _, payload = super().next()
            return code, token, payload
        return None

    def greet(self):
        """Sends an empty CSM, and returns true if the CSM of the server arrives."""
        with contextlib.suppress(OSError):
            self.socket.sendall(PEER_SETTINGS)
        return self.next() == (SETTINGS, b"", b"")

    def ask(self, stream):
        """Sends a message, and returns the next one received."""
        with contextlib.suppress(OSError):
            self.socket.sendall(stream)
        return self.next()

    def end(self, patience=LIMIT):
        """Returns the bytes received before the connection ends, and the seconds until then, or None if it does not
        end."""
        began, got = time.monotonic(), self.left
        self.socket.settimeout(patience)
        try:
            while piece := self.socket.recv(65536):
                got += piece
        except TimeoutError:
            return got, None
        except OSError:
            pass
        return got, time.monotonic() - began

    def is_silent(self, seconds):
        """Returns true if no bytes and no end arrive within this time."""
        return self.end(seconds) == (b"", None)


def connect(port, source=HOST):
    return socket.create_connection((HOST, port), LIMIT, source_address=(source, 0))


class Front:
    """HAProxy, and servers behind HAProxy."""

    def __init__(self, server, folder, names, words, places):
        self.server, self.folder, self.words = server, folder, words
        self.port, self.ports = free_port(HOST), {name: free_port(HOST) for name in names}
        self.places = places_for(folder, self.port, self.ports) + certificate_in(folder) + places
        self.stack, self.running, self.processes = contextlib.ExitStack(), {}, {}

    def start(self, name):
        """Starts a server, with its name stored at /who."""
        self.running[name] = self.stack.enter_context(contextlib.ExitStack())
        server = self.running[name].enter_context(Server(self.server, ["-d", "16", *self.words], port=self.ports[name]))
        if "listening" not in server.said:
            raise OSError("the server %s does not listen" % name)
        self.processes[name] = server.process
        with Stream(connect(self.ports[name])) as it:
            it.greet()
            it.ask(spelled(PUT, b"w", "who", payload=name.encode()))

    def kill(self, name):
        """Kills a server at once."""
        self.running.pop(name).close()

    def __enter__(self):
        with contextlib.ExitStack() as stack:
            stack.push(self)
            for name in self.ports:
                self.start(name)
            self.run()
            stack.pop_all()
        return self

    def run(self):
        """Starts HAProxy, and waits until every server has passed a check."""
        name = os.path.join(self.folder, "haproxy.cfg")
        with open(name, "w", encoding="utf-8") as file:
            file.write(placed(self.places))
        said = self.stack.enter_context(tempfile.TemporaryFile())
        process = subprocess.Popen(["haproxy", "-db", "-dW", "-f", name], stdin=subprocess.DEVNULL, stdout=said,
                                   stderr=said)
        self.stack.callback(process.wait)
        self.stack.callback(process.kill)
        self.wait(lambda: process.poll() is not None or self.are_up())
        if process.poll() is not None or not self.are_up():
            said.seek(0)
            raise OSError("HAProxy does not serve: %s" % said.read().decode(errors="replace"))

    def __exit__(self, *_):
        self.stack.close()

    def tell(self, words):
        """Returns the output of HAProxy for a command."""
        got = b""
        with contextlib.suppress(OSError), socket.socket(socket.AF_UNIX) as it:
            it.settimeout(LIMIT)
            it.connect(os.path.join(self.folder, "admin"))
            it.sendall(words.encode() + b"\n")
            while piece := it.recv(65536):
                got += piece
        return got.decode(errors="replace")

    def counts(self, name):
        """Returns the counters of HAProxy for a server or for its frontend, by the names in its manual."""
        rows = csv.DictReader(self.tell("show stat").removeprefix("# ").splitlines())
        return next((row for row in rows if name in (row["svname"], row["pxname"])), collections.defaultdict(str))

    def status(self, name):
        """Returns the state of a server in HAProxy, and the result of its last check."""
        row = self.counts(name)
        return row["status"], row["check_status"].removeprefix("* ")

    def are_up(self):
        """Returns true if every server is up, and has passed a check."""
        return all(state == "UP" and check.endswith("OK") for state, check in map(self.status, self.ports))

    def taken(self):
        """Returns the total number of connections that HAProxy has made to the servers."""
        return sum(int(self.counts(name)["stot"] or 0) for name in self.ports)

    def wait(self, happens, seconds=LIMIT):
        """Waits until a condition holds, and returns false at a timeout."""
        return soon(lambda: bool(happens()), seconds=seconds)

    def peer(self, kind=Kind()):
        """Returns a connection after its TLS handshake."""
        return Stream(context(self.folder, kind).wrap_socket(connect(self.port, kind.source), server_hostname=HOST))

    def greeted(self, source):
        """Returns a connection that has exchanged CSMs with a server."""
        peer = self.peer(Kind(source))
        if not peer.greet():
            raise OSError("no greeting for %s" % source)
        return peer

    def who(self, source=HOST):
        """Returns the name of the server that responds to a peer of this address, or an error; and the seconds that it
        took."""
        began = time.monotonic()
        try:
            with self.peer(Kind(source)) as peer:
                got = (peer.greet(), peer.ask(spelled(GET, b"q", "who")))
        except OSError as trouble:
            return repr(trouble), time.monotonic() - began
        answered = got[0] and got[1] and got[1][:2] == (CONTENT, b"q")
        return got[1][2].decode() if answered else repr(got), time.monotonic() - began


def places_for(folder, port, ports):
    """Returns the replacements for directories and addresses. A server without a port is removed."""
    places = ANY_USER + [
        ("stats socket /run/haproxy/admin.sock mode 660", "stats socket %s/admin" % folder),
        ("bind :::5684 v4v6", "bind %s:%d" % (HOST, port)),
    ]
    for name, standard in SERVERS.items():
        line = "    server %s %s:%d\n" % (name, HOST, standard)
        places.append((line, line.replace(str(standard), str(ports[name])) if name in ports else ""))
    return places


def certificate_in(folder):
    """Returns the replacement that inserts the certificate of the test."""
    return [("/etc/haproxy/coap.pem", os.path.join(folder, "server.pem"))]


def placed(places):
    """Returns the installed configuration with these replacements."""
    with open(CONFIGURATION, encoding="utf-8") as file:
        text = file.read()
    for old, new in places:
        if text.count(old) != 1:
            raise NoPlace("%r occurs %d times in the configuration" % (old, text.count(old)))
        text = text.replace(old, new)
    return text


class Setting:
    """Common input of all checks: the program, a folder with certificates, and the replacements that break the
    configuration."""

    def __init__(self, server, folder, broken=()):
        self.server, self.folder, self.broken = server, folder, list(broken)

    def front(self, names=("one",), words=(), places=()):
        return Front(self.server, self.folder, names, words, list(places) + self.broken)


def certify(folder):
    """Creates an authority, a certificate that it signed for this address, and another authority."""
    key = ["-newkey", "ec", "-pkeyopt", "ec_paramgen_curve:P-256", "-nodes", "-days", "2"]
    names = ["-subj", "/CN=localhost", "-addext", "subjectAltName=DNS:localhost,IP:%s" % HOST]
    signs = ["-CA", "authority.pem", "-CAkey", "authority.key", "-addext", "basicConstraints=critical,CA:FALSE"]
    for words in (
        ["-subj", "/CN=authority of the test", "-keyout", "authority.key", "-out", "authority.pem"],
        ["-subj", "/CN=another authority", "-keyout", "another.key", "-out", "another.pem"],
        [*signs, *names, "-keyout", "server.key", "-out", "signed.pem"],
    ):
        line = ["openssl", "req", "-x509", *key, *words]
        subprocess.run(line, cwd=folder, stdin=subprocess.DEVNULL, capture_output=True, check=True, timeout=LIMIT)
    with open(os.path.join(folder, "server.pem"), "wb") as both:
        for name in ("signed.pem", "server.key"):
            with open(os.path.join(folder, name), "rb") as part:
                both.write(part.read())
