"""Checks the installed configuration, and libcoap's client over TLS."""

import contextlib
import os
import subprocess

from peers import LIMIT
from peers import LOCAL as HOST
from proxies import BODY, certificate_in, placed


def check_file(checks, setting):
    """Checks that HAProxy accepts the installed file without a remark. Only the certificate is replaced."""
    name = os.path.join(setting.folder, "installed.cfg")
    with open(name, "w", encoding="utf-8") as file:
        file.write(placed(certificate_in(setting.folder) + setting.broken))
    line = ["haproxy", "-c", "-dW", "-f", name]
    done = subprocess.run(line, stdin=subprocess.DEVNULL, capture_output=True, text=True, timeout=LIMIT)
    checks.same("haproxy -c", (done.returncode, done.stdout + done.stderr), (0, "Configuration file is valid\n"))


def libcoap(front, path, words=(), authority="authority.pem"):
    """Runs libcoap's client over TLS. Returns its status, its output, and the first word of its errors."""
    uri = "coaps+tcp://%s:%d%s" % (HOST, front.port, path)
    line = ["coap-client-openssl", "-R", os.path.join(front.folder, authority), "-B", "5", *words, uri]
    done = subprocess.run(line, stdin=subprocess.DEVNULL, capture_output=True, timeout=2 * LIMIT)
    return done.returncode, done.stdout, b" ".join(done.stderr.split()[:1])


def check_libcoap(checks, setting):
    """Checks GET, PUT and observations of libcoap's client over TLS."""
    with setting.front() as front:
        listing = b"</>;ct=0,</time>;ct=0;obs,</async>;ct=0,</who>;obs\n"
        for name, words, path, wanted in (
            ("GET", [], "/", (0, b"coap+tcp\n", b"")),
            ("the listing", [], "/.well-known/core", (0, listing, b"")),
            ("an absent path", [], "/none", (0, b"", b"4.04")),
            ("PUT", ["-m", "put", "-e", "first"], "/stored", (0, b"", b"")),
            ("GET of the stored resource", [], "/stored", (0, b"first\n", b"")),
        ):
            checks.same("libcoap over TLS: %s" % name, libcoap(front, path, words), wanted)
        got = libcoap(front, "/", [], "another.pem")[1]
        got = b"unable to get local issuer" in got, b"coap+tcp" in got
        checks.same("libcoap, with another authority", got, (True, False))
        check_body(checks, front)
        check_observer(checks, front)


def check_body(checks, front):
    """Checks a PUT and a GET of a body of 60,000 bytes."""
    there, back = (os.path.join(front.folder, name) for name in ("there", "back"))
    with open(there, "wb") as file:
        file.write(BODY)
    got = libcoap(front, "/body", ["-m", "put", "-t", "42", "-f", there])
    checks.same("libcoap over TLS: PUT of a body", got, (0, b"", b""))
    checks.same("libcoap over TLS: GET of a body", libcoap(front, "/body", ["-o", back])[0], 0)
    with open(back, "rb") as file:
        checks.same("libcoap over TLS: the body", file.read() == BODY, True)


@contextlib.contextmanager
def observing(front, path, words=()):
    """Observes with libcoap's client. Yields a function that waits until the client has printed these states, and
    returns its output."""
    output = os.path.join(front.folder, "observed")
    uri = "coaps+tcp://%s:%d%s" % (HOST, front.port, path)
    line = ["coap-client-openssl", "-R", os.path.join(front.folder, "authority.pem"), "-w", "-s", "60", *words, uri]

    def printed():
        with open(output, "rb") as file:
            return file.read().split(b"\n")[:-1]

    def has_printed(states):
        front.wait(lambda: printed() == states)
        return printed()

    with open(output, "wb") as sink:
        process = subprocess.Popen(line, stdin=subprocess.DEVNULL, stdout=sink, stderr=sink)
    try:
        yield has_printed
    finally:
        process.kill()
        process.wait()


def check_observer(checks, front):
    """Checks an observer of a resource that another client changes. Each change follows the notification of the one
    before."""
    states = [b"first", b"second", b"third"]
    with observing(front, "/stored") as printed:
        checks.same("libcoap over TLS: the observer's first state", printed(states[:1]), states[:1])
        for number in (1, 2):
            got = libcoap(front, "/stored", ["-m", "put", "-e", states[number].decode()])
            checks.same("libcoap over TLS: change %d" % number, got, (0, b"", b""))
            checks.same("libcoap over TLS: the observer after it", printed(states[:number + 1]), states[:number + 1])
