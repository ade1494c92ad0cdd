"""Checks peers that are served over TLS, and others that are rejected."""

import contextlib
import ssl
import warnings

from libcoap_over_tls import libcoap
from proxies import GET, OWN_SETTINGS, PEER_SETTINGS, Kind, Stream, connect, spelled


def refused(front, kind):
    """Returns the bytes that a rejected peer receives before the end of its connection, or the error of its
    handshake."""
    try:
        with front.peer(kind) as peer:
            with contextlib.suppress(OSError):
                peer.socket.sendall(PEER_SETTINGS + spelled(GET, b"", ""))
            got, seconds = peer.end()
            return got if seconds is not None else "no end"
    except ssl.SSLError as trouble:
        return trouble.reason


def check_tls(checks, setting):
    """Checks which peers are served over TLS, and which are rejected."""
    with setting.front() as front:
        for version in (ssl.TLSVersion.TLSv1_2, ssl.TLSVersion.TLSv1_3):
            with front.peer(Kind(tls=version)) as peer:
                got = peer.socket.version(), peer.socket.selected_alpn_protocol(), peer.greet()
            checks.same("a peer with %s" % version.name, got, (version.name.replace("_", "."), "coap", True))
        with front.peer(Kind(protocols=("h2", "coap"))) as peer:
            got = peer.socket.selected_alpn_protocol(), peer.greet()
        checks.same("a peer that offers coap too", got, ("coap", True))
        taken = front.taken()
        checks.same("a peer without ALPN", refused(front, Kind(protocols=None)), b"")
        checks.same("a peer with another protocol", refused(front, Kind(protocols=("h2",))), b"")
        with warnings.catch_warnings():
            warnings.simplefilter("ignore", DeprecationWarning)
            old = ssl.TLSVersion.TLSv1_1
        checks.same("a peer with TLS 1.1", refused(front, Kind(tls=old)), "TLSV1_ALERT_PROTOCOL_VERSION")
        with Stream(connect(front.port)) as plain:
            plain.socket.sendall(PEER_SETTINGS + spelled(GET, b"q", "who"))
            got, seconds = plain.end()
        checks.same("a peer without TLS", (OWN_SETTINGS in got, seconds is None), (False, False))
        checks.same("connections of these peers at the server", front.taken() - taken, 0)


def check_constrained(checks, setting):
    """Checks a device with the one mandatory cipher, if the configuration allows that cipher."""
    device = Kind(tls=ssl.TLSVersion.TLSv1_2, cipher="ECDHE-ECDSA-AES128-CCM8")
    with setting.front(places=[("    # ssl-default-bind-ciphers", "    ssl-default-bind-ciphers")]) as front:
        with front.peer(device) as peer:
            checks.same("a device with a short tag", (peer.socket.cipher()[0], peer.greet()), (device.cipher, True))
        checks.same("a usual peer beside it", front.who()[0], "one")
        checks.same("libcoap beside it", libcoap(front, "/who"), (0, b"one\n", b""))


def check_certified(checks, setting):
    """Checks peers with certificates, if the configuration requires them."""
    wants = " verify required ca-file %s/authority.pem" % setting.folder
    with setting.front(places=[(" tcp-ut 1m", " tcp-ut 1m" + wants)]) as front:
        with front.peer(Kind(certificate=("server.pem",))) as peer:
            checks.same("a peer with a certificate of the authority", peer.greet(), True)
        taken = front.taken()
        checks.same("a peer without a certificate", refused(front, Kind()), b"")
        checks.same("a peer with another one", refused(front, Kind(certificate=("another.pem", "another.key"))), b"")
        checks.same("connections of these peers at the server", front.taken() - taken, 0)
