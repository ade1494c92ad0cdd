"""Arguments of the client that it rejects, and its help."""

import errno
import socket

from checked_arguments import allowed


def hindrance_v6():
    """Returns the error of a connection to port 1 of this machine over IPv6, which a system may not support."""
    unreachable = dict.fromkeys((errno.EADDRNOTAVAIL, errno.ENETUNREACH, errno.EHOSTUNREACH), "host unreachable")
    try:
        with socket.socket(socket.AF_INET6) as it:
            code = it.connect_ex(("::1", 1))
    except OSError as trouble:
        code = trouble.errno
    return {errno.ECONNREFUSED: "connection refused", **unreachable}.get(code, "system fault")


# Texts after the program's name if no program listens, and for an unknown name.
REFUSED, REFUSED_V6, UNKNOWN = (
    "cannot connect\ncoap-client: %s" % why for why in ("connection refused", hindrance_v6(), "unknown name")
)

# The arguments of coap-client, the status, and the text after the program's name; None is a text of clap.
CLIENT_WORDS = [
    ([], 1, None), (["coap+tcp://h/", "coap+tcp://h/"], 1, None), (["-x", "coap+tcp://h/"], 1, None),
    (["-x", "--help"], 1, None), (["coap+tcp://h/", "coap+tcp://h/", "-V"], 1, None), (["--version=x"], 1, None),
    (["--idle", "1", "coap+tcp://h/"], 1, None),
    (["-f", "/nothing/here", "-m", "put", "coap+tcp://h/"], 3, "cannot open /nothing/here"),
    (["-f", "/", "coap+tcp://h/"], 3, "cannot read"),
    (["-o", "/nothing/here", "coap+tcp://127.0.0.1:1/"], 3, REFUSED),
    (["coap+tcp://127.0.0.1:1/"], 3, REFUSED),
    (["-f", "-", "-m", "put", "-t", "application/cbor", "coap+tcp://[::1]:1/a"], 3, REFUSED_V6),
    # Names that no host has.
    (["coap+tcp://%ff/"], 3, UNKNOWN), (["coap+tcp://a%00b/"], 3, UNKNOWN),
]

# The arguments of coap-client, the number of the fault of the target, and its reason.
ABSOLUTE = "the target is a URI such as coap+tcp://127.0.0.1/time, not "
LONG, MANY = ("the host and each segment and argument have at most 255 bytes after decoding",
              "a target has at most 16 segments and 16 arguments")
TARGETS = [
    (["x"], 1, ABSOLUTE + "x"), ([""], 1, ABSOLUTE + "an empty text"), (["/time"], 1, ABSOLUTE + "/time"),
    (["\x1b]0;x\x07"], 1, ABSOLUTE + "\\x1b]0;x\\x07"),
    (["coap+tcp://h:65536/"], 1, "the host or the port is invalid in coap+tcp://h:65536/"),
    (["coap+tcp://[::1/"], 1, "the host or the port is invalid in coap+tcp://[::1/"),
    (["coap+tcp://[fe80::1%eth0]/"], 1, "a zone such as %eth0 in an IPv6 address is not supported"),
    (["coap+tcp://[fe80::1%25eth0]:5683/a"], 1, "a zone such as %eth0 in an IPv6 address is not supported"),
    (["coaps+tcp://h/"], 2, "the scheme is coaps+tcp; only coap+tcp is supported (see TLS in the manual)"),
    (["coap://h/"], 2, "the scheme is coap; only coap+tcp is supported"),
    (["http://h/"], 2, "the scheme is http; only coap+tcp is supported"),
    (["-B", "0", "coap://h/"], 2, "the scheme is coap; only coap+tcp is supported"),
    (["coap+tcp:///"], 3, "the host is missing in coap+tcp:///"),
    (["coap+tcp:a"], 3, "the host is missing in coap+tcp:a"),
    (["coap+tcp://u@h/"], 4, "a user name or a password in a target is not supported"),
    (["coap+tcp://u:secret@h/"], 4, "a user name or a password in a target is not supported"),
    (["coap+tcp://h/#f"], 5, "the fragment #f is not supported; write %23 for # in a path or a query"),
    (["coap+tcp://h/a?b#"], 5, "the fragment # is not supported; write %23 for # in a path or a query"),
    (["coap+tcp://h/" + "a" * 256], 6, LONG), (["coap+tcp://" + "h" * 256 + "/"], 6, LONG),
    (["coap+tcp://h/?" + "a" * 256], 6, LONG),
    (["coap+tcp://h" + "/a" * 17], 7, MANY), (["coap+tcp://h?" + "&" * 16], 7, MANY),
]

# The arguments of coap-client, the name of the bad option, and the value that was given.
CLIENT_VALUES = [
    (["-m", "GET", "coap+tcp://h/"], "-m", "GET"),
    (["-t", "json", "coap+tcp://h/"], "-t", "json"), (["-A", "json", "coap+tcp://h/"], "-A", "json"),
    (["-O", "1", "coap+tcp://h/"], "-O", "1"), (["-O", "1,0x0", "coap+tcp://h/"], "-O", "1,0x0"),
    (["-O", "1," + "a" * 1035, "coap+tcp://h/"], "-O",
     "1," + "a" * (1019 - len("-O takes , not " + allowed("coap-client", "-O"))) + "..."),
    (["--log=\x7f", "coap+tcp://h/"], "--log", "\\x7f"),
    # A bad value comes before options that exclude each other.
    (["-e", "x", "-f", "y", "-B", "0", "coap+tcp://h/"], "-B", "0"),
    (["--log", "x", "-e", "x", "-f", "y", "coap+tcp://h/"], "--log", "x"),
]

# The arguments of coap-client, and the options that exclude each other.
CLIENT_CLASHES = [
    (["-m", "delete", "-s", "0", "coap+tcp://h/"], "-s cannot be used with -m delete, only with -m get"),
    (["-s", "1", "-m", "post", "-e", "x", "-f", "y", "coap+tcp://h/"], "-e and -f cannot be used together"),
]

CLIENT_HELP = b"A CoAP client over TCP (RFC 8323)\n\nUsage: coap-client [OPTIONS] <URI>\n\nArguments:\n"
