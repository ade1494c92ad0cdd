"""Arguments of the server that it rejects, and its help."""

import os
import socket

from checked_arguments import allowed


def cannot_listen(host, port=5683):
    """Returns the texts after the program's name for an address that this machine does not have."""
    why = "address %s port %d is not available on this machine; choose another address with -A" % (host, port)
    if ":" in host:
        try:
            socket.socket(socket.AF_INET6).close()
        except OSError as trouble:
            why = "address %s port %d: %s (os error %d)" % (host, port, os.strerror(trouble.errno), trouble.errno)
    return "cannot listen\ncoap-server: %s" % why


# The arguments of coap-server, the status, and the text after the program's name; None is a text of clap.
SERVER_WORDS = [
    (["--stdio", "--stdio"], 1, None), (["--script"], 1, None), (["--stdio=1"], 1, None), (["-"], 1, None),
    (["stdio"], 1, None), ([""], 1, None),
    (["--script", "-", "-"], 1, None), (["-", "--script"], 1, None), (["-x"], 1, None),
    (["--stdio", "--Queue", "70000"], 1, None), (["-d"], 1, None),
    (["x", "--help"], 1, None), (["--help=x"], 1, None), (["-x", "-V"], 1, None),
    (["--idle"], 1, None), (["--starts"], 1, None), (["--stdio", "--starts", "-1,2,3"], 1, None),
    (["--record"], 1, None), (["--record", "r", "--record-limit", "-1"], 1, None),
    (["--script", "-", "--application"], 1, None),
    # Addresses for documentation, which no machine has.
    (["-A", "192.0.2.1"], 3, cannot_listen("192.0.2.1")),
    (["-A", "2001:db8::1", "-p", "0005683"], 3, cannot_listen("2001:db8::1")),
    (["-A", "192.0.2.1", "-p", "1", "--turns", "1"], 3, cannot_listen("192.0.2.1", 1)),
]

# The arguments of coap-server, the name of the bad option, the value that was given, and the least one of --queue.
SERVER_VALUES = [
    *((["-A", it], "-A", it) for it in ("localhost", "1.2.3", "::1::", "[::1]", "fe80::1%eth0")),
    (["-p", "+1"], "-p", "+1"), (["-d", "a"], "-d", "a"),
    (["--max-sent", "1152", "--queue", "1151"], "--queue", "1151", 1152),
    (["--queue", "4194305", "--max-sent", "0001200"], "--queue", "4194305", 1200),
    (["--log=-1"], "--log", "-1"),
    *((["--stdio", f"--starts={it}"], "--starts", it) for it in (
        "1", "1,2", "1,2,", "1,2,3,", ",1,2,3", "1,,3", "1,2,3,4", "1;2;3", "1, 2,3", "1,2,x", "+1,2,3", "-1,2,3",
        "0x1,2,3", "000000000000000000001,2,3", "0,18446744073709551616,0", "0,0,18446744073709551615",
    )),
    (["--script", "-", "--starts", "1,2"], "--starts", "1,2"), (["--starts", "1,2"], "--starts", "1,2"),
    (["--script", "-", "--record="], "--record", "an empty text"),
    *((["--record", "/nothing/here", f"--record-limit={it}"], "--record-limit", it or "an empty text")
      for it in ("", "0", "x", "1G", "+1", "-1", "000000000000000000001")),
    *((["--script", "-", f"--application={it}"], "--application", it or "an empty text") for it in (
        "", "/a", "/a;", "a;get", "/;get", "/time;get", "/a;GET", "/a;get,get", "/a;0.32", "/a;get;x=", "/..;get",
        "/a;get;rt=a b", "/a;get;obs; ct=0",
    )),
    (["--script", "-", '--application=/a;get;rt="a'], "--application", "/a;get;rt=\\x22a"),
    (["--script", "-", '--application=/a;get;rt="\n"'], "--application", "/a;get;rt=\\x22\\x0a\\x22"),
    (["--script", "-", "--application", "/a;get", "--application", "/a;post"], "--application", "/a;post"),
    (["--script=-", *(f"--application=/{it};get" for it in range(17))], "--application", "/16;get"),
    (["--stdio", "--application", "x"], "--application", "x"),
    # A bad value comes before options that exclude each other.
    (["--turns", "0", "-p", "0", "--script", "-", "--stdio"], "-p", "0"),
    (["--script", "-", "--log", "4"], "--log", "4"),
    # The terminal gets printable ASCII alone, and at most 1,024 bytes.
    (["-A", "\x1b[31m"], "-A", "\\x1b[31m"), (["-p", "\n\r\t"], "-p", "\\x0a\\x0d\\x09"),
    (["-p", "é\"\\"], "-p", "\\xc3\\xa9\\x22\\x5c"),
    (["-p", "9" * 5000], "-p", "9" * (1021 - len("-p takes , not " + allowed("coap-server", "-p"))) + "..."),
]

# The arguments of coap-server, and the options that exclude each other.
SERVER_CLASHES = [
    (["--idle", "5", "--log", "1", "--script", "-"], "--script and --log cannot be used together"),
    (["--idle", "5", "--script", "-", "--stdio"], "--stdio and --script cannot be used together"),
    (["-p", "1", "--starts", "1,2,3", "--idle", "5", "--log", "1"],
     "--starts can be used only with --stdio or --script"),
    (["--starts", "1,2,3", "--stdio", "--script", "-"], "--stdio and --script cannot be used together"),
    (["--starts", "1,2,3", "--stdio", "--idle", "5"], "--stdio and --idle cannot be used together"),
    *((["--record-limit", "1", *mode], "--record-limit can be used only with --record")
      for mode in (["--stdio"], ["--script", "-"])),
    (["--record", "-", "--stdio", "--idle", "5"], "--stdio and --idle cannot be used together"),
    (["--record", "r", "--script", "-", "--idle", "5"], "--script and --idle cannot be used together"),
    (["--record", "r", "--starts", "1,2,3"], "--starts can be used only with --stdio or --script"),
    (["--application", "/a;get", "--stdio"], "--application can be used only with --script"),
    (["--application", "/a;get", "--record-limit", "1"], "--record-limit can be used only with --record"),
    (["--application", "/a;get", "--starts", "1,2,3"], "--starts can be used only with --stdio or --script"),
]

SERVER_HELP = b"A CoAP server over TCP (RFC 8323)\n\nUsage: coap-server [OPTIONS]\n\nOptions:\n"
