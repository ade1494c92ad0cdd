"""Streams and scripts of the server, with their output."""

import os
import tempfile

from checked_arguments import run
from checks import ABORTS, CSM, GREETING
from workspace import ROOT

STREAMS = [
    # The bytes that the peer sends, and the output after the CSM of the server. tests/vectors/stdio.py plays the rows
    # of such runs.
    ("00e1" "0000" "11e20720", "11e30720"),
    ("70e123100000202108" "00e2", "00e3"),
    ("f0ffffffff01" "00e1" "00e2", ABORTS["message too large"]),
    # Resources: /time, the listing, and an absent one. Nothing can be stored, and a delayed response is dropped at the
    # end.
    ("00e1" "510107b474696d65", "514507c02101ff30"),
    ("00e1" "d1040106bb2e77656c6c2d6b6e6f776e04636f7265",
     "d11d4506c128ff" + b"</>;ct=0,</time>;ct=0;obs,</async>;ct=0".hex()),
    ("00e1" "210102b161", "018402"),
    ("00e1" "410301b161ff78", "018401"),
    ("00e1" "210403b161", "014203"),
    ("00e1" "610104b56173796e63" "11e20620" "01e207", "01e307"),
    ("00e1" "810104b56173796e634130" "11e20620", "614504c0ff646f6e65" "11e30620"),
    ("00e1" "b10104b56173796e634433363031", "018004"),
    # A request between Pings.
    ("00e1" "01e201" "01e202" "0001" "01e203", "01e301" "01e302" "a045" + GREETING + "01e303"),
    # More bytes than one read returns.
    ("00e1" + "01e205" * 3000, "01e305" * 3000),
    # A message of the maximum size, mainly options of length 0, and one that is a byte longer.
    ("00e1" "e0feef01" + "00" * 65532 + "01e203", "a045" + GREETING + "01e303"),
    ("00e1" "e0fef001", ABORTS["message too large"]),
    # Stops, each followed by more bytes.
    ("00e1" "1001ff" "00e2", ABORTS["bad message"]),
    ("00e1" "10e210" "00e2", ABORTS["bad signal option"]),
    ("10e110" "00e2", ABORTS["bad CSM option 1"]),
    ("60e1250000000001" "00e2", ABORTS["bad CSM option 2"]),
    ("00e1" "00e2" "00e4" "00e2", "00e3"),
    # The peer's limit is small, and becomes smaller from one message to the next.
    ("20e12103" "11e20620" "010107", "01e306" "01a007"),
    ("20e12114" "20e12102" "0001" "010107" "0001", "00a0"),
]

SCRIPTS = [
    # A script, and its output: the line of each event.
    ("", ""),
    ("\n# open\n\n", ""),
    ("open\ndrain 1\n", f"open 1\nout 1 {CSM}\n"),
    ("open\n# é\n\nopen\ndrain 2 3\nstatus 1\nin 3 00\n",
     "open 1\nopen 2\nout 2 60e123\nstatus 1 waiting kept 0 waiting 8 pending 0 observers 0\nin 3 fault 1\n"),
    # The settings of the program: 16 connections, no created resource, and counters that begin at 0.
    ("open\n" * 17, "".join(f"open {it}\n" for it in range(1, 17)) + "open fault 1\n"),
    ("put /a - 00\nremove /a\ntick 0\n", "put fault 3\nremove fault 1\ntick 0\n"),
    # All connections have the same time.
    (
        "open\ndrain 1\nopen\ndrain 2\nin 1 00e16101076054" "74696d65\nin 2 00e1510108b4"
        "74696d65\ntick 5\ndrain 1\ndrain 2\n",
        f"open 1\nout 1 {CSM}\nopen 2\nout 2 {CSM}\nin 1 11\nin 2 10\ntick 5\n"
        "out 1 61450760602101ff3061450760602101ff35\nout 2 514508c02101ff30\n",
    ),
    # A Pong with Custody waits for a delayed response, even after the peer sent Release.
    (
        "open\ndrain 1\nin 1 00e1\nin 1 810105b56173796e634133\nin 1 11e20620\nin 1 00e4\ntick 2\ndrain 1\ntick 3\n"
        "drain 1\nstatus 1\n",
        f"open 1\nout 1 {CSM}\nin 1 2\nin 1 11\nin 1 4\nin 1 2 stop 9\ntick 2\nout 1 -\ntick 3\n"
        "out 1 614505c0ff646f6e6511e30620\n"
        "status 1 releasing 9 kept 0 waiting 0 pending 0 observers 0\n",
    ),
    # 10,000 delayed responses are sent on one connection, and none is left.
    (
        "open\ndrain 1\nin 1 00e1\n"
        + "".join(f"in 1 810105b56173796e634131\ntick {it}\ndrain 1\n" for it in range(1, 10001)) + "status 1\n",
        f"open 1\nout 1 {CSM}\nin 1 2\n"
        + "".join(f"in 1 11\ntick {it}\nout 1 614505c0ff646f6e65\n" for it in range(1, 10001))
        + "status 1 open kept 0 waiting 0 pending 0 observers 0\n",
    ),
    # More bytes than one read returns, and a line that is longer than one write.
    (
        "open\ndrain 1\nin 1 00e1" + "01e205" * 20000 + "\ndrain 1\n" + "status 1\n" * 3000,
        f"open 1\nout 1 {CSM}\nin 1 60002\nout 1 " + "01e305" * 20000 + "\n"
        + "status 1 open kept 0 waiting 0 pending 0 observers 0\n" * 3000,
    ),
]

# Start values, a script, and its output.
STARTS_SCRIPTS = [
    # The time, the versions and the ids.
    (
        "5,6,7",
        "put /a - 78\nopen\nin 8 00e1510101b4" "74696d65\ndrain 8\nput /a - 79\ntick 4\ntick 6\nopen\n",
        f"put 7\nopen 8\nin 8 10\nout 8 {CSM}514501c02101ff35\nput 8\ntick fault 1\ntick 6\nopen 9\n",
    ),
    # The ETag is the version.
    (
        "1700000000,111411200000000,0",
        "put /a 0 78\nopen\nin 1 00e1210101b161\ndrain 1\n",
        f"put 111411200000001\nopen 1\nin 1 7\nout 1 {CSM}a14501466553f100000180ff78\n",
    ),
    # The largest values: one id is left, and no version. A delayed response is due at once, since no later time exists.
    (
        "18446744073709551615,18446744073709551615,18446744073709551614",
        "open\nopen\nput /a - 78\nin 18446744073709551615 00e1\nin 18446744073709551615 410301b161ff78\n"
        "in 18446744073709551615 610102b56173796e63\ndrain 18446744073709551615\ntick 18446744073709551615\n"
        "tick 18446744073709551614\n",
        "open 18446744073709551615\nopen fault 2\nput fault 5\nin 18446744073709551615 2\nin 18446744073709551615 7\n"
        f"in 18446744073709551615 9\nout 18446744073709551615 {CSM}01a301614502c0ff646f6e65\n"
        "tick 18446744073709551615\ntick fault 1\n",
    ),
    ("0,00,000", "put /a - 78\nopen\n", "put 1\nopen 1\n"),
]

# A list of resources with the attributes of an entry: spaces, `;` and quoted quotes in a quoted string.
LISTED = '</>;ct=0,</time>;ct=0;obs,</async>;ct=0,</a>;title="a; \\"b\\"";sz=7;obs'
LISTED_SCRIPT = (
    ["--application", '/a;get;title="a; \\"b\\"";sz=7;obs'],
    "open\ndrain 1\nin 1 00e1d1040106bb2e77656c6c2d6b6e6f776e04636f7265\ndrain 1\n",
    f"open 1\nout 1 {CSM}\nin 1 23\nout 1 d13c4506c128ff{LISTED.encode().hex()}\n",
)

BAD_SCRIPTS = [
    # A script, and the number of the first line that is not an event.
    ("opens\n", 1),
    ("open\n\n# in\nin 1\nopen\n", 4),
    ("open\ndrain 1", 2),
    ("open\r\n", 1),
    ("open\n" * 1000 + "é\n", 1001),
]

# The arguments before --stdio, the input, and the output after the CSM.
STDIO_WORDS = [
    (["--max-message", "1152"], "00e1", "50e12204804140", ""),
    (["-d", "1"], "00e1410301b161ff78210102b161", CSM, "0141014145024101ff78"),
    (["--pending", "0"], "00e1610105b56173796e63", CSM, "01a305"),
    (["--observers", "0", "-d", "1"], "00e1410301b161ff78310102605161", CSM, "0141014145024101ff78"),
    # The version 7, and the time 5.
    (["--starts", "5,6,7", "-d", "1"], "00e1410301b161ff78210102b161510103b4" "74696d65", CSM,
     "0141014145024107ff78514503c02101ff35"),
    (["--starts", "0,255,18446744073709551614", "-d", "1"], "00e1410301b161ff78210102b161", CSM,
     "014101514502420100ff78"),
]


def stored(name):
    """Returns the content of a file beside the sources of the program."""
    with open(os.path.join(ROOT, "crates", "program_server", name), "rb") as it:
        return it.read()


def replay(program, script, words=()):
    """Returns the results of a script on standard input, and of the same script in a file."""
    with tempfile.NamedTemporaryFile() as file:
        file.write(script)
        file.flush()
        both = [run(program, ["--script", "-", *words], script), run(program, [*words, "--script", file.name])]
    return [(it.returncode, it.stdout, it.stderr) for it in both]


def check_scripts(program, checks):
    """Checks scripts that are run, and invalid ones."""
    checks.same("stored script", replay(program, stored("stdin")), [(0, stored("stdout"), b"")] * 2)
    for script, lines in SCRIPTS:
        checks.same("lines for %r" % script, replay(program, script.encode()), [(0, lines.encode(), b"")] * 2)
    for starts, script, lines in STARTS_SCRIPTS:
        checks.same("lines from %s" % starts, replay(program, script.encode(), ["-d", "1", "--starts", starts]),
                    [(0, lines.encode(), b"")] * 2)
    words, script, lines = LISTED_SCRIPT
    checks.same("lines with an entry", replay(program, script.encode(), words), [(0, lines.encode(), b"")] * 2)
    for script, number in BAD_SCRIPTS:
        reported = b"coap-server: bad script line %d\n" % number
        checks.same("bad script %r" % script, replay(program, script.encode()), [(1, b"", reported)] * 2)
    for name in ["/nothing/here", "nothing", ""]:
        done = run(program, ["--script", name])
        reported = b"coap-server: cannot open %s\n" % name.encode()
        checks.same("no script %r" % name, (done.returncode, done.stdout, done.stderr), (3, b"", reported))
    done = run(program, ["--script", "/"])
    checks.same("script that cannot be read", (done.returncode, done.stdout, done.stderr),
                (3, b"", b"coap-server: cannot read\n"))
    reader, writer = os.pipe()
    os.close(reader)
    done = run(program, ["--script", "-"], b"open\n", stdout=writer)
    os.close(writer)
    checks.same("script with a closed pipe", (done.returncode, done.stderr), (3, b"coap-server: cannot write\n"))
