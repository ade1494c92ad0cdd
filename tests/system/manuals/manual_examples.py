"""Checks the form, the sentences, the references and the examples of a manual."""

import glob
import os
import pathlib
import re
import signal
import subprocess
import tempfile

from checks import CSM
from manual_pages import USAGE, Manual, run
from peers import LIMIT, Server, free_port, read_bytes, read_to_end, soon
from workspace import ROOT

SECTIONS = ["NAME", "SYNOPSIS", "DESCRIPTION", "EXIT STATUS", "EXAMPLES", "DIAGNOSTICS", "SEE ALSO", "STANDARDS",
            "LIMITATIONS"]

# The manual of section 7, to which the other ones refer, and its sections.
SHARED = "dachreup"
SHARED_SECTIONS = ["NAME", "DESCRIPTION", "LOG", "REASONS", "SILENT CONNECTIONS", "SCRIPTS", "RECORD FILES",
                   "DIAGNOSTICS", "SEE ALSO", "STANDARDS"]

# Timeouts in seconds: of an example, which may listen or wait, and of one that ends by itself. The longest of these
# observes for ten seconds.
EXAMPLE_LASTS = 1
ANSWERED_LASTS = 30

# Sentences of a manual, as they are rendered.
SENTENCES = {"coap-server": ["A signal ends it at once, without Release to its clients.",
                             "Without --idle there is no timeout: a silent client keeps its connection."]}

# Words of the client's limitations: what is not supported, and the way around it in the same section or paragraph.
WAYS_AROUND = [
    ('The scheme "coaps+tcp" is not supported.', "Run a proxy such as HAProxy"),
    ("in an IPv6 address is not supported.", "Use an address of the host that needs no zone"),
    ("There is no block-wise transfer",
     "Split a larger content into several resources, or use a client with block-wise transfer"),
]


def check_form(checks, manual, sections=SECTIONS):
    """Checks that mandoc accepts the page without a remark, and renders all its sections. Other manuals need not be
    installed."""
    _, remarks, _ = run(["mandoc", "-T", "lint", manual.path])
    checks.same("%s: remarks of mandoc" % manual.name,
                [it for it in remarks.splitlines() if "referenced manual not found" not in it], [])
    status, text = manual.rendered()
    checks.same("%s: mandoc's status" % manual.name, status, 0)
    checks.same("%s: missing sections" % manual.name, [it for it in sections if "\n%s\n" % it not in text], [])


def check_references(checks):
    """Checks that each manual refers to that of section 7, and that one to each. Sections that a manual names in
    another one exist there."""
    manuals, shared = {}, (SHARED, "7")
    for path in glob.glob(os.path.join(ROOT, "man", "*.[137]")):
        name, _, number = os.path.basename(path).rpartition(".")
        manuals[name, number] = Manual(name, number)
    for page, manual in manuals.items():
        referred = set(re.findall(r"(?m)^\.Xr (\S+) (\d)", manual.text))
        wanted = set(manuals) if page == shared else {shared}
        checks.same("%s(%s): missing references" % page, sorted(wanted - referred - {page}), [])
        for section, *other in re.findall(r"([A-Z][A-Z ]+[A-Z]) in\n\.Xr (\S+) (\d)", manual.text):
            checks.same("%s(%s): the section %s of %s(%s)" % (*page, section, *other),
                        section in manuals[tuple(other)].sections, True)


def check_sentences(checks, manual):
    """Checks sentences of a manual, and the ways around the limitations of the client."""
    text = manual.rendered()[1]
    for sentence in SENTENCES.get(manual.name, []):
        checks.same("%s: %r" % (manual.name, sentence), sentence in " ".join(text.split()), True)
    limits = [" ".join(it.split()) for it in text.partition("\nLIMITATIONS\n")[2].split("\n\n")]
    for feature, way in WAYS_AROUND if manual.name == "coap-client" else []:
        checks.same("%s: the way around %r" % (manual.name, feature), [way in it for it in limits if feature in it],
                    [True])


def check_signal(checks, program):
    """Checks that a signal ends the server at once, and that its clients receive no Release."""
    with Server(program) as server, server.connect() as peer:
        # The server has read all bytes when it sends the Pong. So the end of the connection is no reset.
        peer.sendall(bytes.fromhex("00e1" "00e2"))
        checks.same("the CSM and the Pong of the server", read_bytes(peer, len(CSM + "00e3") // 2).hex(), CSM + "00e3")
        status = server.end(signal.SIGTERM)
        checks.same("bytes after a signal", (read_to_end(peer), status), ((b"", "the end"), -signal.SIGTERM))


def play(command, folder, programs, lasts=EXAMPLE_LASTS):
    """Runs an example. Returns its status, or None if it had to be killed, its output and its error output."""
    words = dict(os.environ, PATH=programs + os.pathsep + os.environ["PATH"])
    ran = subprocess.Popen(["sh", "-c", command], cwd=folder, env=words, stdin=subprocess.DEVNULL,
                           stdout=subprocess.PIPE,
                           stderr=subprocess.PIPE, start_new_session=True)
    try:
        output, error = ran.communicate(timeout=lasts)
        status = ran.returncode
    except subprocess.TimeoutExpired:
        # The example listens, or waits for a response.
        os.killpg(ran.pid, signal.SIGKILL)
        output, error = ran.communicate()
        status = None
    return status, output.decode(errors="replace"), error.decode(errors="replace")


def check_examples(checks, manual, programs):
    """Checks that the program accepts the arguments of each example, and that an example with output writes it."""
    blocks = manual.examples()
    checks.same("%s: examples are found" % manual.name, bool(blocks), True)
    for block in blocks:
        with tempfile.TemporaryDirectory() as folder:
            for command, shown in block:
                status, output, error = play(command, folder, programs)
                checks.same("%s: %r is valid" % (manual.name, command), (status == USAGE, "error:" in error),
                            (False, False))
                if shown.strip() and not URI.search(command):
                    checks.same("%s: output of %r" % (manual.name, command), (status, output.rstrip()),
                                (0, shown.rstrip()))


# The beginning of a URI in an example, whose port a check replaces.
URI = re.compile(r"//(127\.0\.0\.1|\[::1\]:5700)/")


def check_answered(checks, manual, server, words, programs):
    """Checks that the examples with a URI succeed with a server that responds, and that one with output writes it."""
    with Server(server, words) as listening, tempfile.TemporaryDirectory() as folder:
        examples = [it for block in manual.examples() for it in block if URI.search(it[0])]
        checks.same("%s: examples with a URI are found" % manual.name, len(examples) > 1, True)
        for command, shown in examples:
            there = URI.sub("//127.0.0.1:%d/" % listening.port, command)
            status, output, error = play(there, folder, programs, ANSWERED_LASTS)
            checks.same("%s: %r is answered" % (manual.name, command), (status, error), (0, ""))
            if shown.strip():
                checks.same("%s: output of %r" % (manual.name, command), output.rstrip(), shown.rstrip())


def check_relay(checks, manual, server, programs):
    """Checks that the client reaches a server by the relay of its manual, with another address and other ports."""
    [command] = re.findall(r"(?m)^ +(socat .*)$", re.sub(r"\\\n +", "", manual.part("LIMITATIONS")))
    port = free_port()
    with Server(server, host="::1") as listening:
        # Other tests leave the port free only for programs that use this option.
        there = command.replace("fe80::1%eth0]:5683", "::1]:%d" % listening.port)
        there = there.replace(":5700", ":%d,reuseaddr" % port)
        relay = subprocess.Popen(["sh", "-c", "exec " + there], stdin=subprocess.DEVNULL, start_new_session=True)
        try:
            ask = "until coap-client coap+tcp://127.0.0.1:%d/; do sleep 0.1; done" % port
            status, output, _ = play(ask, programs, programs, LIMIT)
            checks.same("%s: the relay %r" % (manual.name, command), (status, output), (0, "coap+tcp"))
        finally:
            os.killpg(relay.pid, signal.SIGKILL)
            relay.wait(LIMIT)


def options_in(line):
    """Returns the names of the options in a line of the header of a record."""
    return re.findall(r" (-{1,2}[a-z][\w-]*)", line)


def check_record(checks, shared, programs):
    """Checks that a server and a directory write the header of the manual. Checks also that the command of the manual
    repairs a record."""
    header = re.findall(r"(?m)^ +(# .*)$", shared.part("RECORD FILES"))
    [[(repair, _)]] = shared.examples("RECORD FILES")
    starts = re.search(r"--starts \S+", header[1])[0]
    command = "coap-server --stdio -d 100 %s --record monday" % starts
    with tempfile.TemporaryDirectory() as folder:
        checks.same("a record", play(command, folder, programs, ANSWERED_LASTS)[0], 0)
        path = os.path.join(folder, "monday")
        with open(path, encoding="utf-8") as file:
            lines = file.read().splitlines()
        for said, line in zip(header, lines):
            pattern = re.escape(said).replace(re.escape("..."), ".*")
            checks.same("the header %r is as in the manual" % line, bool(re.fullmatch(pattern, line)), True)
        order = re.search(r"in this order:\n((?:\.Fl .*\n|and\n)+)", shared.text)[1]
        named = ["-" + name for name in re.findall(r"\.Fl (\S+)", order)]
        checks.same("options of the header", options_in(lines[1]), named)
        other = os.path.join(folder, "registrations")
        with Server(os.path.join(programs, "coap-directory"), ["--record", other]):
            soon(lambda: pathlib.Path(other).read_text(encoding="utf-8").count("\n") > 1)
            line = pathlib.Path(other).read_text(encoding="utf-8").splitlines()[1]
        checks.same("options of the header of a directory", options_in(line), [*named, *["--application"] * 3])
        with open(path, "a", encoding="utf-8") as file:
            file.write("tick 17")
        replay = "coap-server --script monday -d 100"
        checks.same("a record with a part of a line", play(replay, folder, programs, ANSWERED_LASTS)[0], USAGE)
        repaired = play(repair.replace("FILE", "monday"), folder, programs, ANSWERED_LASTS)
        checks.same("the repair %r" % repair, repaired, (0, "", ""))
        checks.same("a repaired record", play(replay, folder, programs, ANSWERED_LASTS)[0], 0)
