"""Compares the statuses, the error lines and the log of a manual with the program and its source."""

import re

from manual_pages import front_of, nested_items, plain, run
from manual_sources import ERRORS, UNREACHED, code_of, printed, shape, source_of

# Values other than texts that programs give to `print_fault`. Their texts are those of ERRORS, and the second lines of
# which other checks know.
VALUES = {"IoFault", "fault", "hindrance", "line.as_str()", "reason.as_str()", "text"}

# Error texts that a program does not print, and the text in place of that of clap.
UNPRINTED = {"coap-server": {"bad target {}"}, "coap-client": set()}
UNPRINTED.update({"coap-explain": {"bad target {}", "options exclude each other", "cannot read"},
                  "coap-directory": {"bad target {}", "cannot read"}})
USAGE_TEXT = "{}"

# Lines whose entries in a manual have a list of all second lines that `print_fault` prints after them.
SECOND_LINES = ["bad script line {}", "cannot listen", "cannot open {}"]

URI = "coap+tcp://127.0.0.1:%d/"


def server_faults(port):
    """Returns arguments, standard input, and the line of the manual for them. The server cannot listen at the port."""
    return [
        (["-p", "0"], b"", "bad value for option"),
        (["--stdio", "--script", "-"], b"", "options exclude each other"),
        (["--script", "-"], b"open\nx\n", "bad script line n"),
        ([b"\xff"], b"", "words that are not UTF-8"),
        (["-A", "127.0.0.1", "-p", str(port)], b"", "cannot listen"),
        (["--script", "/nothing/here"], b"", "cannot open file"),
        (["--stdio", "--record", "/nothing/here"], b"", "cannot open file"),
        (["--script", "/"], b"", "cannot read"),
        (["--turns", "1", "--stdio"], b"\x00\xe1", "too many turns"),
    ]


def directory_faults(port):
    """Returns arguments, standard input, and the line of the manual for them. The directory cannot listen at the
    port."""
    return [
        (["-p", "0"], b"", "bad value for option"),
        (["--registrations", "0"], b"", "bad value for option"),
        (["--record", ""], b"", "bad value for option"),
        (["--record-limit", "1"], b"", "options exclude each other"),
        ([b"\xff"], b"", "words that are not UTF-8"),
        (["-A", "127.0.0.1", "-p", str(port)], b"", "cannot listen"),
    ]


def client_faults(port):
    """Returns arguments, standard input, and the line of the manual for them. No program listens at the port."""
    uri = URI % port
    return [
        (["x"], b"", "bad target n"),
        (["-B", "0", uri], b"", "bad value for option"),
        (["-f", "/dev/zero", uri], b"", "bad value for option"),
        (["-e", "x", "-f", "y", uri], b"", "options exclude each other"),
        ([b"\xff"], b"", "words that are not UTF-8"),
        ([uri], b"", "cannot connect"),
        (["-f", "/nothing/here", uri], b"", "cannot open file"),
        (["-f", "/", uri], b"", "cannot read"),
    ]


def explain_faults(_):
    """Returns arguments, standard input, and the line of the manual for them."""
    return [
        (["--connection", "0", "-"], b"", "bad value for option"),
        (["-"], b"open\nx\n", "bad script line n"),
        (["-"], b"open", "bad script line n"),
        (["-"], b"# options: -d 1001\n", "bad options in line n"),
        ([b"\xff"], b"", "words that are not UTF-8"),
        (["/nothing/here"], b"", "cannot open file"),
        (["/"], b"", "cannot read"),
    ]


def check_statuses(checks, manual, source):
    """Checks that the statuses are those for which the program has a constant."""
    listed = {int(words[0]) for words, _ in manual.items("EXIT STATUS")}
    checks.same("%s: statuses" % manual.name, listed,
                {int(it) for it in re.findall(r"const [A-Z_]+: u8 = (\d);", source)})


def check_lines(checks, manual, source):
    """Checks that the source has each line of the manual, and the manual each line of the source."""
    said = {front_of(text.removeprefix(manual.name).removeprefix(": "))
            for text in re.findall(r'b?"([^"\n]+?)(?:\\n)?"', source)}
    reported = set(re.findall(r'"%s: ([^"{]+)' % manual.name, source))
    listed = {front_of(line) for line in manual.reported_lines()}
    checks.same("%s: lines missing in the source" % manual.name, sorted(listed - said), [])
    checks.same("%s: lines missing in the manual" % manual.name,
                sorted({front_of(it) for it in reported} - UNREACHED - listed), [])


def entries_of(manual, shared):
    """Returns the diagnostics of a manual, each with its lines. Those of an entry that refers to the shared manual are
    followed by the lines of the entry there."""
    common = {plain(words): lines for words, lines in shared.items("DIAGNOSTICS")}
    return {plain(words): lines + common.get(plain(words), []) * (".Xr %s 7 ." % shared.name in lines)
            for words, lines in manual.items("DIAGNOSTICS")}


def check_printed(checks, manual, shared):
    """Checks that the manual, or the shared one, has each text that the program prints for an error. The lists of
    second lines have no other. Each entry has at least two sentences: the cause and a remedy."""
    texts, values = printed(manual.name)
    errors = {shape(it) for it in re.findall(r'#\[error\("([^"]+)"', code_of(ERRORS[manual.name]))}
    errors -= UNPRINTED[manual.name]
    entries = entries_of(manual, shared)
    nested = {name: [it for it, _ in nested_items(lines)] for name, lines in entries.items()}
    checks.same("%s: texts are found" % manual.name, (len(texts) > 3, len(errors) > 1), (True, True))
    checks.same("%s: unknown values that are printed" % manual.name, sorted(values - VALUES), [])
    listed = {*entries, *(it for lines in nested.values() for it in lines), USAGE_TEXT, *UNREACHED}
    values_of_file = {it for it in texts if it.startswith("-f takes ")}
    checks.same("%s: printed texts missing in the manual" % manual.name,
                sorted((texts | errors) - listed - values_of_file), [])
    extra = {name: sorted(set(nested[name]) - texts) for name in SECOND_LINES if name in nested}
    checks.same("%s: second lines that are not printed" % manual.name, {name: it for name, it in extra.items() if it},
                {})
    ends = {name: sum(line.endswith((".", ":")) for line in lines) for name, lines in entries.items()}
    checks.same("%s: entries without a remedy" % manual.name,
                [it for it, count in ends.items() if count < 2 and it != "listening on {}"], [])


def check_hindrances(checks, manual):
    """Checks that the second lines of a client that cannot connect are those of the source."""
    text = "\n".join(next(lines for words, lines in manual.items("DIAGNOSTICS") if words == ["cannot", "connect"]))
    causes = re.search(r"(?ms)^pub enum ConnectError \{.*?^\}", source_of(["coap_sockets/src/io_results.rt"]))
    wanted = re.findall(r'#\[error\("([^"]+)"\)\]', causes[0])
    checks.same("%s: errors of a connection" % manual.name, re.findall(r"(?m)^\.It (.*)", text), wanted)


def check_causes(checks, manual):
    """Checks that the manual has the words for each cause of an end that the source has, except for ends that no run
    has."""
    text = " ".join(manual.rendered()[1].split())
    source = source_of(["coap_client_engine/src/cause_line.rt"])
    for words in re.findall(r'(?:=>|\{)\s+"([^"]+)"', source):
        checks.same("%s: %r" % (manual.name, words), words.strip() in text, words not in UNREACHED)


# Files with the texts of a log, patterns that find these texts, and their number at least.
LOGS = {
    "coap-server": (["program_server_common/src/log.rt", "program_server_common/src/reasons.rt"], 23,
                    [r'Reason::\w+(?:\(_\))? => "([^"]+)"', r'warn\(id, "([^"]+)"',
                     r'"(connections not accepted[^"]*|failed waits)"', r'(?m)^ +(?:return )?"([^"]+)";?$']),
    "coap-client": (["program_client/src/logged.rt", "coap_log/src/log*.rt"], 10,
                    [r'line\.text\("([^"]+)"', r'connection_line\(number, "([^"]+)"',
                     r'text_line\((?:self\.)?number, "([^"]+)"']),
}


def check_log(checks, shared, name):
    """Checks that the sections on the log in the shared manual have each text of the log of a program."""
    said = " ".join((shared.part("LOG") + shared.part("REASONS")).split())
    files, fewest, patterns = LOGS[name]
    texts = [text for pattern in patterns for text in re.findall(pattern, source_of(files))]
    checks.same("%s: number of texts of the log" % name, len(texts) >= fewest, True)
    for words in texts:
        checks.same("%s: log: %r" % (name, words), words.strip(" :;") in said, True)


def check_reasons(checks, shared):
    """Checks that the shared manual has the number and the text of each reason of the source."""
    numbers = re.findall(r"(?m)^ +Reason::(\w+)(?:\(_\))? => (\d+),", source_of(["coap_conn/src/reason.rt"]))
    source = source_of(["program_server_common/src/reasons.rt"])
    texts = dict(re.findall(r'Reason::(\w+)(?:\(_\))? => "([^"]+)"', source))
    items = " , ".join(" ".join(words) for words, _ in shared.items("REASONS"))
    listed = re.findall(r"(\d+) (.+?)(?= , |$)", items)
    checks.same("reasons", sorted(listed), sorted((number, texts[name]) for name, number in numbers))


def check_faults(checks, manual, program, faults):
    """Checks that each error is reported with the line and the status of the manual."""
    statuses = manual.reported_lines()
    for words, stream, line in faults:
        status, _, error = run([program] + words, stream)
        reported = error.startswith("%s: %s" % (manual.name, front_of(line)))
        checks.same("%s %r: %r and the status" % (manual.name, words, line), (reported, status), (True, statuses[line]))
