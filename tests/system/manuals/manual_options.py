"""Compares the options of a manual, their ranges, defaults, values and clashes, with install/options.tsv."""

import re

from manual_pages import nested_items, plain, run
from manual_sources import code_of, source_of
from option_table import bounds, clashes, option, options_of, reason

# The options that each program has last.
LAST = [("--help", ""), ("--version", "")]


def check_synopsis(checks, manual):
    """Checks that the synopsis has the options of the table with the names of their values, in the same order."""
    wanted = [(it.name, it.value) for it in options_of(manual.name) if it.names]
    called = [(name, value.upper()) for name, value in manual.called_with()]
    checks.same("%s: options of the synopsis" % manual.name, called, wanted[:-len(LAST)] + LAST)


def has_default(text, default):
    """Returns true if a text names this default, or without a default none."""
    if not default:
        return not re.search("default is|the default", text)
    shown = re.escape({"-": "a hyphen"}.get(default, default))
    return bool(re.search(rf"default is {shown}(?![.,]?\w)|(?<![\w.,]){shown}(?:, | \()the default", text))


def has_range(text, program, it):
    """Returns true if a text has the range of an option, or refers to `coap-server`, whose option has the same."""
    if re.search(r"\b[Aa]s in coap-server", text):
        return it.allowed == option("coap-server", it.name).allowed
    return not (found := bounds(program, it)) or re.search(r"(?<!\d)%d to %d(?!\d)" % found, text) is not None


def check_options(checks, manual):
    """Checks that the manual describes the options of the table in the same order, with their ranges and defaults. An
    item of several options has their defaults together."""
    rows = {name: it for it in options_of(manual.name) for name in it.names}
    described = [(name, value.upper()) for named, _ in manual.options() for name, value in named]
    checks.same("%s: options" % manual.name, described, [(name, it.value) for name, it in rows.items()])
    for named, text in manual.options():
        text = re.sub(r"(?<=\d),(?=\d{3})", "", text)
        its = [rows[name] for name, _ in named if name in rows]
        for it in its:
            checks.same("%s: range of %s in %r" % (manual.name, it.name, text), has_range(text, manual.name, it), True)
        defaults = [it.default for it in its]
        if len(its) > 1 and all(defaults):
            reported = "by default %s and %s" % (", ".join(defaults[:-1]), defaults[-1]) in text
        else:
            reported = all(has_default(text, it) for it in defaults)
        checks.same("%s: defaults %s in %r" % (manual.name, defaults, text), reported, True)


def nested_in(manual, line):
    """Returns the nested list in the entry of a diagnostic: the items with their texts."""
    return nested_items(next((lines for words, lines in manual.items("DIAGNOSTICS") if plain(words) == line), []))


def check_refusals(checks, manual):
    """Checks the second lines for values that an option does not take, and for options that exclude each other."""
    wanted = [(it.name, reason(it, "n")) for it in options_of(manual.name) if it.allowed]
    checks.same("%s: values of options" % manual.name, nested_in(manual, "bad value for {}"), wanted)
    listed = [it for it, _ in nested_in(manual, "options exclude each other")]
    checks.same("%s: options that exclude each other" % manual.name, sorted(listed), sorted(clashes(manual.name)))


def check_formats(checks, manual):
    """Checks that the named Content-Formats are those of the source and of the table."""
    _, lines = next(item for item in manual.items("DESCRIPTION") if item[0][:2] == ["Fl", "t"])
    named = re.findall(r"\.Dq (\S+)\n\((\d+)\)", "\n".join(lines))
    source = source_of(["coap_command_line/src/arguments/client.rt"])
    checks.same("content formats", named, re.findall(r'\("(\w+/\S+)", (\d+)\)', source))
    for name in ("-t", "-A"):
        checks.same("content formats of %s" % name, [it for it, _ in named], list(option(manual.name, name).words))


def parts_of(texts):
    """Returns the parts of texts around their values."""
    return {part.strip() for text in texts for part in text.split("{}") if part.strip()}


# URIs that are no targets: at least one for each second line.
BAD_TARGETS = ["x", "coap+tcp://a:99999/", "coap+tcp://[fe80::1%eth0]/", "coap://a/", "coaps+tcp://a/", "coap+tcp:///a",
               "coap+tcp://a@b/", "coap+tcp://a/#b", "coap+tcp://a/" + "b" * 256, "coap+tcp://a" + "/b" * 17]


def check_targets(checks, manual, program):
    """Checks the second lines for URIs that are no targets, each after the number of the first line."""
    texts = re.findall(r'(?<!b)"([^"\n]+)"', code_of(["coap_command_line/src/arguments/reasons/targets.rt"]))
    lines = next(lines for words, lines in manual.items("DIAGNOSTICS") if plain(words) == "bad target {}")
    listed = [tuple(it.split(" ", 1)) for it, _ in nested_items(lines)]
    checks.same("%s: second lines of bad targets" % manual.name, parts_of(it for _, it in listed),
                {it.strip() for it in texts})
    seen = set()
    for uri in BAD_TARGETS:
        first, second = run([program, uri])[2].splitlines()
        found = [it for it in listed if re.fullmatch("%s: %s" % (manual.name, re.escape(it[1]).replace(r"\{\}", ".*")),
                                                     second)]
        checks.same("%s: the number and the line for %r" % (manual.name, uri), [it for it, _ in found],
                    [first.split()[-1]])
        seen.update(found)
    checks.same("%s: second lines of no URI" % manual.name, sorted(set(listed) - seen), [])
