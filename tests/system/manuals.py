"""Compares the manuals with the programs, their sources and install/options.tsv: form, options, statuses, lines and
examples.

    tests/system/manuals.py bin/coap-server bin/coap-client bin/coap-explain bin/coap-directory

The script needs Debian's packages mandoc and socat, and installs the missing ones.
"""

import contextlib
import os
import sys
import tempfile

HERE = os.path.dirname(os.path.abspath(__file__))
sys.path[:0] = [os.path.join(HERE, "..", "harness"), os.path.join(HERE, "manuals")]
from checks import Checks  # noqa: E402
from manual_examples import (  # noqa: E402
    SHARED, SHARED_SECTIONS, check_answered, check_examples, check_form, check_record, check_references, check_relay,
    check_sentences, check_signal,
)
from manual_lines import (  # noqa: E402
    check_causes, check_faults, check_hindrances, check_lines, check_log, check_printed, check_reasons,
    check_statuses, client_faults, directory_faults, explain_faults, server_faults,
)
from manual_options import (  # noqa: E402
    check_formats, check_options, check_refusals, check_synopsis, check_targets,
)
from manual_pages import Manual  # noqa: E402
from manual_sources import SOURCES, source_of  # noqa: E402
from packages import require  # noqa: E402
from peers import closed_port  # noqa: E402

PACKAGES = {"mandoc": "mandoc", "socat": "socat"}


@contextlib.contextmanager
def named_programs(**programs):
    """Yields a folder in which the programs have their names, whatever the names of the files are."""
    with tempfile.TemporaryDirectory() as folder:
        for name, program in programs.items():
            os.symlink(program, os.path.join(folder, "coap-%s" % name))
        yield folder


def check_shared(checks, shared, programs):
    """Checks the manual of section 7."""
    check_form(checks, shared, SHARED_SECTIONS)
    check_references(checks)
    check_log(checks, shared, "coap-server")
    check_log(checks, shared, "coap-client")
    check_reasons(checks, shared)
    check_record(checks, shared, programs)


def check(server, client, explain, directory):
    checks, shared = Checks(), Manual(SHARED, 7)
    with closed_port() as port, named_programs(server=server, client=client, explain=explain,
                                               directory=directory) as programs:
        for name, program, faults in (
            ("coap-server", server, server_faults(port)),
            ("coap-client", client, client_faults(port)),
            ("coap-explain", explain, explain_faults(port)),
            ("coap-directory", directory, directory_faults(port)),
        ):
            manual = Manual(name)
            source = source_of(SOURCES[name])
            check_form(checks, manual)
            check_synopsis(checks, manual)
            check_options(checks, manual)
            check_refusals(checks, manual)
            check_statuses(checks, manual, source)
            check_lines(checks, manual, source)
            check_printed(checks, manual, shared)
            check_sentences(checks, manual)
            check_faults(checks, manual, program, faults)
            check_examples(checks, manual, programs)
        check_options(checks, Manual("coap-mqtt"))
        check_formats(checks, Manual("coap-client"))
        check_hindrances(checks, Manual("coap-client"))
        check_targets(checks, Manual("coap-client"), client)
        check_signal(checks, server)
        check_causes(checks, Manual("coap-client"))
        check_answered(checks, Manual("coap-client"), server, ["-d", "100"], programs)
        check_answered(checks, Manual("coap-directory"), directory, [], programs)
        check_relay(checks, Manual("coap-client"), server, programs)
        check_shared(checks, shared, programs)
    return checks.end("manuals")


def main(words):
    require(PACKAGES)
    return check(*(os.path.abspath(word) for word in words))


if __name__ == "__main__":
    sys.exit(main(sys.argv[1:]))
