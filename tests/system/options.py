"""Compares the programs with install/options.tsv: their help, values and lines for others, and the words that shells
complete.

    tests/system/options.py bin/coap-server bin/coap-client bin/coap-explain bin/coap-directory

tests/system/mqtt.py compares coap-mqtt, and manuals.py the manuals. The script needs Debian's packages fish and zsh,
and installs the missing ones.
"""

import os
import sys

HERE = os.path.dirname(os.path.abspath(__file__))
sys.path[:0] = [os.path.join(HERE, "..", "harness"), os.path.join(HERE, "options")]
from checks import Checks  # noqa: E402
from completed_words import PROGRAMS, check_completions  # noqa: E402
from option_checks import Program, check_program  # noqa: E402
from packages import require  # noqa: E402
from peers import closed_port  # noqa: E402

PACKAGES = {"fish": "fish", "zsh": "zsh"}


def main(words):
    require(PACKAGES)
    checks = Checks()
    with closed_port() as port:
        for name, path in zip(PROGRAMS, words):
            check_program(checks, Program(name, os.path.abspath(path), port))
    check_completions(checks)
    return checks.end("options")


if __name__ == "__main__":
    sys.exit(main(sys.argv[1:]))
