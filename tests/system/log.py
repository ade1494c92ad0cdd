#!/usr/bin/env python3
"""Checks the lines that both programs write with `--log`, and that no log delays or ends a server.

    tests/system/log.py bin/coap-server bin/coap-client [NAME ..] [--connections N] [--messages N]

A NAME selects a check, such as `stdio` for check_stdio; without a NAME all checks run. N connections (100,000 by
default) are opened and closed with `--log 2`, and N random messages (100,000) are sent with `--log 3`.
"""

import os
import subprocess
import sys

HERE = os.path.dirname(os.path.abspath(__file__))
sys.path[:0] = [os.path.join(HERE, "..", "harness"), os.path.join(HERE, "log")]
from checks import Checks  # noqa: E402
from client_lines import check_client, check_client_ends  # noqa: E402
from limited_lines import check_last_lines, check_printable, check_rate, check_step_back  # noqa: E402
from log_outputs import check_memory, check_standard_error, check_terminal  # noqa: E402
from passed_messages import check_parts, check_wraps  # noqa: E402
from server_lines import check_idle, check_levels, check_lines, check_stdio, check_stops, check_warnings  # noqa: E402

CHECKS = [
    check_levels, check_lines, check_warnings, check_idle, check_step_back, check_standard_error, check_terminal,
    check_stdio, check_stops, check_wraps, check_parts, check_last_lines, check_client, check_client_ends, check_memory,
    check_rate, check_printable,
]


def main(chosen):
    checks, counts = Checks(), {}
    for option, check in (("--connections", check_rate), ("--messages", check_printable)):
        if option in chosen:
            at = chosen.index(option)
            counts[check] = [int(chosen[at + 1])]
            del chosen[at : at + 2]
    for check in CHECKS:
        if not chosen or check.__name__.removeprefix("check_") in chosen:
            try:
                check(checks, *counts.get(check, []))
            except (OSError, ValueError, IndexError, subprocess.SubprocessError) as trouble:
                checks.same(check.__name__, repr(trouble), "no trouble")
    return checks.end()


if __name__ == "__main__":
    sys.exit(main(sys.argv[3:]))
