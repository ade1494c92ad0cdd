#!/usr/bin/env python3
"""Checks the lines that coap-explain prints for records and scripts, its errors, and its memory.

    tests/system/explain.py bin/coap-server bin/coap-explain [--megabytes N] [--messages N] [--scripts N]

The messages of N random scripts (60 by default) are compared with those that the server sends for the same scripts. A
record of N megabytes (50) is explained in constant memory. N random messages (100,000) have escapes, zero bytes and
invalid UTF-8 in every option and in their payloads.
"""

import os
import sys

HERE = os.path.dirname(os.path.abspath(__file__))
sys.path[:0] = [os.path.join(HERE, "..", "harness"), os.path.join(HERE, "explain")]
from checks import Checks  # noqa: E402
from explained_events import (  # noqa: E402
    check_connection, check_record, check_scripts, check_start, check_status, check_times,
)
from explained_files import check_bad_lines, check_files, check_long_lines  # noqa: E402
from live_records import check_failed_allocations, check_live, check_memory  # noqa: E402
from random_records import check_messages, check_random_bytes, check_random_messages  # noqa: E402


def number_after(name, default):
    """Returns the number after an option of this test."""
    return int(sys.argv[sys.argv.index(name) + 1]) if name in sys.argv else default


def main():
    checks = Checks()
    check_record(checks)
    check_scripts(checks)
    check_times(checks)
    check_start(checks)
    check_status(checks)
    check_connection(checks)
    check_bad_lines(checks)
    check_long_lines(checks)
    check_files(checks)
    check_random_bytes(checks)
    check_random_messages(checks, number_after("--messages", 100_000))
    check_messages(checks, number_after("--scripts", 60))
    check_failed_allocations(checks)
    check_live(checks)
    check_memory(checks, number_after("--megabytes", 50))
    return checks.end("explain")


if __name__ == "__main__":
    sys.exit(main())
