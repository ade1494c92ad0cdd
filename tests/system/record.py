#!/usr/bin/env python3
"""Checks records: `--script` replays the record of a server, and gives the bytes that each of its peers received.

    tests/system/record.py bin/coap-server bin/coap-client [NAME ..] [--messages N]

A NAME selects a check, such as `limit` for check_limit; without a NAME all checks run. The largest check has 64 peers
at one server at the same time: well-behaved ones, observers, slow readers, hostile ones, and some that break off. The
server accepts at least N messages (100,000 by default).
"""

import os
import subprocess
import sys
import time

HERE = os.path.dirname(os.path.abspath(__file__))
sys.path[:0] = [os.path.join(HERE, "..", "harness"), os.path.join(HERE, "record")]
from checks import Checks  # noqa: E402
from crowds import check_killed, check_peers  # noqa: E402
from ended_records import check_blocked, check_full, check_limit  # noqa: E402
from record_files import check_file, check_header, check_output  # noqa: E402
from record_modes import check_memory, check_modes, check_streams, check_waiting  # noqa: E402

CHECKS = [
    check_header, check_peers, check_killed, check_file, check_output, check_limit, check_full, check_blocked,
    check_streams, check_waiting, check_modes, check_memory,
]


def main(words):
    checks, server, chosen, more = Checks(), os.path.abspath(words[0]), words[2:], {}
    if "--messages" in chosen:
        at = chosen.index("--messages")
        more["check_peers"] = int(chosen[at + 1])
        del chosen[at : at + 2]
    for check in CHECKS:
        if not chosen or check.__name__.removeprefix("check_") in chosen:
            began = time.monotonic()
            try:
                check(checks, server, *([more[check.__name__]] if check.__name__ in more else []))
            except (OSError, ValueError, IndexError, KeyError, subprocess.SubprocessError) as trouble:
                checks.same(check.__name__, repr(trouble), "no trouble")
            print("%s: %.1f s" % (check.__name__.removeprefix("check_"), time.monotonic() - began), flush=True)
    return checks.end("record")


if __name__ == "__main__":
    sys.exit(main(sys.argv[1:]))
