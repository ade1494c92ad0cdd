#!/usr/bin/env python3
"""Runs both programs over real sockets, with each other and with peers of this script.

    tests/system/sockets.py bin/coap-server bin/coap-client [NAME ..]

A NAME selects a check, such as `files` for check_files; without a NAME all checks run. The script does not sleep if it
can wait for a line or a connection. tests/system/interop.py uses libcoap's programs, and tests/system/hostile.py has
hostile peers.
"""

import os
import subprocess
import sys
import time

HERE = os.path.dirname(os.path.abspath(__file__))
sys.path[:0] = [os.path.join(HERE, "..", "harness"), os.path.join(HERE, "sockets")]
from addresses import check_address, check_addresses, check_reserved, check_timeouts  # noqa: E402
from checks import Checks  # noqa: E402
from client_ends import check_causes, check_connecting, check_ended, check_flooded_client, check_silent  # noqa: E402
from descriptors import check_alive, check_closed, check_room  # noqa: E402
from exchanges import (  # noqa: E402
    check_bodies, check_observers, check_recorded, check_requests, check_tokens, check_versions,
)
from server_connections import check_close, check_connections, check_files, check_sleepers, check_urgent  # noqa: E402


class Programs:
    """The two programs under test."""

    def __init__(self, server, client_program):
        self.server, self.client = os.path.abspath(server), os.path.abspath(client_program)


CHECKS = [
    check_requests, check_tokens, check_observers, check_bodies, check_connecting, check_ended, check_causes,
    check_silent, check_address, check_reserved,
    check_files, check_close, check_flooded_client, check_addresses, check_closed, check_urgent, check_timeouts,
    check_connections, check_versions, check_room,
    check_alive, check_sleepers, check_recorded,
]


def main(words):
    checks = Checks()
    programs = Programs(*words[:2])
    chosen = [it for it in CHECKS if not words[2:] or it.__name__.removeprefix("check_") in words[2:]]
    for check in chosen:
        began = time.monotonic()
        try:
            check(checks, programs)
        except (OSError, ValueError, IndexError, subprocess.SubprocessError) as trouble:
            checks.same(check.__name__, repr(trouble), "no trouble")
        print("%s: %.1f s" % (check.__name__.removeprefix("check_"), time.monotonic() - began), flush=True)
    return checks.end("sockets")


if __name__ == "__main__":
    sys.exit(main(sys.argv[1:]))
