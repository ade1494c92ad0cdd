#!/usr/bin/env python3
"""Builds programs in C over the C library, and runs them.

    tests/system/c_library.py bin/coap-server bin/coap-client [bin/libdachreup.a]
    tests/system/c_library.py --archive     only builds the archive

Without an archive, bin/libdachreup.a is built from crates/c_api over the libraries that the proofs left in
out/rlib. The data of this proof of c_api go to out/incremental, if that is missing, so that its mutants need not
prove it again. The programs are compiled as strict C11 without warnings, and run with AddressSanitizer and
UndefinedBehaviorSanitizer, and under valgrind. The sanitizers see each allocation and each leak of the library, but not
its own loads and stores; valgrind sees those too. The constants of the header are those of the specs. Recorded streams
through the library give the bytes of `coap-server --stdio`, and scripts with several connections the lines of
`coap-server --script`. A client and a server of the library exchange messages. Frames are written as they were read.
Each allocation fails in turn, and nothing is lost then. Wrong uses are reported by their numbers. Lists of segments
name the paths of texts, and others. Random changes have output on the connections that `next_output` yields. Pointers
of no bytes are NULL. The smallest server and client have the bytes that the header states, also from a static pool.
The examples have few lines, and talk to each other, to the programs and to libcoap's. They compile as C++17 too. A
program with libcoap's library too gets the same bytes. The last line is 'N passed, M failed', and the status is 0 if M
is 0.

The script needs Debian's packages g++, gcc, libcoap3-bin, libcoap3-dev, pkg-config and valgrind, and installs the
missing ones.
"""

import os
import sys
import tempfile

HERE = os.path.dirname(os.path.abspath(__file__))
sys.path[:0] = [os.path.join(HERE, "..", "harness"), os.path.join(HERE, "c_library")]
import packages  # noqa: E402
from archive import build_archive  # noqa: E402
from c_beside import check_client, check_libcoap, check_socketpair  # noqa: E402
from c_examples import check_example  # noqa: E402
from c_header import check_memory, check_names, check_texts  # noqa: E402
from c_messages import check_messages, check_pair, check_wraps  # noqa: E402
from c_programs import PROCESSORS, build, check_ended  # noqa: E402
from c_pool import check_pool  # noqa: E402
from c_streams import CHANGES, check_allocations, check_changes, check_scripts, check_streams  # noqa: E402
from checks import Checks, side_by_side  # noqa: E402

PACKAGES = {"coap-client-notls": "libcoap3-bin", "coap-server-notls": "libcoap3-bin", "g++": "g++", "gcc": "gcc",
            "/usr/include/coap3/coap.h": "libcoap3-dev", "pkg-config": "pkg-config", "valgrind": "valgrind"}


def runs(made, server, client, archive, room):
    """Returns all runs of the built programs, which are independent of each other."""
    def both(name):
        return [made[name, "sanitized"], made[name, "valgrind"]]
    large, modes = ["stdio", "65536", "65536", "131072", "16", "65536"], ("application", "changes", "lists", "wrong")
    pairs = (("sanitized", "1"), ("valgrind", "7"), ("sanitized", "60000"))
    output = (["steps"], *(["random", str(seed)] for seed in range(1, 6)))
    return [
        (check_client, [*both("client"), made["client", "c++"]], server, *made["server", "sanitized"]),
        (check_example, [*both("server"), made["server", "c++"]], client),
        *((check_socketpair, made["socketpair", way]) for way in ("sanitized", "valgrind", "c++", "pooled")),
        (check_pool, made, large, CHANGES),
        *((check_memory, words) for words in both("memory")),
        *((check_ended, words) for words in (*both("habits"), made["habits", "c++"])),
        *((check_ended, [*words, *mode]) for mode in output for words in both("output")),
        (check_scripts, both("script"), server),
        (check_streams, *made["driver", "sanitized"], server),
        (check_allocations, [*made["driver", "failing"], *large], CHANGES),
        (check_allocations, [*made["driver", "failing"], "application"], b""),
        (check_allocations, [*made["pair", "failing"], "pair", "9"], b""),
        (check_messages, both("pair")),
        *((check_pair, [*made["pair", way], "pair", size]) for way, size in pairs),
        *((check_ended, [*words, mode]) for mode in modes for words in both("driver")),
        *((check_ended, [*words, "wrong"]) for words in both("pair")),
        (check_changes, made["driver", "valgrind"]),
        *((check_wraps, words) for words in both("pair")),
        (check_libcoap, archive, *made["driver", "plain"], room),
        (check_names, archive),
        (check_texts,),
    ]


def main(server, client=None, archive=None):
    if server == "--archive":
        print(build_archive())
        return 0
    checks = Checks()
    checks.same("packages can be installed", packages.install(PACKAGES), True)
    with tempfile.TemporaryDirectory(prefix="c-library-") as room:
        archive = archive or build_archive()
        made = build(checks, archive, room)
        checks.add(side_by_side(runs(made, server, client, archive, room), PROCESSORS))
    return checks.end()


if __name__ == "__main__":
    sys.exit(main(*sys.argv[1:]))
