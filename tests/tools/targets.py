#!/usr/bin/env python3
"""Checks that documents have the numbers of sources, and docs/PERFORMANCE.md the targets of bench:

    tests/tools/targets.py

An entry of TARGETS has a script, a line of it that sets targets, and texts of the document, in which N is any number.
The script must have the line, and the document the texts: so whoever changes one must change the other. In a script,
each name of a target must be in an entry. An entry of NUMBERS has a source, a text of it, a document and a text of it,
likewise. The last line is 'N passed, M failed'; each entry and each script counts once.
"""

import os
import re
import sys

sys.path.insert(0, os.path.join(os.path.dirname(os.path.abspath(__file__)), "..", "harness"))
from commands import read  # noqa: E402
from workspace import ROOT  # noqa: E402

DOCUMENT = "docs/PERFORMANCE.md"

TARGETS = [
    ("throughput", "TARGETS = {(1, 1): 1.0, (1, 16): None, (1, 128): 3.0, (16, 16): 3.0, (64, 16): 5.0}",
     ["| 1×1 | 1.0 |", "| 1×16 | | N |", "| 1×128 | 3.0 |", "| 16×16 | 3.0 |", "| 64×16 | 5.0 |"]),
    ("throughput", "SHARES = {(1, 16): 0.80, (1, 128): None, (16, 16): 0.75, (64, 16): 0.75}",
     ["| 1×16 | | N | 0.80 |", "| 1×128 | 3.0 | N | |", "| 16×16 | 3.0 | N | 0.75 |",
      "| 64×16 | 5.0 | N | 0.75 |"]),
    ("throughput", "SHARE_VARIES, P99_VARIES = 0.10, 0.25", ["A share may be 10 % lower and a p99 25 % higher"]),
    ("record", "TARGET = 0.5", ["The target is 0.5."]),
    ("gateway", "COUNT, WINDOW, ROUNDS, TARGET, LIMIT = 20_000, 16, 7, 0.7, 60", ["the target is 0.7"]),
    ("gateway", "IDLE, IDLE_TIMES = (0, 255), 1.2", ["255 idle peers costs N times as much", "the target is 1.2."]),
    ("counting.py", "MISSED_BY = 1.03", ["A count may exceed its target by 3 %"]),
    ("instructions", '("Empty", SERVER, b"", bytes.fromhex("0000"), 468)', ["| Empty message | N | 468 |"]),
    ("instructions", '("Ping", SERVER, b"", bytes.fromhex("01e201"), 450)', ["| Ping | N | 450 |"]),
    ("instructions", '("GET of /", SERVER, b"", bytes.fromhex("010101"), 700)', ["| GET of `/` | N | 700 |"]),
    ("instructions", 'bytes.fromhex("310101b2") + b"50", 1_150)', ["| GET of one of 100 resources | N | 1,150 |"]),
    ("instructions", 'put(b"50", 0x02, b"yz"), 2_000)', ["| PUT answered 2.04, 100 resources | N | 2,000 |"]),
    ("instructions", "ALONE, BESIDE = {16: 800, 1: 1_680}, 1.05",
     ["16 outstanding | N | 800 |", "connections | N | 1.05 times |", "one outstanding | N | 1,680 |"]),
    ("instructions", "STORED_BESIDE = 1.3", ["connections | N | 1.3 times |"]),
    ("instructions", "LIBRARY_MORE = 250", ["program | N | 250 |"]),
    ("instructions", "COPIED_WHOLE, COPIED_READ = 1.1, 2.1",
     ["whole to `Server::take` | N | 1.1 |", "4,096 bytes | N | 2.1 |"]),
    ("instructions", "ROOM = CONNECTIONS * (65_536 + 131_072 + 16_384) + 16 * 1024 * 1024",
     [f"The target is {256 * (65_536 + 131_072 + 16_384) + 16 * 1024 * 1024:,} bytes"]),
    ("events.py", "IDLE_TIMES, IDLE_TICK = 1.3, 500", ["| Target at 255 | | 1.3 times | 500 |"]),
    ("events.py", "PUT_TIMES, TICK_EACH = 1.1, 2", ["1.1 times for a PUT, and 2 instructions of a tick"]),
    ("events.py", "NOTIFIED_EACH, TOLD, CHANGES = 880, 255, 20", ["255 connections | | N | 880 |"]),
    ("events.py", "TOGETHER, TOGETHER_EACH, TOGETHER_TIMES = (16, 64, 255), 1_300, 1.2",
     ["| 1,300; at 255 1.2 times |"]),
    ("events.py", "BESIDE, BESIDE_TIMES = (0, 16, 64, 255), 1.1", ["another resource | N | N | 1.1 times |"]),
    ("drains.py", "WAITING, DRAINS, TIMES = (3, 60), 100, 1.2", ["the target is 1.2 times"]),
    ("drains.py", "FULL, EACH_BYTE = 68, 2", ["more for a byte; the target is 2"]),
    ("directory", "SIZES, SAMPLE, AT_MOST = (1_000, 10_000), 20, 1.3", ["the target is 1.3"]),
]

BUILDER, CONFIGS = "crates/coap_model/src/config/builder.rt", "crates/coap_model/specs/Configs.antt"
LIMITS, SIZES = "crates/coap_conn/specs/Limits.antt", "crates/coap_wire/src/sizes.rt"
PROXY, UNIT = "install/haproxy.cfg", "install/coap-server.service.in"
REQUEST, PATH = "crates/coap_store/src/request.rt", "crates/coap_path/src/path.rt"
READ = "crates/coap_io/src/read_buffer.rt"
COMPARISON, DEPLOYING, GATEWAYS = "docs/COMPARISON.md", "docs/DEPLOYING.md", "docs/GATEWAYS.md"
ARCHITECTURE, DECISIONS, GUARANTEES = "docs/ARCHITECTURE.md", "docs/DECISIONS.md", "docs/GUARANTEES.md"
MODEL, TESTING = "docs/MODEL.md", "docs/TESTING.md"

NUMBERS = [
    (BUILDER, "connections: 16,", COMPARISON, "| Connections of one server | 16 | 256 |"),
    (CONFIGS, "c.connections ≤ 256", COMPARISON, "| Connections of one server | 16 | 256 |"),
    (BUILDER, "dynamic_max: 0,", COMPARISON, "embedding program create | 0 | 1,000 |"),
    (CONFIGS, "c.dynamic_max ≤ 1000", COMPARISON, "embedding program create | 0 | 1,000 |"),
    (SIZES, "LARGEST_MESSAGE: usize = 1_048_576;", COMPARISON, "| Message accepted (bytes) | 65,536 | 1,048,576 |"),
    (SIZES, "LARGEST_SENT_MESSAGE: usize = 65_536;", COMPARISON, "| Message sent (bytes) | 65,536 | 65,536 |"),
    (SIZES, "DEFAULT_QUEUE: usize = 131_072;", COMPARISON, "connection (bytes) | 131,072 | 4,194,304 |"),
    (SIZES, "LARGEST_QUEUE: usize = 4_194_304;", COMPARISON, "connection (bytes) | 131,072 | 4,194,304 |"),
    ("crates/coap_conn/src/limits/builder.rt", "            pending: 16,\n            observers: 16,", COMPARISON,
     "| Observers, and pending responses, of a connection | 16 each | 256 each |"),
    (LIMITS, "l.pending ≤ 256", COMPARISON, "of a connection | 16 each | 256 each |"),
    (LIMITS, "l.observers ≤ 256", COMPARISON, "of a connection | 16 each | 256 each |"),
    ("crates/coap_wire/src/token.rt", "MAX_TOKEN: usize = 64;", COMPARISON, "| Token (bytes) | 64 | 64 |"),
    (TESTING, "| `make run` | 1,025 s |", "README.md", "sessions: 17 to 30 minutes"),
    (TESTING, "| `make run`, a slower machine | 1,322 s |", "README.md", "sessions: 17 to 30 minutes"),
    (TESTING, "| `make test` | 2,328 s |", "README.md", "libcoap: half an hour to 2 hours"),
    ("crates/coap_path/src/applications.rt", "MAX_ENTRIES: usize = 16;", COMPARISON, "for up to 16 prefixes"),
    (PROXY, "sc0_conn_cur gt 32 }", DEPLOYING, "| 32 connections of a source, and 100 in 10 s |"),
    (PROXY, "sc0_conn_rate gt 100 }", DEPLOYING, "| 32 connections of a source, and 100 in 10 s |"),
    (PROXY, "conn_rate(10s)", DEPLOYING, "| 32 connections of a source, and 100 in 10 s |"),
    (PROXY, "timeout client 10s", DEPLOYING, "| `timeout client`, `inspect-delay` | 10 s |"),
    (PROXY, "inspect-delay 10s", DEPLOYING, "| `timeout client`, `inspect-delay` | 10 s |"),
    (PROXY, "timeout tunnel 15m", DEPLOYING, "| `timeout tunnel` | 15 min |"),
    (PROXY, "tcp-ut 1m", DEPLOYING, "| `tcp-ut` | 1 min |"),
    (PROXY, "default-server maxconn 255 ", DEPLOYING, "| `maxconn` of a server | 255 |"),
    (PROXY, "timeout queue 10s", DEPLOYING, "wait up to 10 s (`timeout queue`)"),
    (PROXY, "inter 2s fastinter 500ms fall 3", DEPLOYING, "| the check | every 2 s |"),
    (PROXY, "    maxconn 2000", DEPLOYING, "for `maxconn 2000`"),
    (PROXY, "hard-stop-after 30s", DEPLOYING, "for 30 s (`hard-stop-after`)"),
    (UNIT, "LimitNOFILE=512", DEPLOYING, "the unit allows 512"),
    (UNIT, "RestartSec=5s", DEPLOYING, "systemd restarts it after 5 s"),
    ("install/coap-mqtt.service.in", "MemoryMax=512M", GATEWAYS, "The unit allows 512 MiB"),
    ("crates/program_server_common/src/planned.rt", "REP_MAX: usize = 65_000;", DEPLOYING, "of at most 65,000 bytes"),
    ("crates/coap_model/src/config.rt", "VERSIONS_A_SECOND: u64 = 65_536;", DEPLOYING, "since 1970 times 65,536"),
    (BUILDER, "MAX_TURNS: u64 = 1_000_000_000_000;", DEPLOYING, "10^12 by default"),
    (BUILDER, "MAX_TURNS: u64 = 1_000_000_000_000;", GUARANTEES, "(`--turns`, at most 1,000,000,000,000)"),
    ("crates/coap_client_engine/src/run.rt", "TURNS: u64 = 1_000_000_000_000;", GUARANTEES,
     "`run_client` with status 4 after 1,000,000,000,000"),
    ("crates/coap_wire/src/builder.rt", "MAX_OPTIONS: usize = 40;", GUARANTEES, "at most 40 options"),
    ("crates/coap_wire/src/token.rt", "MAX_TOKEN: usize = 64;", GUARANTEES, "tokens of at most 64 bytes"),
    (READ, "READ_SIZE: usize = 16_384;", ARCHITECTURE, "a read buffer of 16,384 bytes"),
    (READ, "READ_SIZE: usize = 16_384;", ARCHITECTURE, "reads up to 16,384 bytes"),
    (SIZES, "BASE_MESSAGE_SIZE: usize = 1_152;", MODEL, "before it the size is 1,152 bytes"),
    (PATH, "MAX_SEGMENTS: usize = 16;", MODEL, "at most 16 segments and 255 bytes"),
    (PATH, "MAX_BYTES: usize = 255;", MODEL, "at most 16 segments and 255 bytes"),
    (REQUEST, "MAX_DIGITS: usize = 4;", MODEL, "not 1 to 4 digits of at most 3,600"),
    (REQUEST, "MAX_SECONDS: u16 = 3600;", MODEL, "not 1 to 4 digits of at most 3,600"),
    (REQUEST, "USUAL_SECONDS: u32 = 5;", MODEL, "after that many seconds, by default 5"),
    ("crates/coap_client_request/src/target.rt", "DEFAULT_PORT: u16 = 5_683;", MODEL, "port 5683 by default"),
    (CONFIGS, "c.dynamic_max ≤ 1000", DECISIONS, "at most 1,000 paths"),
    (PATH, "MAX_BYTES: usize = 255;", DECISIONS, "A `PathKey` has 255 bytes"),
    ("crates/coap_sockets/src/server_wire.rt", "for _ in 0..64 {", DECISIONS, "at most a mebibyte"),
    ("crates/coap_sockets/src/door.rt", "WRITES_BEFORE_READS: usize = 8;", DECISIONS, "more than eight ready sockets"),
    ("crates/directory_core/src/attributes.rt", "MAX_ATTRIBUTES: usize = 64;", DECISIONS, "at most 64 attributes"),
    ("tests/mutants/mutants.py", "MOST_IN_GATE = 50", TESTING, "at most 50 mutants"),
    ("tests/mutants/mutants.py", "MOST_CRATES = 8", TESTING, "of the 8 crates changed last"),
    ("tests/mutants/changes.py", "MOST_COMMITS = 200", TESTING, "more than 200 commits back"),
    ("tests/system/mqtt_soak.py", "WRITES, SECONDS = 200_000,", TESTING, "200,000 writes through gateways"),
]

# Words of the names of targets in these scripts, as words between underscores.
WORDS = re.compile(r"^([A-Z][A-Z0-9_, ]*) = ", re.M)
OF_TARGETS = {"TARGET", "TARGETS", "SHARES", "VARIES", "TIMES", "EACH", "TICK", "MORE", "COPIED", "ROOM", "ALONE",
              "MISSED"}

# Names that look like those of targets.
OTHERS = {("events.py", "TIMES")}


def wrong(script, line, texts):
    """Yields each text of an entry that the script or the document does not have."""
    if line not in read(ROOT, f"bench/{script}"):
        yield f"bench/{script}: no '{line}'"
    patterns = {it: re.escape(it).replace("\\ N\\ ", r" [\d,.]+ ") for it in texts}
    yield from (f"{DOCUMENT}: no '{it}', for '{line}' of bench/{script}" for it, pattern in patterns.items()
                if not re.search(pattern, read(ROOT, DOCUMENT)))


def wrong_number(source, line, document, text):
    """Yields each text of an entry of NUMBERS that the source or the document does not have."""
    yield from (f"{path}: no '{it}'" for path, it in ((source, line), (document, text)) if it not in read(ROOT, path))


def unlisted(script):
    """Returns the names of targets in a script that are in no entry."""
    listed = " ".join(line for other, line, _ in TARGETS if other == script)
    found = [it for names in WORDS.findall(read(ROOT, f"bench/{script}")) for it in names.split(", ")]
    return [it for it in found if OF_TARGETS.intersection(it.split("_")) and (script, it) not in OTHERS
            and not re.search(rf"\b{it}\b", listed)]


def main():
    passed = failed = 0
    for lines in [*(list(wrong(*it)) for it in TARGETS), *(list(wrong_number(*it)) for it in NUMBERS)]:
        passed, failed = passed + (not lines), failed + bool(lines)
        print("".join(f"{it}\n" for it in lines), end="")
    for script in dict.fromkeys(it for it, _, _ in TARGETS):
        names = unlisted(script)
        passed, failed = passed + (not names), failed + bool(names)
        if names:
            print(f"bench/{script}: targets without an entry: {', '.join(names)}")
    print(f"{passed} passed, {failed} failed")
    return min(failed, 1)


if __name__ == "__main__":
    sys.exit(main())
