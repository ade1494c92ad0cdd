"""Runs checks of gateways to MQTT and counts them, and has texts and functions that several of them need."""

import collections
import concurrent.futures
import os
import random
import subprocess
import time

from checks import Checks, part_of
from gateways import CONTENT, FAULTS, GET, LIMIT, PREFIX
from packages import require
from workspace import ROOT

PACKAGES = {
    "mosquitto": "mosquitto", "mosquitto_pub": "mosquitto-clients", "/usr/include/mosquitto.h": "libmosquitto-dev",
    "gcc": "gcc", "valgrind": "valgrind", "mandoc": "mandoc", "haproxy": "haproxy", "openssl": "openssl",
    "systemd-analyze": "systemd",
}

SOURCES = os.path.join(ROOT, "gateway", "mqtt")

SANITIZED = ["-g", "-O1", "-fsanitize=address,undefined", "-fno-sanitize-recover=all", "-fno-omit-frame-pointer"]

# With the installed interval of 1, the disk would decide how many writes there are in a second.
SELDOM = [("autosave_interval 1", "autosave_interval 100")]

BYTES = [
    ("text", 0, b"21.5"), ("json", 50, b'{"a": 1}'), ("none", None, b"no format"), ("empty", None, b""),
    ("empty_text", 0, b""), ("zero", 42, b"\0"), ("binary", 42, bytes(range(256)) * 3),
    ("large", 65535, random.Random(52).randbytes(60_000)), ("full", 42, bytes(65_000)), ("a/b//c", 0, b"deep"),
]

FakeSetting = collections.namedtuple("FakeSetting", ["port", "folder"])


def run(words, limit=LIMIT, **how):
    return subprocess.run(words, stdin=subprocess.DEVNULL, capture_output=True, text=True, timeout=limit, **how)


def write_file(path, text, mode=0o644):
    os.makedirs(os.path.dirname(path), exist_ok=True)
    with open(path, "w", encoding="utf-8") as file:
        file.write(text)
    os.chmod(path, mode)


def state_of(peer, names):
    """Returns the resources with these names."""
    tokens = {name: peer.send(GET, f"{PREFIX}/{name}") for name in names}
    found = {name: peer.wait(token) for name, token in tokens.items()}
    return {name: it.payload for name, it in found.items() if it and it.code == CONTENT}


def made(check, program):
    """Runs a check, prints its counts and returns them. An exception counts as a failure."""
    began, checks = time.monotonic(), Checks()
    try:
        check(checks, program)
    except Exception as trouble:  # noqa: BLE001
        checks.same("%s runs to its end" % check.__name__, repr(trouble), None)
    checks.same("%s: gateways that did not end with status 0" % check.__name__, FAULTS.found, [])
    FAULTS.found.clear()
    # One write, so that the lines of checks that run at once stay whole.
    counts = (check.__name__, checks.passed, checks.failed, time.monotonic() - began)
    print("%s: %d passed, %d failed, %.1f s\n" % counts, end="", flush=True)
    return checks


def made_at_once(checks, program):
    """Runs checks at once, and returns their counts together."""
    total = Checks()
    with concurrent.futures.ThreadPoolExecutor(len(checks)) as pool:
        for found in pool.map(made, checks, [program] * len(checks)):
            total.add(found)
    return total


def main(listed, words):
    """Runs the checks of a list, or those that the command line names. Those of a list in the list run at once. Returns
    the exit status."""
    require(PACKAGES)
    # The archive is not built again, since that would prove all libraries anew after `rt ci`.
    make = ["make", "-C", ROOT, "--silent", "-o", "bin/libdachreup.a", "bin/coap-mqtt"]
    if words in ([], ["--build"]) and subprocess.run(make).returncode:
        print("coap-mqtt is not built\n0 passed, 1 failed")
        return 1
    if words == ["--build"]:
        return 0
    chosen, total = [it if isinstance(it, list) else [it] for it in part_of(listed, words)], Checks()
    program, names = os.path.abspath(words[0] if words else f"{ROOT}/bin/coap-mqtt"), words[1:]
    if unknown := sorted(set(names) - {it.__name__ for checks in chosen for it in checks}):
        print("there is no check %s\n0 passed, 1 failed" % ", ".join(unknown))
        return 1
    for checks in chosen:
        named = [it for it in checks if not names or it.__name__ in names]
        total.add(made_at_once(named, program) if named else Checks())
    return total.end()
