"""Checks numbers and credentials on the command line, and the flags of the build."""

import os
import re
import tempfile

from gateway_checks import run
from gateways import CREATED, PREFIX, PUT, Gateway, Setting
from workspace import ROOT

# Seconds that the compiler has for the gateway beside other steps.
COMPILING = 600

GOOD_NUMBERS = ["65536", "065536", "00000000000000065536"]

BAD_NUMBERS = ["000000000000000065536", "+65536", " 65536", "65536 ", "0x10000", ""]

BAD_OPTIONS = [
    ["--idle", "x"], ["--idle", "-1"], ["--health", "a/.."], ["--health", "shared"], ["--health", "shared/health"],
    ["--health", "time"], ["--health", "time/health"], ["--health", "async"], ["--health", ".well-known"],
    ["--health", ".well-known/core"], ["--prefix", "health"], ["--prefix", "health/a"],
    ["--prefix", "a/b", "--health", "a"],
]


def check_numbers(checks, program):
    """Checks numbers with leading zeros, as coap-server reads them, and values of the options of operation."""
    server = f"{ROOT}/bin/coap-server"
    for texts, wanted in ((GOOD_NUMBERS, [0, 0]), (BAD_NUMBERS, [1, 1])):
        for text in texts:
            lines = [program, "--max-sent", text, "--version"], [server, "--max-sent", text, "--stdio"]
            found = [run(it, errors="replace").returncode for it in lines]
            checks.same(f"the number {text!r}, at the gateway and at the server", found, wanted)
    for words in BAD_OPTIONS:
        done = run([program, *words])
        checks.same(f"bad options {words}", (done.returncode, len(done.stderr.splitlines())), (1, 1))
    with Setting(program, 0) as setting:
        gateway = Gateway(program, setting.broker, setting.folder)
        at = gateway.line.index("-A")
        del gateway.line[at:at + 2]
        with gateway:
            checks.same("the default address", f"listening on 127.0.0.1:{gateway.port}\n" in gateway.log(), True)


def check_credentials(checks, program):
    """Checks files that systemd passes to the gateway."""
    with Setting(program, 0) as setting:
        os.rename(f"{setting.folder}/password", f"{setting.folder}/broker_password")
        given = ["env", f"CREDENTIALS_DIRECTORY={setting.folder}"]
        gateway = Gateway(program, setting.broker, setting.folder, before=given)
        gateway.line[-1] = "credential:broker_password"
        with gateway, gateway.peer() as peer:
            checks.same("a write with a password of systemd", peer.code(PUT, f"{PREFIX}/a", payload=b"a"), CREATED)
        for option in ("--password-file", "--cafile", "--cert", "--key"):
            text = f"coap-mqtt: bad value for {option}: credential:a (systemd passes no credentials)\n"
            done = run([program, option, "credential:a"])
            checks.same(f"{option} without credentials", (done.returncode, done.stderr), (1, text))
            for name in ("", "a/b", "../password", "x" * 600):
                done = run([*given, program, option, f"credential:{name}"])
                wanted = (1, f"coap-mqtt: bad value for {option}: credential:{name}\n")
                checks.same(f"{option} with {name[:20]!r}", (done.returncode, done.stderr), wanted)
        done = run([*given, program, "--username", "a", "--password-file", "credential:no"])
        checks.same("a missing credential", (done.returncode, f"{setting.folder}/no\n" in done.stderr), (1, True))


def check_flags(checks, program):
    """Checks that the program is built without a remark by the flags of a distribution, and how it is protected."""
    with tempfile.TemporaryDirectory(prefix="coap-mqtt-") as folder:
        for name in ("gateway", "include", "crates.txt", "Makefile", "VERSION"):
            os.symlink(f"{ROOT}/{name}", f"{folder}/{name}")
        for name in ("bin", "crates"):
            os.mkdir(f"{folder}/{name}")
        os.symlink(f"{os.path.dirname(program)}/libdachreup.a", f"{folder}/bin/libdachreup.a")
        flags = ["CPPFLAGS=-Wdate-time -D_FORTIFY_SOURCE=3", "CFLAGS=-g -O2 -Werror=format-security"]
        built = run(["make", "-C", folder, "--silent", "-o", "bin/libdachreup.a", "bin/coap-mqtt", *flags],
                    COMPILING)
        checks.same("remarks of the compiler", (built.returncode, built.stderr), (0, ""))
        for of in (program, f"{folder}/bin/coap-mqtt"):
            parts, entries = (run(["readelf", it, "-W", of]).stdout for it in ("-l", "-d"))
            wanted = (r"GNU_STACK .* RW +0x", "GNU_RELRO", "BIND_NOW", "PIE")
            found = [re.search(it, parts + entries) is not None for it in wanted]
            checks.same(f"protections of {of}", found, 4 * [True])
