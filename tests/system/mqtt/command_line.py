"""Checks the options of coap-mqtt, and its manual with its example."""

import os
import re
import socket

from gateway_checks import run
from gateways import soon
from option_checks import Program, check_program
from peers import LOCAL, accepts, free_port, started
from workspace import ROOT

BAD_OPTIONS = [
    ["-p", "x"], ["-p", "1", "-p", "1"], ["-A", "localhost"], ["--id", "-1"], ["--stale", "x"], ["--prefix", "a/.."],
    ["--prefix", "$a"], ["--prefix", "time"], ["--prefix", ".well-known/core"], ["--queue", "1152"],
    ["--username", "x", "--password-file", "/no"], ["--unknown"], ["word"],
]


def check_options(checks, program):
    """Checks the command line."""
    helped, version = run([program, "--help"]), run([program, "--version"])
    checks.same("--help", (helped.returncode, helped.stderr, helped.stdout.startswith("Usage: coap-mqtt")),
                (0, "", True))
    with open(f"{ROOT}/VERSION", encoding="ascii") as file:
        checks.same("--version", (version.returncode, version.stdout), (0, f"coap-mqtt {file.read().strip()}\n"))
    for words in BAD_OPTIONS:
        done = run([program, *words])
        checks.same(f"bad options {words}", (done.returncode, len(done.stderr.splitlines())), (1, 1))
    with socket.create_server((LOCAL, 0)) as other:
        done = run([program, "-A", LOCAL, "-p", str(other.getsockname()[1])])
        checks.same("a port in use", (done.returncode, "cannot listen" in done.stderr), (3, True))


def check_table_of_options(checks, program):
    """Compares the command line with the table of options."""
    check_program(checks, Program("coap-mqtt", program, 0))


def check_manual(checks, _):
    """Checks the form of the manual."""
    linted = run(["mandoc", "-Tlint", "-Wall", f"{ROOT}/man/coap-mqtt.1"])
    checks.same("mandoc", [it for it in linted.stdout.splitlines() if "not found" not in it], [])


def check_example(checks, program):
    """Runs the example of the manual with other ports. Waits for each gateway, and for the change at the second one."""
    text = re.sub(r".\x08", "", run(["mandoc", "-T", "ascii", f"{ROOT}/man/coap-mqtt.1"]).stdout)
    lines = re.findall(r"(?m)^ {11,}(\S.*)$", text.partition("\nEXAMPLES\n")[2].partition("\nSEE ALSO\n")[0])
    commands, shown = [it[2:] for it in lines if it.startswith("$ ")], [it for it in lines if not it.startswith("$ ")]
    checks.same("the example has commands and output", (len(commands), len(shown)), (5, 2))
    broker, one, two = free_port(), free_port(), free_port()
    replaced = {"5701": str(one), "5702": str(two), "coap-mqtt ": f"coap-mqtt --broker-port {broker} ",
                "mosquitto_sub ": f"mosquitto_sub -p {broker} "}
    script = "trap 'kill $(jobs -p)' EXIT\n"
    for command in commands:
        for old, new in replaced.items():
            command = command.replace(old, new)
        if command.endswith("&"):
            port = re.search(r" -p (\d+) ", command)[1]
            command += f"\nuntil coap-client coap+tcp://{LOCAL}:{port}/ >&2; do sleep 0.1; done"
        script += command + ("\nsleep 1\n" if "put" in command else "\n")
    own = {**os.environ, "PATH": f"{os.path.dirname(program)}:{os.environ['PATH']}"}
    with started(["mosquitto", "-p", str(broker)]):
        checks.same("the broker listens", soon(lambda: accepts(broker), True), True)
        done = run(["bash", "-eu", "-c", script], env=own)
    checks.same("the example", (done.returncode, done.stdout.rstrip()), (0, "".join(shown)))
