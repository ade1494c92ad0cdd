#!/usr/bin/env python3
"""Runs the examples of programs that embed the server or the client:

    tests/system/embedding.py bin/example-gateway bin/example-observer bin/example-actuator \\
        bin/coap-server bin/coap-client

- The gateway: reads its values with coap-client.
- The observer: observes coap-server, and libcoap's server.
- The actuator, which answers requests: passes it lines of messages, and compares the lines that it prints. The command
  of docs/EMBEDDING.md must print what the page shows.

The sensor is a file of this script. Each wait has a timeout.
"""

import os
import re
import signal
import subprocess
import sys
import tempfile

sys.path.insert(0, os.path.join(os.path.dirname(os.path.abspath(__file__)), "..", "harness"))
import packages  # noqa: E402
from checks import Checks  # noqa: E402
from message_syntax import digits  # noqa: E402
from peers import LIMIT, LOCAL, Server, client, free_port, line_of, started  # noqa: E402
from workspace import ROOT  # noqa: E402


# Lines of the client of an actuator, and the line that the actuator prints for each.
CSM, OWN_CSM = "(CSM)", "(CSM max-message-size 65536 extended-token-length 64)"
ACTUATOR = [
    (CSM, OWN_CSM),
    ("(GET /valve token 01)", "(2.05 token 01 content-format 0 | 'closed')"),
    ("(PUT /valve token 02 | 'open')", "(2.04 token 02)"),
    ("(GET /valve token 03 accept 0)", "(2.05 token 03 content-format 0 | 'open')"),
    ("(PUT /valve token 04 content-format 0 if-match - | 'closed')", "(2.04 token 04)"),
    # Each of these changes nothing.
    ("(PUT /valve token 05 | 'ajar')", "(4.00 token 05)"),
    ("(PUT /valve token 06)", "(4.00 token 06)"),
    ("(PUT /valve token 07 content-format 50 | 'open')", "(4.15 token 07)"),
    ("(PUT /valve token 08 if-match 01 | 'open')", "(4.12 token 08)"),
    ("(PUT /valve token 09 if-none-match | 'open')", "(4.12 token 09)"),
    ("(PUT /valve token 0a uri-query 'x' | 'open')", "(4.04 token 0a)"),
    ("(PUT /valve/x token 0b | 'open')", "(4.04 token 0b)"),
    ("(PUT /valve token 0c option 9 - | 'open')", "(4.02 token 0c)"),
    ("(POST /valve token 0d | 'open')", "(4.05 token 0d)"),
    ("(GET /valve token 0e accept 50)", "(4.06 token 0e)"),
    ("(GET /valve token 0f)", "(2.05 token 0f content-format 0 | 'closed')"),
    # A message in two lines, and two messages in one line.
    (digits("(PUT /valve token 10 | 'open')")[:8], ""),
    (digits("(PUT /valve token 10 | 'open')")[8:], "(2.04 token 10)"),
    ("(GET /valve)+(GET /time)", "(2.05 content-format 0 | 'open')+(2.05 content-format 0 max-age 1 | '0')"),
    # A second passes.
    ("", ""),
    ("(GET /time)", "(2.05 content-format 0 max-age 1 | '1')"),
]


class Sensor:
    """A file with a measured value, which is replaced atomically."""

    def __init__(self, folder):
        self.name = f"{folder}/sensor"

    def tell(self, value):
        with open(f"{self.name}.new", "w", encoding="ascii") as it:
            it.write(value)
        os.replace(f"{self.name}.new", self.name)


def check_gateway(checks, program, uri, sensor):
    """Checks a value, a changed value, and the notification of an observer."""
    checks.same("the value", client(program, [uri]), (0, b"20.5", b""))
    sensor.tell("21.0")
    checks.same("the changed value", client(program, [uri]), (0, b"21.0", b""))
    with started([program, "-s", "3", "-w", uri], stdin=subprocess.DEVNULL, stdout=subprocess.PIPE,
                 stderr=subprocess.PIPE) as observer:
        first = line_of(observer.stdout)
        sensor.tell("21.5")
        got, complained = observer.communicate(timeout=LIMIT)
    values = [first.decode().strip(), *got.decode().split()]
    # The last response, which ends the observation, repeats the value. Nothing else is repeated: equal values are not
    # stored again.
    checks.same("notifications of an observer", (values, observer.returncode, complained),
                (["21.0", "21.5", "21.5"], 0, b""))
    # The gateway allows one resource alone.
    checks.same("a second resource", client(program, ["-m", "put", "-e", "x", uri + "/else"]), (2, b"", b"4.06\n"))
    checks.same("an absent path", client(program, [uri + "/else"]), (2, b"", b"4.04\n"))


def observe(program, words):
    """Runs the example of a client, and returns its status, the starts of its lines, and what it says on standard
    error."""
    ran = subprocess.run([program, *words], stdin=subprocess.DEVNULL, capture_output=True, timeout=LIMIT)
    return ran.returncode, ran.stdout.decode().splitlines(), ran.stderr.decode()


def check_observer(checks, program, server):
    """Observes the time of a server for three seconds, with the cancellation; then fails in each way."""
    for name, other, says in (("coap-server", server, True), ("libcoap", "coap-server-notls", False)):
        with Server(other, says=says) as running:
            checks.same(f"{name} starts", says or running.accepts(), True)
            status, lines, said = observe(program, [running.uri("/time"), "3"])
            checks.same(f"observes the time of {name}", (status, [it[:5] for it in lines], len(set(lines)), said),
                        (0, ["2.05 "] * 3, 3, ""))
            status, lines, said = observe(program, [running.uri("/absent"), "3"])
            checks.same(f"an absent resource of {name}",
                        (status, [it[:5] for it in lines], "ended the observation" in said), (1, ["4.04 "], True))
            with started([program, running.uri("/time")], stdin=subprocess.DEVNULL, stdout=subprocess.PIPE,
                         stderr=subprocess.PIPE) as lasting:
                first = line_of(lasting.stdout)
                running.end(signal.SIGTERM)
                _, said = lasting.communicate(timeout=LIMIT)
        # libcoap's server ends each observation with 4.04 before it closes the connection.
        ends = any(it in said for it in (b"ended the connection", b"ended the observation", b"the connection stopped"))
        checks.same(f"the end of {name}", (first[:5], lasting.returncode, ends), (b"2.05 ", 1, True))
    for words in (["x"], ["coap://127.0.0.1/a"], [f"coap+tcp://127.0.0.1:{free_port('127.0.0.1')}/a"],
                  ["coap+tcp://127.0.0.1/a", "x"]):
        status, lines, said = observe(program, words)
        checks.same(f"fails: {words}", (status, lines, bool(said)), (1, [], True))


def actuate(program, lines):
    """Passes lines to the actuator. Returns its status, the lines that it prints, and its standard error."""
    given = "".join(f"{it}\n" for it in lines)
    ran = subprocess.run([program], input=given, capture_output=True, timeout=LIMIT, text=True)
    return ran.returncode, ran.stdout.splitlines(), ran.stderr


def check_actuator(checks, program):
    """Checks each response of an actuator, its entry in the listing, and its end in each way."""
    status, lines, said = actuate(program, [digits(requested) for requested, _ in ACTUATOR])
    checks.same("the actuator ends after its input", (status, said), (0, ""))
    for at, (requested, answered) in enumerate(ACTUATOR):
        checks.same(f"the actuator answers {requested}", lines[at] if at < len(lines) else None, digits(answered))
    # The end of the input queues nothing.
    checks.same("the last lines of the actuator", lines[len(ACTUATOR):], [""])
    _, lines, _ = actuate(program, [digits("(CSM)+(GET /.well-known/core)")])
    checks.same("the actuator lists its valve", b'</valve>;if="actuator"' in bytes.fromhex(lines[0]), True)
    # The second message has an invalid token length. Nothing is read after the stop.
    status, lines, said = actuate(program, [digits("(CSM)"), "0f01", digits("(GET /valve)")])
    abort = digits("(Abort | 'bad token length')")
    checks.same("the actuator ends after an Abort", (status, lines[1:], said), (0, [abort], ""))
    status, lines, said = actuate(program, ["x"])
    checks.same("the actuator refuses other text", (status, lines, "not hexadecimal" in said), (1, [], True))


def check_document(checks, program):
    """Checks what the command of the document prints."""
    with open(f"{ROOT}/docs/EMBEDDING.md", encoding="utf-8") as file:
        block = re.search(r"^    \$ (printf .*) \| example_actuator\n((?:    .*\n)+)", file.read(), re.M)
    ran = subprocess.run(f"{block[1]} | {program}", shell=True, capture_output=True, timeout=LIMIT, text=True)
    checks.same("the command of docs/EMBEDDING.md", (ran.returncode, ran.stdout.split()), (0, block[2].split()))


def check_end(checks, gateway, sensor):
    """Checks that the gateway ends if the sensor cannot be read."""
    os.remove(sensor.name)
    checks.same("the gateway ends without a sensor", gateway.wait(LIMIT), 1)
    checks.same("the gateway says why it ends", "cannot open the sensor's file" in gateway.stderr.read().decode(), True)


def main(program, observer, actuator, server, client_program):
    checks = Checks()
    check_actuator(checks, actuator)
    check_document(checks, actuator)
    checks.same("packages can be installed", packages.install({"coap-server-notls": "libcoap3-bin"}), True)
    check_observer(checks, observer, server)
    with tempfile.TemporaryDirectory(prefix="embedding-") as folder:
        sensor = Sensor(folder)
        sensor.tell("20.5")
        gateway = subprocess.Popen([program, f"{LOCAL}:0", sensor.name], stdin=subprocess.DEVNULL,
                                   stdout=subprocess.DEVNULL, stderr=subprocess.PIPE)
        try:
            said = line_of(gateway.stderr).decode()
            checks.same("line", said.rpartition(" ")[0], "example_gateway: listening on")
            check_gateway(checks, client_program, "coap+tcp://%s/measured" % said.rpartition(" ")[2].strip(), sensor)
            check_end(checks, gateway, sensor)
        finally:
            gateway.kill()
            gateway.wait(LIMIT)
            gateway.stderr.close()
    return checks.end()


if __name__ == "__main__":
    sys.exit(main(*sys.argv[1:]))
