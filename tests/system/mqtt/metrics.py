"""Checks the metrics for Prometheus."""

import os
import re
import tempfile

from gateway_checks import run
from gateways import (
    CHANGED, CONTENT, CREATED, DELETE, DELETED, GET, IF_NONE_MATCH, NOT_ALLOWED, POST, PRECONDITION, PREFIX, PUT,
    UNAVAILABLE, Setting, soon,
)
from packages import exists, install
from peers import free_port

NAMES = {"healthy": "gauge", "peers": "gauge", "resources": "gauge", "left_out": "gauge", "writes_total": "counter",
         "pending_writes": "gauge", "in_flight_bytes": "gauge", "reconnects_total": "counter",
         "last_message_age_seconds": "gauge"}

VALUE = re.compile(r'dachreup_mqtt_(\w+)\{id="(\d+)"(?:,code="(\d\.\d\d)")?\} (\d+)')


def read_metrics(name):
    """Returns the values in a file of metrics, by name and code. Checks its form: HELP, TYPE and values of each."""
    values, types, current = {}, {}, None
    with open(name, encoding="ascii") as file:
        text = file.read()
    for line in text.splitlines():
        if helped := re.fullmatch(r"# HELP dachreup_mqtt_(\w+) [\x20-\x5b\x5d-\x7e]+\.", line):
            current = helped[1]
        elif typed := re.fullmatch(r"# TYPE dachreup_mqtt_(\w+) (gauge|counter)", line):
            if typed[1] != current or current in types:
                raise ValueError(line)
            types[current] = typed[2]
        else:
            valued = VALUE.fullmatch(line)
            if not valued or valued[1] != current or current not in types or (current, valued[3]) in values:
                raise ValueError(line)
            values[current, valued[3]] = int(valued[4])
    if types != NAMES or not text.endswith("\n"):
        raise ValueError(types)
    return values


def check_metrics(checks, program):
    """Checks the file of metrics: its form, its values, and that it is always whole."""
    with tempfile.TemporaryDirectory(prefix="coap-mqtt-") as folder:
        file_name = f"{folder}/gateway.prom"
        with Setting(program, 1, words=["--metrics", file_name, "-d", "3"]) as setting:
            (peer,), path = setting.peers(), f"{PREFIX}/a"
            first = os.stat(file_name)
            checks.same("other users may read it", first.st_mode & 0o777, 0o644)
            codes = [peer.code(it, path, payload=b"1") for it in (PUT, POST, DELETE, DELETE, PUT)]
            checks.same("writes", codes, [CREATED, CHANGED, DELETED, DELETED, CREATED])
            checks.same("a refused write", peer.code(PUT, path, [(IF_NONE_MATCH, b"")], b"2"), PRECONDITION)
            others = [peer.code(*it) for it in ((GET, path), (GET, "health"), (PUT, "other"))]
            checks.same("no writes", others, [CONTENT, CONTENT, NOT_ALLOWED])
            checks.same("the file is replaced", soon(lambda: os.stat(file_name).st_ino != first.st_ino, True), True)
            values = read_metrics(file_name)
            age = values.pop(("last_message_age_seconds", None))
            writes = {code: number for (name, code), number in values.items() if code}
            checks.same("writes by code", writes, {"2.01": 2, "2.02": 2, "2.04": 1, "4.12": 1, "5.03": 0, "5.04": 0})
            numbers = {name: number for (name, code), number in values.items() if not code}
            wanted = {**dict.fromkeys(NAMES, 0), "healthy": 1, "peers": 1, "resources": 1}
            del wanted["writes_total"], wanted["last_message_age_seconds"]
            checks.same("numbers", numbers, wanted)
            checks.same("the age of the last message", age <= 16, True)
            if install({"promtool": "prometheus"}) and exists("promtool"):
                linted = run(["sh", "-c", f"promtool check metrics < {file_name}"])
                checks.same("promtool", (linted.returncode, linted.stdout + linted.stderr), (0, ""))
            else:
                checks.skip("promtool of Debian's package prometheus cannot be installed")
            setting.broker.kill()
            found = soon(lambda: peer.code(PUT, path, payload=b"5"), UNAVAILABLE)
            checks.same("the broker is away", found, UNAVAILABLE)
            checks.same("the end", setting.gateways[0].stop(), 0)
            values = read_metrics(file_name)
            found = [values[it] for it in (("healthy", None), ("resources", None), ("writes_total", "5.03"))]
            checks.same("at the end", found, [0, 1, 1])
            checks.same("connections that ended", values["reconnects_total", None] >= 1, True)
            checks.same("no other file", os.listdir(folder), ["gateway.prom"])
    done = run([program, "-p", str(free_port()), "--metrics", f"{folder}/gone/x.prom"])
    checks.same("a file that cannot be written", (done.returncode, done.stderr),
                (3, f"coap-mqtt: cannot write {folder}/gone/x.prom: No such file or directory\n"))
