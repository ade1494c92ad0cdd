"""Checks the messages to systemd."""

import contextlib
import socket
import time

from gateways import CONTENT, GET, LIMIT, Gateway, Setting


def check_notify(checks, program):
    """Checks the messages to systemd, by a socket with a file and by one without."""
    with Setting(program, 0) as setting:
        setting.broker.kill()
        for at, name in enumerate((f"{setting.folder}/notify", f"@{setting.folder}/notify")):
            with socket.socket(socket.AF_UNIX, socket.SOCK_DGRAM) as systemd:
                systemd.bind(name.replace("@", "\0"))
                systemd.settimeout(LIMIT)
                before = ["env", f"NOTIFY_SOCKET={name}", "WATCHDOG_USEC=3000000"]
                check_notified(checks, systemd, Gateway(program, setting.broker, setting.folder, at, before=before))
        setting.broker.start()
        before = ["env", f"NOTIFY_SOCKET={setting.folder}/notify", "WATCHDOG_USEC=3000000", "WATCHDOG_PID=1"]
        with Gateway(program, setting.broker, setting.folder, 3, before=before) as gateway, gateway.peer() as peer:
            checks.same("nobody reads the messages", peer.code(GET, "time"), CONTENT)


def check_notified(checks, systemd, gateway):
    """Checks the messages from the start of a gateway, before its broker, to its end."""
    gateway.start(waits=False)
    with contextlib.ExitStack() as stack:
        stack.push(gateway)
        first = systemd.recv(4096)
        checks.same("ready before the broker", first, b"READY=1\nSTATUS=Not connected to the broker yet.")
        times = []
        while len(times) < 4 and systemd.recv(4096) == b"WATCHDOG=1":
            times.append(time.monotonic())
        gaps = [second - first for first, second in zip(times, times[1:])]
        checks.same("four signs of life", len(times), 4)
        checks.same("they come in time for the watchdog", all(0.5 < it < 3 for it in gaps) or gaps, True)
        gateway.broker.start()
        stack.callback(gateway.broker.kill)
        checks.same("the broker", next_status(systemd), b"STATUS=Connected to the broker, with 0 resources.")
        gateway.broker.kill()
        text = b"STATUS=Not connected to the broker; 0 resources are in the mirror."
        checks.same("the broker is away", next_status(systemd), text)
        gateway.broker.start()
        checks.same("the broker again", next_status(systemd), b"STATUS=Connected to the broker, with 0 resources.")
        checks.same("the end", (gateway.stop(), next_status(systemd)), (0, b"STOPPING=1\nSTATUS=Ends."))


def next_status(systemd):
    """Returns the next message that is no sign of life."""
    while (message := systemd.recv(4096)) == b"WATCHDOG=1":
        pass
    return message
