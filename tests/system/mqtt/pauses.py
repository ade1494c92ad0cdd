"""Checks the pauses between attempts to connect to the broker."""

import contextlib
import errno
import re
import socket
import tempfile

from commands import preloaded
from connections import StrictBroker, alone, stepped, write_number
from false_brokers import Relay
from gateway_checks import FakeSetting, write_file
from gateways import CHANGED, CREATED, PREFIX, PUT, Gateway, Setting, soon


def check_pauses(checks, program):
    """Checks the pauses between attempts that fail: 1, 2 and 4 seconds, and up to a quarter more."""
    with StrictBroker(refusals=4) as broker, contextlib.ExitStack() as stack:
        gateway = alone(stack, program, broker)
        times = [at for at, _ in broker.connected(4)]
        gaps = [later - earlier for earlier, later in zip(times, times[1:])]
        # A turn takes up to a second, since time counts in seconds while nothing arrives.
        wanted = [least <= gap <= 1.25 * least + 1.5 for least, gap in zip((1, 2, 4), gaps)]
        checks.same(f"the pauses {gaps}", wanted, 3 * [True])
        checks.same("the log", gateway.says("refused the connection", 4), True)


def check_pauses_anew(checks, program):
    """Checks that the pauses begin anew after a connection of a minute, and not after a shorter one."""
    with StrictBroker(refusals=2) as broker, contextlib.ExitStack() as stack:
        folder = stack.enter_context(tempfile.TemporaryDirectory(prefix="coap-mqtt-"))
        before, step = stepped(folder, "MONOTONIC_STEP")
        gateway = alone(stack, program, broker, before=before)
        for seconds, wanted in ((0, (1, 2, 4)), (61, (1, 2, 4, 1))):
            checks.same("it is connected", gateway.says(" resources", len(wanted) - 2), True)
            if seconds:
                # The connection ends, since the gateway seems to have stood still.
                write_number(step, seconds)
            else:
                broker.connection.shutdown(socket.SHUT_RDWR)
            checks.same("the connection is lost", gateway.says("next attempt in ", len(wanted)), True)
            pauses = [float(it) for it in re.findall(r"next attempt in ([\d.]+) s", gateway.log())]
            checks.same(f"pauses {pauses}", [least <= it <= 1.25 * least for least, it in zip(wanted, pauses)],
                        len(wanted) * [True])


def check_retreats_anew(checks, program):
    """Checks that the pauses after giving way begin anew after a connection of ten minutes."""
    text = r"taken over the id 7; next attempt in ([\d.]+) s"
    with StrictBroker() as broker, contextlib.ExitStack() as stack:
        folder = stack.enter_context(tempfile.TemporaryDirectory(prefix="coap-mqtt-"))
        before, step = stepped(folder, "MONOTONIC_STEP")
        gateway = alone(stack, program, broker, before=before)
        for count, number_of_record in enumerate((5, 50, 500)):
            checks.same("it is connected", gateway.says(" resources", count + 1), True)
            if count == 2:
                write_number(step, 601)
                checks.same("it is connected again", gateway.says(" resources", count + 2), True)
            broker.message(f"{PREFIX}/%gateway-7/owner", b"ffffffffffffffff-%d" % number_of_record)
            checks.same("it gives way", gateway.says("taken over the id 7", count + 1), True)
        pauses = [float(it) for it in re.findall(text, gateway.log())]
        are_right = [least <= it <= 1.25 * least for least, it in zip((1, 2, 1), pauses)]
        checks.same(f"pauses {pauses}", are_right, 3 * [True])


def check_unwatched(checks, program):
    """Checks a socket of the broker that cannot be watched: the log has the reason, and a later one is watched."""
    with Setting(program, 0) as setting, Relay(setting.broker.port) as relay:
        library, error = preloaded("fail_calls", setting.folder), f"{setting.folder}/error"
        write_file(error, "\0")
        before = ["sh", "-c", f'exec 9<{error}; exec env LD_PRELOAD={library} FAIL_EPOLL=9 "$@"', "sh"]
        to = FakeSetting(relay.port, setting.folder)
        with Gateway(program, to, setting.folder, 1, before=before) as gateway, gateway.peer() as peer:
            checks.same("a write", peer.code(PUT, f"{PREFIX}/a", payload=b"1"), CREATED)
            write_file(error, chr(errno.ENOMEM))
            relay.cut()
            text = "its socket cannot be watched: Cannot allocate memory"
            checks.same("the reason", gateway.says(text), True)
            write_file(error, "\0")
            code = soon(lambda: peer.code(PUT, f"{PREFIX}/a", payload=b"2"), CHANGED)
            checks.same("a write afterwards", code, CHANGED)
