"""Checks the clock, the name of the broker, descriptors, and a log that nobody reads."""

import collections
import contextlib
import fcntl
import os
import select
import signal
import socket
import subprocess
import tempfile
import time

from connections import stepped, write_number
from gateway_checks import run, write_file
from gateways import CHANGED, CONTENT, CREATED, GET, LIMIT, PREFIX, PUT, TIMEOUT, Gateway, Setting, soon
from peers import accepts


def check_clock(checks, program):
    """Checks a gateway whose system clock is set back by an hour while a request waits, and then set forward."""
    with tempfile.TemporaryDirectory(prefix="coap-mqtt-") as folder:
        before, step = stepped(folder)
        with Setting(program, 1, before=before) as setting:
            peer, = setting.peers()
            checks.same("a write", peer.code(PUT, f"{PREFIX}/a", payload=b"a"), CREATED)
            setting.broker.process.send_signal(signal.SIGSTOP)
            began, token = time.monotonic(), peer.send(PUT, f"{PREFIX}/a", payload=b"b")
            write_number(step, -3600)
            checks.same("the time", abs(int(peer.get("time")[1]) - time.time()) < 3, True)
            checks.same("a write that waits", (peer.wait(token).code, 8 < time.monotonic() - began < 13),
                        (TIMEOUT, True))
            setting.broker.process.send_signal(signal.SIGCONT)
            write_number(step, 3600)
            checks.same("the time follows the clock",
                        soon(lambda: abs(int(peer.get("time")[1]) - 3600 - time.time()) < 3, True), True)
            checks.same("a write afterwards", soon(lambda: peer.code(PUT, f"{PREFIX}/a", payload=b"c"), CHANGED),
                        CHANGED)


# Runs a program with two files of a temporary folder in the place of those of /etc.
OTHER_NAMES = ["unshare", "--mount", "sh", "-c",
               'mount --bind "$0/hosts" /etc/hosts && mount --bind "$0/resolv.conf" /etc/resolv.conf && exec "$@"']


def write_names(folder, hosts):
    """Writes a file of names, and a configuration with a name server that does not answer."""
    for name, text in (("hosts", hosts), ("resolv.conf", "nameserver 127.7.7.7\noptions timeout:1 attempts:1\n")):
        write_file(f"{folder}/{name}", text)


def check_broker_name(checks, program):
    """Checks a broker that has a name with a dead address too, and then a name server that does not answer. Peers are
    served meanwhile."""
    with Setting(program, 0) as setting:
        local = Gateway(program, setting.broker, setting.folder, 1, ["--broker-host", "localhost"])
        with local as gateway, gateway.peer() as peer:
            checks.same("a write with the broker at localhost", peer.code(PUT, f"{PREFIX}/a", payload=b"a"), CREATED)
        write_names(setting.folder, "::1 broker.example\n127.0.0.1 broker.example localhost\n")
        before = [*OTHER_NAMES, setting.folder]
        if run([*before, "true"]).returncode:
            checks.skip("files cannot be mounted over those of /etc, so no name server is tried")
            return
        with socket.socket(socket.AF_INET, socket.SOCK_DGRAM) as silent:
            # The same check may run beside this one, in another process.
            silent.setsockopt(socket.SOL_SOCKET, socket.SO_REUSEADDR, 1)
            silent.bind(("127.7.7.7", 53))
            named = Gateway(program, setting.broker, setting.folder, 2, ["--broker-host", "broker.example"], before)
            with named as gateway, gateway.peer() as peer:
                check_silent_server(checks, setting, gateway, peer)


def check_silent_server(checks, setting, gateway, peer):
    """Checks a gateway that connects again while the name server does not answer."""
    checks.same("a write with the broker at one of two addresses", peer.code(PUT, f"{PREFIX}/a", payload=b"b"), CHANGED)
    write_names(setting.folder, "127.0.0.1 localhost\n")
    setting.broker.kill()
    checks.same("the gateway notices", gateway.says("broker: connection"), True)
    ends, longest = time.monotonic() + 4, 0
    while time.monotonic() < ends:
        began = time.monotonic()
        code = peer.code(GET, f"{PREFIX}/a")
        longest = max(longest, time.monotonic() - began if code == CONTENT else LIMIT)
        time.sleep(0.02)
    checks.same("reads are answered while the name is resolved", longest < 2 or longest, True)
    setting.broker.start()
    checks.same("the gateway connects to the address that it had", gateway.says("resources", 2), True)
    checks.same("a write afterwards", peer.code(PUT, f"{PREFIX}/a", payload=b"c"), CHANGED)


def check_descriptors(checks, program):
    """Checks a gateway that has no descriptor for further peers, and one whose standard streams are closed."""
    short = ["sh", "-c", 'ulimit -n 24; exec "$@"', "sh"]
    with Setting(program, 1, words=["--connections", "64"], before=short) as setting:
        gateway, (peer,) = setting.gateways[0], setting.peers()
        others = [gateway.peer() for _ in range(30)]
        checks.same("further peers wait", gateway.says("connections not accepted: Too many open files"), True)
        checks.same("a write", peer.code(PUT, f"{PREFIX}/a", payload=b"a"), CREATED)
        token = others[-1].send(GET, f"{PREFIX}/a")
        checks.same("the last peer is not served", others[-1].wait(token, 0.3), None)
        for it in others[:-1]:
            it.__exit__()
        checks.same("the last peer is served", others[-1].wait(token).payload, b"a")
        others[-1].__exit__()
    with Setting(program, 0) as setting:
        closed = ["sh", "-c", 'exec "$@" <&- >&- 2>&-', "sh"]
        gateway = Gateway(program, setting.broker, setting.folder, 1, ["--connections", "2"], closed)
        gateway.start(waits=False)
        with contextlib.ExitStack() as stack:
            stack.push(gateway)
            checks.same("it listens", soon(lambda: accepts(gateway.port), True), True)
            opened = [os.readlink(f"/proc/{gateway.process.pid}/fd/{stream}") for stream in range(3)]
            checks.same("no socket is a standard stream", opened, 3 * ["/dev/null"])
            with gateway.peer() as peer:
                checks.same("a write without standard streams", peer.code(PUT, f"{PREFIX}/a", payload=b"a"), CREATED)


def check_log(checks, program):
    """Checks a log that nobody reads, and the limit of its lines."""
    with Setting(program, 0) as setting:
        gateway = Gateway(program, setting.broker, setting.folder, 1, ["--pending", "256"])
        reader, writer = os.pipe()
        fcntl.fcntl(writer, fcntl.F_SETPIPE_SZ, 4096)
        words = [*gateway.line, "-p", str(gateway.port), "--log", "3", *gateway.words]
        gateway.process = subprocess.Popen(words, stdin=subprocess.DEVNULL, stdout=subprocess.DEVNULL, stderr=writer)
        os.close(writer)
        with contextlib.ExitStack() as stack, os.fdopen(reader, "rb", 0) as log:
            open(gateway.name, "wb").close()
            stack.push(gateway)
            checks.same("it listens", soon(lambda: accepts(gateway.port), True), True)
            peer = stack.enter_context(gateway.peer())
            tokens = [peer.send(PUT, f"{PREFIX}/{at % 10}", payload=b"%d" % at) for at in range(200)]
            found = [peer.wait(it).code for it in tokens]
            checks.same("writes while nobody reads the log", found, 10 * [CREATED] + 190 * [CHANGED])
            said, ends = b"", time.monotonic() + LIMIT
            while b"lines left out: " not in said and time.monotonic() < ends:
                if select.select([log], [], [], 0.1)[0]:
                    said += os.read(log.fileno(), 65536)
                peer.code(PUT, f"{PREFIX}/a", payload=b"%d" % len(said))
            lines = said.splitlines()
            checks.same("a line with the number of those that were left out", b"lines left out: " in said, True)
            # The limit counts for lines with a time: the address at the start has none.
            seconds = collections.Counter(it[:19] for it in lines if it[:1] == b"2")
            checks.same("whole lines", [it for it in lines[:-1] if b"coap-mqtt: " not in it], [])
            checks.same("lines in a second", max(seconds.values()) <= 101, True)
