"""Checks records that end before their server: at the limit, on a full disk, or with a full standard error."""

import contextlib
import os
import resource
import shlex
import signal
import subprocess
import tempfile

from greeted_peers import GET_ROOT, GREETED, PEER_SETTINGS, ask
from peers import LIMIT, Server
from records import record_in, replay, said_by


def check_ended(checks, name, running, reason):
    """Checks that a server whose record has ended goes on serving, and reports that once."""
    checks.same(f"{name}: the server goes on serving", (all(ask(running) for _ in range(80)), running.process.poll()),
                (True, None))
    checks.same(f"{name}: the report", said_by(running), f"coap-server: record ended: {reason}\n")
    checks.same(f"{name}: no other report", (ask(running), said_by(running)), (True, ""))


def check_front(checks, name, server, record):
    """Checks that the whole lines of a record that has ended replay, and that their output is a front of what was
    sent."""
    status, outputs, said = replay(server, ["--script", "-", *record.options()], record.whole)
    checks.same(f"{name}: the replay of the whole lines", (status, said), (0, b""))
    checks.same(f"{name}: the output of the replay",
                outputs != {} and all(GREETED.startswith(it) for it in outputs.values()), True)


def check_limit(checks, server):
    """Checks records that reach their limit: each ends with the line that reaches it, and the server goes on."""
    with tempfile.TemporaryDirectory() as folder:
        for limit in (1, 2_000, 2_001, 3_000):
            name = f"{folder}/record{limit}"
            with Server(server, ["--record", name, "--record-limit", str(limit)]) as running:
                check_ended(checks, f"limit {limit}", running, f"{name} has reached {limit} bytes")
            record = record_in(name)
            checks.same(f"limit {limit}: the record begins with its first line",
                        record.header[0].startswith(b"# Record of coap-server "), True)
            checks.same(f"limit {limit}: the record ends with a whole line", record.torn, b"")
            checks.same(f"limit {limit}: the size with the last line", len(record.text) >= limit, True)
            if limit > 1:
                last = len(record.lines[-1]) + 1
                checks.same(f"limit {limit}: the size without the last line", len(record.text) - last < limit, True)
                check_front(checks, f"limit {limit}", server, record)
        with Server(server, ["--record", f"{folder}/large", "--record-limit", str((1 << 64) - 1)]) as running:
            checks.same("the largest limit", (ask(running), said_by(running)), (True, ""))


def with_small_files(size):
    """Lets each write of the process fail that would make a file larger than this number of bytes."""
    signal.signal(signal.SIGXFSZ, signal.SIG_IGN)
    resource.setrlimit(resource.RLIMIT_FSIZE, (size, size))


def check_full(checks, server):
    """Checks a full disk: the record is a front of what it would have been, and the server goes on."""
    with tempfile.TemporaryDirectory() as folder:
        for size in (0, 100, 1_500):
            name = f"{folder}/record{size}"
            with Server(server, ["--record", name], preexec_fn=lambda size=size: with_small_files(size)) as running:
                check_ended(checks, f"a disk of {size} bytes", running, f"cannot write {name}")
            checks.same(f"a disk of {size} bytes: size of the record", os.path.getsize(name), size)
        check_front(checks, "a disk of 1500 bytes", server, record_in(name))
        done = subprocess.run([server, "--stdio", "--record", f"{folder}/streams"], input=PEER_SETTINGS + GET_ROOT,
                              capture_output=True, timeout=LIMIT,
                              preexec_fn=lambda: with_small_files(300))
        wanted = (0, GREETED, b"coap-server: record ended: cannot write %s/streams\n" % folder.encode())
        checks.same("a full disk: standard streams", (done.returncode, done.stdout, done.stderr), wanted)
    check_small_disk(checks, server)


def check_small_disk(checks, server):
    """Checks a full file system of 16,384 bytes, if this user can mount one."""
    with tempfile.TemporaryDirectory() as folder:
        mounts = ["unshare", "--mount", "sh", "-c", 'mount -t tmpfs -o size=16k none "$0" && exec "$@"', folder]
        if subprocess.run([*mounts, "true"], stderr=subprocess.DEVNULL).returncode:
            checks.skip("a small file system cannot be mounted")
            return
        program = f"{folder}/mounting"
        with open(program, "w", encoding="ascii") as it:
            it.write('#!/bin/sh\nexec %s "$@"\n' % shlex.join([*mounts, os.path.abspath(server)]))
        os.chmod(program, 0o700)
        name = f"{folder}/record"
        with Server(program, ["--record", name]) as running:
            checks.same("a small file system: many requests", all(ask(running) for _ in range(400)), True)
            check_ended(checks, "a small file system", running, f"cannot write {name}")
            record = record_in("/proc/%d/root%s" % (running.process.pid, name))
        checks.same("a small file system: size of the record", len(record.text), 16_384)
        check_front(checks, "a small file system", server, record)


def check_blocked(checks, server):
    """Checks that the report does not wait for a standard error that is full, and comes as soon as it is not."""
    with tempfile.TemporaryDirectory() as folder:
        name = f"{folder}/record"
        with Server(server, ["--record", name, "--record-limit", "2000"]) as running:
            pipe = os.open("/proc/self/fd/%d" % running.process.stderr.fileno(), os.O_WRONLY | os.O_NONBLOCK)
            with contextlib.suppress(BlockingIOError):
                while os.write(pipe, b"x" * 4_096):
                    pass
            os.close(pipe)
            checks.same("a full pipe: the server serves", all(ask(running) for _ in range(40)), True)
            checks.same("a full pipe: the record has ended", 2_000 <= os.path.getsize(name) < 2_200, True)
            checks.same("a full pipe: nothing is reported", said_by(running).strip("x"), "")
            checks.same("a free pipe: the server serves", ask(running), True)
            checks.same("a free pipe: the report", said_by(running),
                        f"coap-server: record ended: {name} has reached 2000 bytes\n")
