"""Checks a standard error that blocks, fails or is a terminal, and allocations that fail."""

import contextlib
import fcntl
import os
import pty
import select
import subprocess
import tempfile

from commands import preloaded
from log_lines import CLIENT, GET_ROOT, GREETING, QUIET, SERVER, SETTINGS, ask, listens, logging, texts_of
from message_syntax import encoded
from peers import LIMIT, LOCAL, Server, free_port, line_of, started


def check_standard_error(checks):
    """A standard error that blocks, is closed or fails never stops serving."""
    port = free_port()
    read, write = os.pipe()
    fcntl.fcntl(write, fcntl.F_SETPIPE_SZ, 4_096)
    command = [SERVER, "-A", LOCAL, "-p", str(port), "--log", "3"]
    with open(read, "rb", 0) as said, started(command, stderr=write, **QUIET) as process:
        os.close(write)
        checks.same("a pipe: the first line", b" listening on " in line_of(said), True)
        for turn in range(60):
            if ask(port, *[encoded(1, b"\x01", [(11, b"x" * 200)], b"") for _ in range(5)], GET_ROOT) != GREETING:
                checks.same("a full pipe", turn, 60)
                break
        checks.same("a full pipe: the server still serves", ask(port, GET_ROOT), GREETING)
        said.close()
        checks.same("a broken pipe: the server still serves", [ask(port, GET_ROOT) for _ in range(3)], [GREETING] * 3)
        checks.same("a broken pipe: the server still runs", process.poll(), None)
    with logging("--log", "3", file="/dev/full", says=False) as (process, port, _):
        checks.same("a full disk: the server still serves", [ask(port, GET_ROOT) for _ in range(3)], [GREETING] * 3)
    with logging("--log", "3", says=False, preexec_fn=lambda: os.close(2)) as (process, port, _):
        checks.same("a closed standard error: the server still serves", [ask(port, GET_ROOT) for _ in range(3)],
                    [GREETING] * 3)


def on_terminal(words, given):
    """Runs a program whose standard error is a terminal, with this input, and returns the bytes of its log as the
    program wrote them."""
    terminal, device = pty.openpty()
    error, how = b"", {"stdin": subprocess.PIPE, "stdout": subprocess.DEVNULL, "stderr": device}
    with open(terminal, "rb", 0), started(words, **how) as process:
        os.close(device)
        process.stdin.write(given)
        process.stdin.close()
        # At the end of the program, a read fails.
        with contextlib.suppress(OSError):
            while select.select([terminal], [], [], LIMIT)[0]:
                error += os.read(terminal, 65_536)
    # A terminal writes a newline as two bytes.
    return error.replace(b"\r\n", b"\n")


def check_terminal(checks):
    """On a terminal, the lines of a log arrive whole and in order, also those that are longer than one write."""
    long = [encoded(1, b"\x01", [(11, b"x" * length)], b"") for length in (1, 60, 100, 127, 128, 129, 200, 255)]
    words, given = [SERVER, "--stdio", "--log", "3"], SETTINGS + b"".join(long)
    wanted = texts_of(subprocess.run(words, input=given, capture_output=True, timeout=LIMIT).stderr)
    error = on_terminal(words, given)
    checks.same("terminal: lines of a server", texts_of(error), wanted)
    checks.same("terminal: only lines of a log", len(error.splitlines()), 2 * (len(long) + 1) + 2)
    with Server(SERVER) as server:
        texts = [it.partition(";")[0] for it in texts_of(on_terminal([CLIENT, "--log", "3", server.uri()], b""))]
        ends = [f"connection 1 opened to {LOCAL}:{server.port}", "connection 1 ended: last response"]
        checks.same("terminal: lines of a client", (len(texts), texts[:1] + texts[-1:]), (6, ends))


def served_without(number, shim, folder):
    """Returns the response to a GET and the log of a server in which this allocation fails."""
    port, name, answer = free_port(), f"{folder}/log", None
    refusing = {**os.environ, "LD_PRELOAD": shim, "REFUSE_ALLOCATION": str(number)}
    command = [SERVER, "-A", LOCAL, "-p", str(port), "--log", "2"]
    with open(name, "wb") as log, started(command, stderr=log, env=refusing, **QUIET) as process:
        with contextlib.suppress(OSError):
            answer = ask(port, GET_ROOT) if listens(process, name) else None
    with open(name, "rb") as log:
        return answer, log.read()


def check_memory(checks):
    """If an allocation of the log fails for a connection, the log says so, and the connection is served as before."""
    number, found, said = 0, 0, b"refused\n"
    with tempfile.TemporaryDirectory() as folder:
        shim = preloaded("fail_malloc", folder)
        while b"refused\n" in said:
            number += 1
            answer, said = served_without(number, shim, folder)
            texts = [it for it in texts_of(said.replace(b"refused\n", b"")) if it.startswith("connection 1")]
            if "connection 1: no memory to follow it" in texts:
                found += 1
                checks.same(f"allocation {number} of a log: response", answer, GREETING)
                checks.same(f"allocation {number} of a log: lines", len(texts), 2)
    checks.same("connections without memory for their log", found > 0, True)
