"""The example server of the C library, and both clients that use it."""

import contextlib
import os
import re
import subprocess
from concurrent.futures import ThreadPoolExecutor

from peers import accepts, free_port, soon, started

LIMIT = 300


def run(words, given=b"", **environment):
    return subprocess.run(words, input=given, capture_output=True, timeout=LIMIT, env={**os.environ, **environment})


# libcoap's client, which ends after these seconds without a response.
LIBCOAP = ["coap-client-notls", "-B", "9"]


def use_example(words, client):
    """Runs the server of examples/c in this way. Observes values, also by libcoap's client, and changes another one.
    Returns the checks."""
    port = free_port("127.0.0.1")
    address = f"coap+tcp://127.0.0.1:{port}"
    with contextlib.ExitStack() as stack:
        def begin(*command):
            return stack.enter_context(started(command, stdout=subprocess.PIPE, stderr=subprocess.STDOUT))
        running = begin(*words, str(port), "20")
        soon(lambda: accepts(port), seconds=LIMIT)
        observers = [begin(*one, "-w", "-s", "3", f"{address}/{path}")
                     for one, path in (([client], "inside"), ([client], "outside"), (LIBCOAP, "inside"))]
        for one in observers:
            text = one.communicate(timeout=LIMIT)[0].decode()
            values = [int(it) for it in re.findall(r"\d+", text)]
            are_right = len(set(values)) >= 3, values == sorted(values), one.returncode in (0, 3)
            yield f"{one.args}: {text!r}", are_right, (True, True, True)
        # The first state has more bytes than the server reads at once, so its request comes in pieces.
        for state, code in (("x" * 5000, b"4.13"), ("open", b""), ("shut", b""), ("shut now", b"4.13")):
            changed = run([client, "-m", "put", "-e", state, f"{address}/valve"])
            result = changed.returncode == 0, changed.stdout, changed.stderr[:4]
            yield f"valve {state[:9]}: {changed.stderr}", result, (not code, b"", code)
        # The program checks the options: the whole path, Uri-Query, If-None-Match and Accept.
        for path, more, code in (("valve/x", [], b"4.04"), ("valve?x", [], b"4.04"), ("valve", ["-O", "5,"], b"4.02"),
                                 ("valve", ["-A", "0"], b"4.02")):
            refused = run([client, "-m", "put", "-e", "open", *more, f"{address}/{path}"])
            yield f"{path} {more}: {refused.stderr}", (refused.stdout, refused.stderr[:4]), (b"", code)
        yield "valve", run([client, f"{address}/valve"]).stdout.strip(), b"shut"
        changed = run([*LIBCOAP, "-m", "put", "-e", "open", f"{address}/valve"])
        yield "libcoap changes the valve", (changed.returncode, changed.stdout, changed.stderr), (0, b"", b"")
        yield "libcoap reads the valve", run([*LIBCOAP, f"{address}/valve"]).stdout.strip(), b"open"
        missing = run([client, f"{address}/none"])
        yield "no such resource", b"4.04" in missing.stdout + missing.stderr, True
        said = running.communicate(timeout=LIMIT)[0]
        yield "example server", (running.returncode, said), (0, b"")


def check_example(checks, servers, client):
    """Uses the server of examples/c in each of these ways, at the same time."""
    with ThreadPoolExecutor() as pool:
        for words, found in zip(servers, pool.map(lambda it: list(use_example(it, client)), servers)):
            for name, got, wanted in found:
                checks.same(f"{words[0]}: {name}", got, wanted)
