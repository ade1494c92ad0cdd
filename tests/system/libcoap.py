"""Tests libcoap's client with the server over standard input and output, and decodes the bytes of both sides with
tshark.

The script needs Debian's packages libcoap3-bin (its client without TLS is `coap-client-notls`) and tshark, and installs
the missing ones. Each case uses its own connection. The script accepts it, starts the program for it, and forwards and
records the bytes of both directions.
"""

import concurrent.futures
import os
import socket
import subprocess
import sys

sys.path.insert(0, os.path.join(os.path.dirname(os.path.abspath(__file__)), "..", "harness"))
from capture import Conversation, decode, faults, messages_of, of_side  # noqa: E402
from checks import Checks  # noqa: E402
from packages import require  # noqa: E402
from peers import LIMIT, LOCAL, started  # noqa: E402

PACKAGES = {"coap-client-notls": "libcoap3-bin", "tshark": "tshark"}

CASES = [
    # Method, path, payload, output of the client, error of the client, and code that the server sends.
    ("get", "/", "", "coap+tcp", "", 0x45),
    ("get", "/time", "", "0", "", 0x45),
    ("get", "/.well-known/core", "", "</>;ct=0,</time>;ct=0;obs,</async>;ct=0", "", 0x45),
    ("get", "/none", "", "", "4.04", 0x84),
    ("get", "/async?0", "", "done", "", 0x45),
    ("put", "/a", "x", "", "4.04", 0x84),
    ("put", "/time", "x", "", "4.05", 0x85),
    ("delete", "/a", "", "", "", 0x42),
]

BROKEN = [
    # Malformed bytes from a server, and the result of `fault` for them.
    ("an option that runs past the end", "31450159ff30", "malformed"),
    ("the same in Capabilities and Settings", "50e12301000029", "malformed"),
    ("half a message", "614501c0ff", "unread"),
    ("a token length of 15", "0fe1", "unread"),
]

# Timeout of the client in seconds.
CLIENT_WAITS = 5


def status_of(process):
    try:
        return process.wait(LIMIT)
    except subprocess.TimeoutExpired:
        process.kill()
        process.wait()
        return "no end within %d s" % LIMIT


def serve(listener, program, conversation):
    """Connects the client to a new process of the program, and returns the status of the program."""
    connection, _ = listener.accept()
    ours, theirs = socket.socketpair()
    with started([program, "--stdio"], stdin=theirs, stdout=theirs) as process:
        theirs.close()
        with connection, ours:
            conversation.join(connection, ours)
        return status_of(process)


def ask(port, method, path, payload):
    """Runs the client once. Returns its status, its output, and the first word of its errors."""
    command = ["coap-client-notls", "-m", method, "-B", str(CLIENT_WAITS)]
    if payload:
        command += ["-e", payload]
    done = subprocess.run(command + ["coap+tcp://%s:%d%s" % (LOCAL, port, path)], stdin=subprocess.DEVNULL,
                          capture_output=True, encoding="utf-8", errors="replace", timeout=LIMIT)
    return done.returncode, done.stdout.rstrip("\n"), " ".join(done.stderr.split()[:1])


def talk(program, case):
    """Runs one case. Returns the result of the client, the status of the program, and the conversation."""
    conversation = Conversation()
    with socket.create_server((LOCAL, 0)) as listener, concurrent.futures.ThreadPoolExecutor(1) as pool:
        listener.settimeout(LIMIT)
        status = pool.submit(serve, listener, program, conversation)
        got = ask(listener.getsockname()[1], *case[:3])
        return got, status.result(), conversation


def check_client(checks, name, case, got, status):
    """Checks the result of the client, and the status of the program."""
    _, _, _, output, error, _ = case
    checks.same(name + ": the client's status, output and error", got, (0, output, error))
    checks.same(name + ": the server's status", status, 0)


def check_bytes(checks, name, code, sent, rows):
    """Checks that tshark decodes every byte of the server without a remark, as two messages."""
    checks.same(name + ": the bytes that tshark is given", "".join(row["tcp.payload"] for row in rows), sent.hex())
    checks.same(name + ": the codes that tshark reads", [row["coap.code"] for row in rows], [str(0xE1), str(code)])
    checks.same(name + ": remarks of tshark", faults(rows), [])


def check_broken(checks, name, wanted, rows):
    """Checks that `fault` reports a malformed message."""
    checks.same("broken, %s" % name, faults(rows), [wanted])


def check(program):
    checks = Checks()
    with concurrent.futures.ThreadPoolExecutor(len(CASES)) as pool:
        talks = list(pool.map(lambda case: talk(program, case), CASES))
    live = [conversation.messages() for _, _, conversation in talks]
    broken = [messages_of([(True, bytes.fromhex(stream))]) for _, stream, _ in BROKEN]
    decoded = [of_side(rows, True) for rows in decode(live + broken)]
    for case, (got, status, conversation), rows in zip(CASES, talks, decoded):
        name = "%s %s" % case[:2]
        check_client(checks, name, case, got, status)
        check_bytes(checks, name, case[5], conversation.stream(True), rows)
    for (name, _, wanted), rows in zip(BROKEN, decoded[len(CASES):]):
        check_broken(checks, name, wanted, rows)
    return checks.end("libcoap's client, and tshark")


def main(words):
    require(PACKAGES)
    return check(os.path.abspath(words[0]))


if __name__ == "__main__":
    sys.exit(main(sys.argv[1:]))
