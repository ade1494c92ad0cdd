"""Checks the log of a client."""

import re
import socket
import subprocess
import time

from log_lines import CLIENT, SERVER, SETTINGS, check_times, texts_of
from peers import LIMIT, LOCAL, Server, reset, started


def check_client(checks):
    """The log of a client has its connection and its messages, and leaves its output as it is."""
    with Server(SERVER) as server:
        for level in ("0", "1", "2", "3"):
            began = time.time()
            ran = subprocess.run([CLIENT, "--log", level, "-w", server.uri()], stdin=subprocess.DEVNULL,
                                 capture_output=True, timeout=LIMIT)
            texts = texts_of(ran.stderr)
            if level in "23":
                check_times(checks, f"client at level {level}", ran.stderr, began)
            checks.same(f"client at level {level}", (ran.returncode, ran.stdout), (0, b"coap+tcp\n"))
            checks.same(f"client at level {level}: only lines of a log", len(texts), len(ran.stderr.splitlines()))
            first, last = (rf"connection 1 opened to {LOCAL}:{server.port}",
                           r"connection 1 ended: last response; 2 messages, \d+ bytes in; 2 messages, \d+ bytes out")
            checks.same(f"client at level {level}: first line", any(re.fullmatch(first, it) for it in texts[:1]),
                        level in "23")
            checks.same(f"client at level {level}: last line", any(re.fullmatch(last, it) for it in texts[-1:]),
                        level in "23")
            sent, received = (any(it.startswith(f"connection 1 {front}") for it in texts)
                              for front in ("out: 0.01 GET", "in: 2.05 Content"))
            checks.same(f"client at level {level}: messages", sent and received, level == "3")


def ask_of(words, *answers, ends=socket.socket.close):
    """Runs a client with these arguments against a peer that sends the answers: the first one at once, the others after
    the request. At last `ends` ends the connection. Without an answer it stays open until the client ends."""
    how = {"stdin": subprocess.DEVNULL, "stdout": subprocess.PIPE, "stderr": subprocess.PIPE}
    with (socket.create_server((LOCAL, 0)) as listener,
          started([CLIENT, *words, f"coap+tcp://{LOCAL}:{listener.getsockname()[1]}/"], **how) as process):
        listener.settimeout(LIMIT)
        peer = listener.accept()[0]
        for at, answer in enumerate(answers):
            peer.sendall(answer)
            time.sleep(0.2)
            # The client's CSM and its request are read, so that the end is no reset unless `ends` is one.
            if at == 0:
                peer.recv(65536)
        if answers:
            ends(peer)
        output, error = process.communicate(timeout=LIMIT)
        peer.close()
        return subprocess.CompletedProcess(words, process.returncode, output, error)


def check_client_ends(checks):
    """Each line for the end of a client's connection has the reason, and a failure or a limit is a warning."""
    too_large, abort, settings = bytes.fromhex("f0ffffff0045"), bytes.fromhex("00e5"), bytes.fromhex("00e1")
    put = ["-m", "put", "-e", "x" * 2_000]
    refused, large = ("the request has 2006 bytes; the peer accepts 1152",
                      "the server sent a message of more than 65536 bytes")
    ends = [
        # The arguments, what the peer sends, how it ends the connection, the reason, and the text of the warning.
        ([], [SETTINGS], reset, "the connection ended before the last response", " failed"),
        ([], [SETTINGS], socket.socket.close, "the connection ended before the last response", None),
        ([], [SETTINGS, abort], socket.socket.close, "the server sent Abort", None),
        ([], [SETTINGS, too_large], socket.socket.close, large, ": " + large),
        (put, [settings], socket.socket.close, refused, ": " + refused),
        (["-B", "1"], [], None, "the server sent no CSM within 1 second", None),
    ]
    for words, answers, how, reason, warning in ends:
        warnings = [f"connection 1{warning}"] if warning else []
        for level in ("1", "2"):
            texts = texts_of(ask_of([*words, "--log", level], *answers, ends=how).stderr)
            ended = texts.pop() if level == "2" and texts else ""
            checks.same(f"client: warnings of {reason!r} at level {level}", texts[int(level) - 1:], warnings)
            checks.same(f"client: reason at level {level}", ended.startswith(f"connection 1 ended: {reason}; "),
                        level == "2")
