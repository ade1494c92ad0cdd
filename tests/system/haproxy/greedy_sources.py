"""Checks sources that open many connections, or open them too fast, beside another source."""

import contextlib
import select
import time

from libcoap_over_tls import libcoap
from proxies import AT_ONCE, Kind, connect

# Number of simultaneous peers of one source, and number of those that the file allows.
SILENT, HELD = 300, 32


def held(connections):
    """Returns the number of these connections that have not ended."""
    poll = select.poll()
    for it in connections:
        poll.register(it, select.POLLIN)
    return len(connections) - len(poll.poll(0))


def check_silent(checks, setting):
    """Checks many peers of one source that send nothing at all, beside peers of another source. No silent peer ends by
    itself."""
    with setting.front(places=[("timeout client 10s", "timeout client 60s")]) as front, contextlib.ExitStack() as stack:
        silent = []
        for _ in range(SILENT):
            # A rejected connection may be reset before this call returns.
            with contextlib.suppress(ConnectionResetError):
                silent.append(stack.enter_context(connect(front.port, "127.0.0.2")))
        got, seconds = front.who("127.0.0.3")
        checks.same("another source beside %d silent peers" % SILENT, (got, seconds < AT_ONCE or seconds),
                    ("one", True))
        checks.same("libcoap beside them", libcoap(front, "/who", ["-a", "127.0.0.4"]), (0, b"one\n", b""))
        front.wait(lambda: held(silent) <= HELD, AT_ONCE)
        checks.same("silent peers that stay connected", held(silent), HELD)


def check_places(checks, setting):
    """Checks many peers of one source that use connections of a server and then are silent, beside a peer of another
    source."""
    places = [("maxconn 255", "maxconn 39"), ("sc0_conn_rate gt 100", "sc0_conn_rate gt 1000")]
    with setting.front(words=["--connections", "40"], places=places) as front, contextlib.ExitStack() as stack:
        greeted = 0
        for _ in range(HELD + 20):
            with contextlib.suppress(OSError):
                greeted += stack.enter_context(front.peer(Kind("127.0.0.2"))).greet()
        checks.same("connected peers of one source", greeted, HELD)
        got, seconds = front.who("127.0.0.3")
        checks.same("another source beside them", (got, seconds < AT_ONCE or seconds), ("one", True))


def check_rate(checks, setting):
    """Checks a source that opens connections faster than allowed, one after the other, beside another source."""
    allowed = 20
    places = [("conn_rate(10s)", "conn_rate(3s)"), ("sc0_conn_rate gt 100", "sc0_conn_rate gt %d" % allowed)]
    with setting.front(places=places) as front:
        began, got = time.monotonic(), []
        while len(got) < allowed + 5:
            got.append(front.who("127.0.0.2")[0] == "one")
        took = time.monotonic() - began
        # On a slow machine, some of them may fall into the next period.
        checks.same("connections of a quick source", got == [True] * allowed + [False] * 5 or took > 2 or got, True)
        checks.same("another source beside it", front.who("127.0.0.3")[0], "one")
        checks.same("the quick source later", front.wait(lambda: front.who("127.0.0.2")[0] == "one" or time.sleep(1)),
                    True)
