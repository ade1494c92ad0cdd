"""Checks addresses at which a server cannot listen, names with several addresses, and timeouts."""

import contextlib
import os
import resource
import socket

from both_programs import cannot_connect, cannot_listen, explained, listens
from peers import LOCAL, Server, client, free_port, held
from waits import Waits


def check_reserved(checks, programs):
    """Checks a server that is started without the permission for a port that the system reserves, and one for which the
    system fails otherwise."""
    with open("/proc/sys/net/ipv4/ip_unprivileged_port_start", encoding="ascii") as file:
        port = min(int(file.read()), 1024) - 1
    words = ["setpriv", "--bounding-set", "-net_bind_service"] if os.geteuid() == 0 else []
    if port > 0:
        program, *more = [*words, programs.server, "-A", LOCAL, "-p", str(port)]
        done = client(program, more)
        why = "permission denied for address %s port %d; choose a port from 1024 on with -p" % (LOCAL, port)
        checks.same("a reserved port", done, (3, b"", cannot_listen(why)))
    # The standard streams and the set of events use all descriptors.
    done = client(programs.server, ["-A", LOCAL, "-p", "5683"],
                  preexec_fn=lambda: resource.setrlimit(resource.RLIMIT_NOFILE, (4, 4)))
    checks.same("no descriptor for the socket", done,
                (3, b"", cannot_listen("address %s port 5683: Too many open files (os error 24)" % LOCAL)))


def check_address(checks, programs):
    """Checks IPv6, an address that is in use, and one that is not of this machine."""
    if socket.has_ipv6:
        with Server(programs.server, host="::1") as server:
            checks.same("IPv6: line", server.said, listens(server))
            checks.same("IPv6", client(programs.client, [server.uri()]), (0, b"coap+tcp", b""))
    with Server(programs.server) as server:
        in_use = "address %s port %d is already in use; choose another port with -p" % (LOCAL, server.port)
        port = free_port()
        foreign = "address 192.0.2.1 port %d is not available on this machine; choose another address with -A" % port
        for host, port, why in [(LOCAL, server.port, in_use), ("192.0.2.1", port, foreign)]:
            done = client(programs.server, ["-A", host, "-p", str(port)])
            checks.same("an address that is not available", done, (3, b"", cannot_listen(why)))
    port = free_port()
    reported = b"coap-server: listening on %s:%d\ncoap-server: too many turns\n" % (LOCAL.encode(), port)
    checks.same("turns", client(programs.server, ["-A", LOCAL, "-p", str(port), "--turns", "1"]), (3, b"", reported))


def silent_port(stack, hosts, other):
    """Returns a port at which these addresses listen and respond to no further connection, since their backlogs are
    full. Nothing listens at `other`."""
    port = free_port(other, hosts)
    for host in hosts:
        listener = stack.enter_context(held(host, port))
        listener.listen(0)
        while True:
            waiting = stack.enter_context(socket.socket())
            waiting.settimeout(0.3)
            try:
                waiting.connect((host, port))
            except TimeoutError:
                break
    return port


def check_addresses(checks, programs):
    """Checks a name with several addresses: the time for each, the addresses that are tried, and the error of the last
    one."""
    silent = ["127.0.0.%d" % number for number in range(2, 5)]
    good, unreachable = "127.0.0.5", "127.0.0.6"
    with Waits("names", at_most=200, UNREACHABLE=unreachable) as waits, contextlib.ExitStack() as stack:
        port = silent_port(stack, silent, good)
        stack.enter_context(Server(programs.server, host=good, port=port))
        rows = [
            # The addresses, -B, the result, and the seconds after which it must come.
            ([good], 5, "coap+tcp", 0), ([silent[0], good], 4, "coap+tcp", 2), ([*silent, good], 4, "coap+tcp", 3),
            ([silent[0], good], 1000, "coap+tcp", 500),
            ([silent[0], silent[1], good], 1000, "coap+tcp", 1000 / 3 + 1000 / 3),
            ([silent[0], good, *["127.0.0.7"] * 8], 3, "coap+tcp", 1), ([silent[0], good], 1, "timed out", 1),
            (silent, 3, "timed out", 3),
            (["127.0.0.7", silent[0]], 1, "timed out", 1), ([unreachable, "127.0.0.7"], 1, "connection refused", 0),
            (["127.0.0.7", unreachable], 1, "host unreachable", 0), ([], 1, "unknown name", 0),
            (["127.0.0.7"] * 31 + [good], 1, "coap+tcp", 0), (["127.0.0.7"] * 32 + [good], 1, "connection refused", 0),
        ]
        for addresses, seconds, reported, after in rows:
            names = {"NAMES": " ".join(addresses)} if addresses else {}
            done = client(programs.client, ["-B", str(seconds), "coap+tcp://many.test:%d/" % port],
                          **waits.how(**names))
            wanted = (0, reported.encode(), b"") if reported == "coap+tcp" else (3, b"", cannot_connect(reported))
            checks.same("a name for %r, -B %d" % (addresses, seconds), done, wanted)
            checks.same("a name for %r, -B %d: %.2f s" % (addresses, seconds, waits.passed()),
                        after <= waits.passed() + 0.01 < after + 0.9, True)


def check_timeouts(checks, programs):
    """Checks that -B is the timeout of connecting, and that of the response. The clock of the client is advanced, so
    that hours pass at once."""
    silent, mute = "127.0.0.2", LOCAL
    with Waits("names", at_most=5, NAMES="%s %s" % (silent, mute)) as waits, contextlib.ExitStack() as stack:
        port = silent_port(stack, [silent], mute)
        # A silent peer at the same port, at an address that connects.
        stack.enter_context(socket.create_server((mute, port)))
        unconnected = (3, b"", cannot_connect("timed out"))

        def unanswered(seconds):
            return 4, b"", explained("the server sent no CSM within %d second%s" % (seconds, "s" * (seconds != 1)))

        rows = [(silent, seconds, unconnected, seconds) for seconds in (1, 2, 3, 100, 100_000)]
        rows += [(mute, seconds, unanswered(seconds), seconds) for seconds in (1, 2, 3, 100)]
        # Half of the time is for the first address. After the second one connects, all of it is for the response.
        rows += [("many.test", seconds, unanswered(seconds), seconds // 2 + seconds) for seconds in (2, 4, 100)]
        for host, seconds, wanted, after in rows:
            done = client(programs.client, ["-B", str(seconds), "coap+tcp://%s:%d/" % (host, port)], **waits.how())
            checks.same("%s, -B %d" % (host, seconds), done, wanted)
            checks.same("%s, -B %d: %.2f s" % (host, seconds, waits.passed()),
                        after <= waits.passed() + 0.01 < after + 0.5, True)
            if host == mute:
                checks.same("%s, -B %d: the client sends at once" % (host, seconds),
                            [at < 0.5 for at, _ in waits.calls("send")], [True])
