"""Checks servers that are full, killed, drained or stuck, and several servers."""

import contextlib
import signal

from peers import LIMIT
from proxies import (
    AT_ONCE, CONTENT, CREATED, GET, NOT_FOUND, PEER_SETTINGS, PUT, QUICK_CHECKS, SERVERS, SETTINGS, Kind, spelled,
)
from silent_peers import lasted
from workspace import ROOT

# Seconds that a peer waits for a full server. This is longer than a failing check takes.
QUEUED = 4


def check_full(checks, setting):
    """Checks a server all of whose connections are in use, except that of the check."""
    places = QUICK_CHECKS + [("maxconn 255", "maxconn 3"), ("timeout queue 10s", "timeout queue %ds" % QUEUED)]
    with setting.front(words=["--connections", "4"], places=places) as front, contextlib.ExitStack() as stack:
        peers = [stack.enter_context(front.greeted("127.0.0.%d" % number)) for number in (2, 3, 4)]
        failed = front.counts("one")["chkfail"]
        late = stack.enter_context(front.peer(Kind("127.0.0.5")))
        late.socket.sendall(PEER_SETTINGS)
        checks.same("a peer that waits in vain for a connection", lasted(late.end(), QUEUED), (b"", True))
        checks.same("a full server is up", (front.status("one"), front.counts("one")["chkfail"]),
                    (("UP", "L7OK"), failed))
        late = stack.enter_context(front.peer(Kind("127.0.0.6")))
        late.socket.sendall(PEER_SETTINGS)
        checks.same("a peer that waits for a connection", late.is_silent(QUEUED / 4), True)
        peers.pop().socket.close()
        late.socket.settimeout(LIMIT)
        checks.same("the peer is served after another one leaves", late.next(), (SETTINGS, b"", b""))


def sources_of(front):
    """Returns an address for each server whose peers with that address use the server."""
    found = {}
    for source in ("127.0.0.%d" % number for number in range(10, 200)):
        found.setdefault(front.who(source)[0], source)
        if set(found) == set(front.ports):
            break
    return found


def check_killed(checks, setting):
    """Checks a server that is killed and started again."""
    with setting.front(("one", "two"), places=QUICK_CHECKS) as front:
        found = sources_of(front)
        checks.same("servers that have a source", sorted(found), ["one", "two"])
        source = found["one"]
        with front.greeted(source) as observer:
            checks.same("an observer", observer.ask(spelled(GET, b"o", "who", True)), (CONTENT, b"o", b"one"))
            front.kill("one")
            got, seconds = front.who(source)
            checks.same("the next connection goes to the other server", (got, seconds < AT_ONCE or seconds),
                        ("two", True))
            checks.same("the observer's connection ends", observer.end()[1] is not None, True)
        with front.greeted(source) as observer:
            checks.same("it observes again", observer.ask(spelled(GET, b"o", "who", True)), (CONTENT, b"o", b"two"))
        checks.same("the server is reported down", front.wait(lambda: front.status("one")[0] == "DOWN"), True)
        checks.same("connections while it is down", front.who(source)[0], "two")
        front.start("one")
        checks.same("the server is reported up again", front.wait(lambda: front.status("one") == ("UP", "L7OK")), True)
        checks.same("connections afterwards", [front.who(found[it])[0] for it in ("one", "two")], ["one", "two"])


def check_drained(checks, setting):
    """Checks a server in state drain: its connections stay, and new connections go to another server."""
    drain = "set server coap/one state drain"
    with open(f"{ROOT}/docs/DEPLOYING.md", encoding="utf-8") as page:
        checks.same("the command of docs/DEPLOYING.md", f'echo "{drain}" | sudo socat - ' in page.read(), True)
    with setting.front(("one", "two")) as front:
        source = sources_of(front)["one"]
        with front.greeted(source) as peer:
            front.tell(drain)
            checks.same("a new connection", front.who(source)[0], "two")
            checks.same("a connection from before", peer.ask(spelled(GET, b"q", "who")), (CONTENT, b"q", b"one"))
        front.tell("set server coap/one state ready")
        checks.same("a new connection afterwards", front.who(source)[0], "one")


def check_stuck(checks, setting):
    """Checks a server that accepts connections and sends nothing."""
    with setting.front(("one", "two"), places=QUICK_CHECKS + [("timeout check 2s", "timeout check 1s")]) as front:
        source = sources_of(front)["one"]
        with front.greeted(source) as observer:
            front.processes["one"].send_signal(signal.SIGSTOP)
            checks.same("the server is reported down", front.wait(lambda: front.status("one")[0] == "DOWN"), True)
            checks.same("peers of the server are disconnected", observer.end()[1] is not None, True)
        checks.same("the next connection goes to the other server", front.who(source)[0], "two")


def check_four(checks, setting):
    """Checks four servers: each source uses one of them, and a resource stored at one does not exist at the others."""
    with setting.front(tuple(SERVERS)) as front:
        found = sources_of(front)
        checks.same("servers in use", sorted(found), sorted(SERVERS))
        sources = ["127.0.0.%d" % number for number in range(200, 220)]
        first = [front.who(source)[0] for source in sources]
        checks.same("each source gets its server again", [front.who(source)[0] for source in sources], first)
        with front.greeted(found["one"]) as peer:
            checks.same("a PUT", peer.ask(spelled(PUT, b"p", "here", payload=b"x")), (CREATED, b"p", b""))
        for name, source in found.items():
            with front.greeted(source) as peer:
                wanted = (CONTENT, b"g", b"x") if name == "one" else (NOT_FOUND, b"g", b"")
                checks.same("the resource for a peer of %s" % name, peer.ask(spelled(GET, b"g", "here")), wanted)
