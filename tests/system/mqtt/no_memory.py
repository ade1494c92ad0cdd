"""Makes each allocation of a gateway fail in turn: while it starts, and while it serves."""

import collections
import concurrent.futures
import contextlib
import mmap
import struct
import tempfile

from commands import preloaded
from gateways import (
    CHANGED, CONTENT, CREATED, GET, INTERNAL, PREFIX, PUT, TIMEOUT, UNAVAILABLE, Gateway, Setting, soon,
)

# Gateways at once. Most of them wait.
AT_ONCE = 12

# Statuses: a file cannot be read; there is no memory.
FAILED = (1, 3)

FORMAT_50 = ("-D", "PUBLISH", "user-property", "content-format", "50")

# Answers to a write that is not done, or may not be. None: the connection ended.
UNDONE = (INTERNAL, UNAVAILABLE, TIMEOUT, None)


class Refusing(Gateway):
    """A gateway with tests/harness/refuse_memory.c, whose numbers are in a file. It has a prefix of its own, so that it
    makes the same allocations each time."""

    def __init__(self, program, setting, number):
        self.file = tempfile.NamedTemporaryFile(dir=setting.folder)
        self.file.write(bytes(24))
        self.file.flush()
        self.numbers = mmap.mmap(self.file.fileno(), 24)
        self.prefix = f"{PREFIX}/{number}"
        setting.broker.publish(f"{self.prefix}/first", b"first", *FORMAT_50)
        before = ["env", f"LD_PRELOAD={setting.folder}/refuse_memory.so", f"REFUSE_MEMORY={self.file.name}"]
        super().__init__(program, setting.broker, setting.folder, number, ["--prefix", self.prefix], before)

    def refuse(self, number):
        """Makes an allocation fail, counted from now on."""
        struct.pack_into("=qq", self.numbers, 0, number, 0)

    def has_refused(self):
        return struct.unpack_from("=q", self.numbers, 8)[0] == 1


def answer(ask):
    """Returns the code of the response to a request, or None if the connection ended. No answer is a failure."""
    try:
        response = ask()
    except OSError:
        return None
    return response.code if response else "no answer"


def start(gateway, number):
    """Lets an allocation fail while the gateway starts and reads for the first time."""
    gateway.refuse(number)
    gateway.start(waits=False)
    if gateway.says("listening on"):
        return "listens"
    return gateway.ended(), "no memory" in gateway.log() or "cannot" in gateway.log()


def write(gateway, number):
    """Lets an allocation fail while a write is made."""
    gateway.start()
    with gateway.peer() as peer:
        peer.code(GET, f"{gateway.prefix}/first")
        gateway.refuse(number)
        return answer(lambda: peer.ask(PUT, f"{gateway.prefix}/own", payload=b"%d" % number, form=50))


def read(gateway, number):
    """Lets an allocation fail while a message of another program arrives."""
    gateway.start()
    with gateway.peer() as peer:
        peer.code(GET, f"{gateway.prefix}/first")
        gateway.refuse(number)
        gateway.broker.publish(f"{gateway.prefix}/own", b"%d" % number, *FORMAT_50)
        return soon(lambda: peer.get(f"{gateway.prefix}/own"), (CONTENT, b"%d" % number, 50))


def accept(gateway, number):
    """Lets an allocation fail while a peer connects."""
    gateway.start()
    with gateway.peer() as other:
        other.code(GET, f"{gateway.prefix}/first")
        gateway.refuse(number)
        with gateway.peer() as peer:
            code = answer(lambda: peer.ask(GET, f"{gateway.prefix}/first"))
        return code, other.code(GET, f"{gateway.prefix}/first")


# An attempt with one gateway: the number of the allocation, and whether that failed. Then the result of the action,
# whether the gateway accepted a write later, its resource then, and its status at the end.
Attempt = collections.namedtuple("Attempt", ["number", "refused", "result", "accepts", "payload", "status"])


def attempt(action, gateway, number):
    """Lets an allocation fail during an action, and returns what came of it."""
    with contextlib.ExitStack() as stack:
        stack.callback(gateway.kill)
        result, refused = action(gateway, number), gateway.has_refused()
        gateway.refuse(0)
        if gateway.process.poll() is not None:
            return Attempt(number, refused, result, None, None, gateway.process.returncode)
        with gateway.peer() as peer:
            later = lambda: peer.code(PUT, f"{gateway.prefix}/later", payload=b"1")  # noqa: E731
            accepts = soon(lambda: later() in (CREATED, CHANGED), True)
            found = peer.ask(GET, f"{gateway.prefix}/own")
        payload = found.payload if found.code == CONTENT else None
        return Attempt(number, refused, result, accepts, payload, gateway.stop())


def attempts(action, program, setting):
    """Yields attempts for each allocation of an action, up to one that it does not make."""
    with concurrent.futures.ThreadPoolExecutor(AT_ONCE) as pool:
        for least in range(1, 10_000, AT_ONCE):
            numbers = range(least, least + AT_ONCE)
            gateways = [Refusing(program, setting, at) for at in numbers]
            found = list(pool.map(attempt, [action] * AT_ONCE, gateways, numbers))
            yield from found
            if not all(it.refused for it in found):
                return


def is_right(action, it, number):
    """Returns true if the result of an action is one that it may have after a failed allocation."""
    text = b"%d" % number
    return {
        start: it == "listens", write: it == CREATED or it in UNDONE, read: it == (CONTENT, text, 50),
        accept: it in ((CONTENT, CONTENT), (None, CONTENT)),
    }[action]


def refuse_each(checks, action, program):
    """Checks an attempt for each allocation of an action."""
    with Setting(program, 0) as setting:
        preloaded("refuse_memory", setting.folder)
        found = list(attempts(action, program, setting))
        stored = setting.broker.retained()
    for it in found:
        check_attempt(checks, action, it, stored.get(f"{PREFIX}/{it.number}/own"))
    refused = sum(it.refused for it in found)
    checks.same(f"{action.__name__}: allocations fail", refused > 1, True)
    results = [it.result[0] if isinstance(it.result, tuple) else it.result for it in found if it.refused]
    print("%s: %d allocations fail: %s" % (action.__name__, refused, dict(collections.Counter(results))))


def check_attempt(checks, action, it, stored):
    """Checks an attempt. The broker has this payload for the resource."""
    about = f"{action.__name__}, allocation {it.number}"
    if action is start and it.status in FAILED:
        checks.same(f"{about}: the end of a gateway that has no memory", it.result, (it.status, True))
        return
    checks.same(f"{about}: the result", None if is_right(action, it.result, it.number) else it.result, None)
    checks.same(f"{about}: it accepts writes, and its end", (it.accepts, it.status), (True, 0))
    checks.same(f"{about}: its resource is that of the broker", it.payload, stored)
    if action is write and it.result == CREATED:
        checks.same(f"{about}: the broker has the write", stored, b"%d" % it.number)


def check_memory_at_start(checks, program):
    """Makes each allocation fail while a gateway starts and reads all messages."""
    refuse_each(checks, start, program)


def check_memory_of_writes(checks, program):
    """Makes each allocation fail while a gateway publishes a write and gets it back."""
    refuse_each(checks, write, program)


def check_memory_of_messages(checks, program):
    """Makes each allocation fail while a gateway gets a message of another program."""
    refuse_each(checks, read, program)


def check_memory_of_peers(checks, program):
    """Makes each allocation fail while a peer connects."""
    refuse_each(checks, accept, program)
