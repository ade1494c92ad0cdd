"""Peers that write at random, and the sequence of the broker's messages that judges them."""

import collections
import contextlib
import random
import subprocess
import threading
import time

from gateways import CHANGED, CREATED, DELETE, DELETED, PREFIX, PUT, TIMEOUT, UNAVAILABLE, soon

TOPICS, OUTSTANDING = 1500, 8

SUCCEEDED = (CREATED, CHANGED, DELETED)

# A write: its resource and its payload (None: a DELETE), and the epoch in which it was sent. Then the code of its
# response (or None), and when that came. An epoch is the time between two ends of the broker.
Written = collections.namedtuple("Written", ["name", "payload", "epoch", "code", "at"])


class Gate:
    """Lets writers write, and counts the epochs. A writer may make a share of its writes, so that they are spread over
    the disturbances. None is sent while the gate is closed."""

    def __init__(self):
        self.lock, self.is_open, self.share, self.epoch = threading.Lock(), True, 0, 0

    def close(self):
        """Ends the epoch: every later write belongs to the next one."""
        with self.lock:
            self.is_open = False
            self.epoch += 1

    def open(self):
        self.is_open = True


class Writer:
    """A peer that writes random resources, and connects again after a loss. About half of the resources exist at a
    time."""

    def __init__(self, gateway, number, count, gate, seconds, seed):
        self.gateway, self.left, self.total, self.gate, self.number = gateway, count, count, gate, number
        self.source, self.done, self.ends = random.Random(f"{seed} {number}"), [], time.monotonic() + seconds
        self.thread = threading.Thread(target=self.run, daemon=True)
        self.thread.start()

    def run(self):
        while self.left and time.monotonic() < self.ends:
            with contextlib.suppress(OSError), self.gateway.peer() as peer:
                self.write(peer)
            time.sleep(0.05)

    def send(self, peer, outstanding):
        """Sends a write, if one may be sent. Returns false if none may."""
        with self.gate.lock:
            if not self.gate.is_open or self.left <= self.total * (1 - self.gate.share):
                return False
            self.left -= 1
            name = "t%d" % self.source.randrange(TOPICS)
            payload = None if self.source.random() < 0.55 else b"%d.%d" % (self.number, self.left)
            form = self.source.choice([None, 0, 50]) if payload else None
            # The token of the request, in case that it is cut.
            outstanding[(peer.token + 1).to_bytes(4, "big")] = name, payload, self.gate.epoch
            peer.send(DELETE if payload is None else PUT, f"{PREFIX}/{name}", payload=payload or b"", form=form)
            return True

    def write(self, peer):
        """Writes until all is written or the connection ends. Outstanding writes have no response then."""
        outstanding = {}
        try:
            while (self.left or outstanding) and time.monotonic() < self.ends:
                while len(outstanding) < OUTSTANDING and self.send(peer, outstanding):
                    pass
                peer.read(0.1)
                codes = set()
                for token in [it for it in outstanding if peer.received[it]]:
                    code = peer.received.pop(token)[0].code
                    self.done.append(Written(*outstanding.pop(token), code, time.monotonic()))
                    codes.add(code)
                # While the broker is away, a write is refused at once.
                time.sleep(0.3 if UNAVAILABLE in codes else 0.03)
        finally:
            for token, what in outstanding.items():
                response = peer.received[token][0] if peer.received[token] else None
                self.done.append(Written(*what, response and response.code, time.monotonic()))


# An epoch as the recorder saw it: the state at its begin, and the messages in their order. Each message has its
# resource and its payload (None: a removal). If the broker ended it, the last messages may be missing.
Epoch = collections.namedtuple("Epoch", ["state", "messages"])


class Recorder:
    """The broker's sequence, as a subscriber of its own sees it. It subscribes again after a loss."""

    def __init__(self, broker):
        self.broker, self.lines, self.probes, self.process, self.ends = broker, [], set(), None, False
        self.thread = threading.Thread(target=self.run, daemon=True)

    def run(self):
        # A line has the retain flag, which only messages from before the subscription have, the topic and the payload.
        words = ["mosquitto_sub", *self.broker.words(), "-q", "1", "-t", f"{PREFIX}/#", "-F", "%r %t %x"]
        while not self.ends:
            how = {"stdin": subprocess.DEVNULL, "stdout": subprocess.PIPE, "stderr": subprocess.DEVNULL}
            with subprocess.Popen(words, **how) as self.process:
                for line in self.process.stdout:
                    self.note(*line.decode().rstrip("\n").split(" "))
            time.sleep(0.05)

    def note(self, flag, topic, payload):
        name, payload = topic.removeprefix(f"{PREFIX}/"), bytes.fromhex(payload) or None
        self.lines.append((flag == "1", name, payload))
        if name == "%probe":
            self.probes.add(payload)

    def is_there(self):
        """Waits until a message of this test arrives, and returns true if one does. All earlier ones have come then."""
        probe = random.randbytes(8)
        for _ in range(100):
            self.broker.publish(f"{PREFIX}/%probe", probe, retain=False)
            # A message that comes before the subscription is lost, so another one follows.
            if soon(lambda: probe in self.probes, True, 0.2):
                return True
        return False

    def epochs(self):
        """Returns the epochs. Each begins with the retained messages, of which that of a gateway's id is one."""
        found, is_begin = [Epoch({}, [])], True
        for is_retained, name, payload in self.lines:
            if is_retained and not is_begin:
                found.append(Epoch({}, []))
            is_begin = is_retained
            if not name.startswith("%") and is_retained:
                found[-1].state[name] = payload
            elif not name.startswith("%"):
                found[-1].messages.append((name, payload))
        return found

    def __enter__(self):
        self.thread.start()
        return self

    def __exit__(self, *_):
        self.ends = True
        self.process.kill()
        self.thread.join()


def state_after(epoch):
    """Returns the state after the messages of an epoch, and for each message the state that its resource had before."""
    state, before = dict(epoch.state), []
    for name, payload in epoch.messages:
        before.append((name, state.get(name)))
        state[name] = payload
    return {name: payload for name, payload in state.items() if payload is not None}, before


def unseen(writes, epoch):
    """Returns the states of resources by writes of an epoch whose message the recorder did not see, as two dicts of
    sets. The first one is of writes that succeeded, the second one of writes that may have been made."""
    seen, succeeded, possible = collections.Counter(epoch.messages), {}, {}
    for it in writes:
        seen[it.name, it.payload] -= it.code in SUCCEEDED
    for it in writes:
        if it.code in SUCCEEDED and seen[it.name, it.payload] < 0:
            succeeded.setdefault(it.name, set()).add(it.payload)
        elif it.code in (TIMEOUT, None):
            possible.setdefault(it.name, set()).add(it.payload)
    return succeeded, possible


def lost_by_end(epoch, writes, after):
    """Returns the resources whose state, after the broker has ended in order, is not that of their last write."""
    state, _ = state_after(epoch)
    succeeded, possible = unseen(writes, epoch)
    # The recorder misses the last messages alone: so a write that it has not seen came after all that it has seen.
    allowed = lambda name: succeeded.get(name, {state.get(name)}) | possible.get(name, set())  # noqa: E731
    return sorted(name for name in {*state, *after, *succeeded} if after.get(name) not in allowed(name))


def lost_by_kill(epoch, writes, after):
    """Returns the number of last messages that a killed broker has lost, or None if its state was never a state of the
    sequence."""
    state, before = state_after(epoch)
    wrong = {name for name in {*state, *after} if state.get(name) != after.get(name)}
    succeeded, possible = unseen(writes, epoch)
    # It may have saved some of the messages that the recorder has not seen.
    if all(after.get(name) in succeeded.get(name, set()) | possible.get(name, set()) for name in wrong):
        return 0
    for count, (name, payload) in enumerate(reversed(before), 1):
        (wrong.discard if after.get(name) == payload else wrong.add)(name)
        if not wrong:
            return count
    return None
