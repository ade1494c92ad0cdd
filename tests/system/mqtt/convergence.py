"""Checks that no answered write is lost while gateways, their connections and the broker stall and end, and that all
are equal at the end."""

import collections
import contextlib
import math
import random
import signal
import time

from false_brokers import Relay
from gateway_checks import FakeSetting, state_of
from gateways import CHANGED, CREATED, DELETED, PREFIX, TIMEOUT, UNAVAILABLE, Gateway, Setting, soon
from writers import OUTSTANDING, SUCCEEDED, TOPICS, Gate, Recorder, Writer, lost_by_end, lost_by_kill, unseen

WRITES, WRITERS, SEED = 10_000, 8, 52

CODE_NAMES = {CREATED: "2.01", DELETED: "2.02", CHANGED: "2.04", UNAVAILABLE: "5.03", TIMEOUT: "5.04",
              None: "no response"}

# Kinds of disturbances, with their numbers.
DISTURBANCES = {"stall": 3, "long stall": 1, "killed": 3, "cut": 3, "broker stalls": 2, "broker ends": 3,
                "broker killed": 3}

# With the installed interval of 1, the disk would decide how many writes there are in a second.
INTERVAL = 100
SELDOM = [("autosave_interval 1", f"autosave_interval {INTERVAL}")]

# A killed broker loses less than these messages: changes until it saves, and those that came at once meanwhile.
MOST_LOST = INTERVAL + WRITERS * OUTSTANDING


End = collections.namedtuple("End", ["at", "is_killed"])


class Disturbed:
    """A broker, its recorder, two gateways that reach it through relays, and writers."""

    def __init__(self, program, seed, writes, seconds):
        self.program, self.seed, self.writes, self.seconds = program, seed, writes, seconds
        self.source = random.Random(seed)
        self.gate, self.gateways, self.relays, self.writers = Gate(), [], [], []
        # For each end of the broker, when it came, and whether it was killed.
        self.broker, self.recorder, self.ends, self.stack = None, None, [], contextlib.ExitStack()

    def __enter__(self):
        with contextlib.ExitStack() as stack:
            setting = stack.enter_context(Setting(self.program, 0, changes=SELDOM))
            self.broker, self.recorder = setting.broker, stack.enter_context(Recorder(setting.broker))
            for number in (1, 2):
                relay = stack.enter_context(Relay(setting.broker.port))
                gateway = Gateway(self.program, FakeSetting(relay.port, setting.folder), setting.folder, number)
                self.gateways.append(stack.enter_context(gateway))
                self.relays.append(relay)
            self.stack = stack.pop_all()
        return self

    def __exit__(self, *_):
        self.stack.close()

    def write(self):
        """Starts the writers."""
        common = (self.writes // WRITERS, self.gate, self.seconds, self.seed)
        self.writers = [Writer(self.gateways[at % 2], at, *common) for at in range(WRITERS)]

    def has_share(self, share):
        """Returns true if the writers have made a share of their writes."""
        return all(it.left <= it.total * (1 - share) for it in self.writers)

    def done(self):
        """Returns all writes, after their last responses."""
        self.gate.share = 1
        for it in self.writers:
            it.thread.join()
        return [it for writer in self.writers for it in writer.done]

    def disturb(self, what):
        """Stalls or ends a gateway, its connection or the broker."""
        number = self.source.randrange(2)
        gateway = self.gateways[number]
        stalls = {"stall": (gateway, 0.5), "long stall": (gateway, 5.5), "broker stalls": (self.broker, 1)}
        if what in stalls:
            who, seconds = stalls[what]
            who.process.send_signal(signal.SIGSTOP)
            time.sleep(seconds)
            who.process.send_signal(signal.SIGCONT)
        elif what == "killed":
            gateway.kill()
            gateway.start()
        elif what == "cut":
            self.relays[number].cut()
        else:
            self.end_broker(what == "broker killed")

    def end_broker(self, is_killed):
        """Ends the broker and starts it again. No write is sent meanwhile, so that each belongs to one of its runs."""
        self.gate.close()
        self.ends.append(End(time.monotonic(), is_killed))
        if is_killed:
            self.broker.kill()
        else:
            self.broker.process.terminate()
            self.broker.ended()
        self.broker.start()
        self.recorder.is_there()
        self.gate.open()


def check_epochs(checks, writes, epochs, ends, last):
    """Checks each epoch: what the broker lost at its end, and that each write that succeeded was in its sequence."""
    states = [it.state for it in epochs[1:]] + [last]
    for at, (epoch, end, after) in enumerate(zip(epochs, [*ends, End(math.inf, False)], states)):
        own = [it for it in writes if it.epoch == at]
        if end.is_killed:
            lost = lost_by_kill(epoch, own, after)
            is_little = lost is not None and lost <= MOST_LOST
            checks.same(f"messages that the killed broker lost in epoch {at}", is_little or lost, True)
        else:
            checks.same(f"resources that lost a write in epoch {at}", lost_by_end(epoch, own, after)[:5], [])
        # Only the end of the broker can hide a message from the recorder.
        missing = unseen([it for it in own if it.at < end.at - 1], epoch)[0]
        checks.same(f"writes that are not in the sequence of epoch {at}", sorted(missing.items())[:5], [])


def check_end(checks, setting, writes, epochs):
    """Checks that the broker and the stores of the gateways are equal at the end, and the writes before."""
    last = {it.removeprefix(f"{PREFIX}/"): payload for it, payload in setting.broker.retained().items()}
    checks.same("the number of epochs", len(epochs), len(setting.ends) + 1)
    check_epochs(checks, writes, epochs, setting.ends, last)
    for gateway in setting.gateways:
        with gateway.peer() as peer:
            found = soon(lambda p=peer: state_of(p, ["t%d" % at for at in range(TOPICS)]), last)
            different = sorted(set(found.items()) ^ set(last.items()))
            checks.same(f"the store of gateway {gateway.gateway}", different[:5], [])
    checks.same("resources", 300 < len(last) < 1000 or len(last), True)
    codes = collections.Counter(it.code for it in writes)
    checks.same("codes", set(codes) - set(CODE_NAMES), set())
    share = sum(codes[it] for it in SUCCEEDED) / len(writes)
    checks.same("most writes succeed", share > 0.5 or share, True)
    named = {name: codes[code] for code, name in CODE_NAMES.items() if codes[code]}
    print("%d writes, %s, %d resources" % (len(writes), named, len(last)))


def check_convergence(checks, program):
    """Checks many writes, with disturbances between."""
    with Disturbed(program, SEED, WRITES, 150) as setting:
        whats = [what for what, count in DISTURBANCES.items() for _ in range(count)]
        setting.source.shuffle(whats)
        checks.same("the recorder is there", setting.recorder.is_there(), True)
        setting.write()
        for count, what in enumerate(whats, 1):
            setting.gate.share = count / (len(whats) + 1)
            time.sleep(setting.source.uniform(0.3, 1))
            setting.disturb(what)
        writes = setting.done()
        checks.same("the number of writes", len(writes), WRITES)
        connected = [setting.recorder.is_there(), *(it.says("resources") for it in setting.gateways)]
        checks.same("all are connected", connected, [True, True, True])
        check_end(checks, setting, writes, setting.recorder.epochs())
