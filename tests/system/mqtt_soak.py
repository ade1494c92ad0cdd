#!/usr/bin/env python3
"""Makes 200,000 writes through two gateways to MQTT, while they, their connections and the broker stall and end.

    tests/system/mqtt_soak.py bin/coap-mqtt [SEED]

No write with a response 2.xx may be lost, unless the broker was killed before it saved it. At the end, the gateways and
the broker must be equal, and the memory and the descriptors of the gateways level. The first line has the seed, which
makes the same disturbances and the same writes. The last line is 'N passed, M failed', and the status is 0 if M is 0.
"""

import os
import random
import sys
import time

HERE = os.path.dirname(os.path.abspath(__file__))
sys.path[:0] = [os.path.join(HERE, "..", "harness"), os.path.join(HERE, "mqtt")]
from convergence import DISTURBANCES, Disturbed, check_end  # noqa: E402
from gateway_checks import PACKAGES, made  # noqa: E402
from gateways import soon  # noqa: E402
from packages import require  # noqa: E402

WRITES, SECONDS = 200_000, 3_000

# Each kind of disturbance comes this often, and once more after the last gateway was killed.
OFTEN, LATER = 2, 1

# Growth in bytes, and in descriptors, that counts as level.
LEVEL = 512 << 10, 2


def used(gateway):
    """Returns the resident bytes of a gateway, and its number of descriptors."""
    with open(f"/proc/{gateway.process.pid}/statm", encoding="ascii") as file:
        pages = int(file.read().split()[1])
    return pages * os.sysconf("SC_PAGE_SIZE"), len(os.listdir(f"/proc/{gateway.process.pid}/fd"))


def shuffled(source, count, *without):
    """Returns each kind of disturbance, that often, in any order."""
    found = [what for what in DISTURBANCES if what not in without for _ in range(count * DISTURBANCES[what])]
    source.shuffle(found)
    return found


def check_soak(checks, program, seed):
    """Checks the writes and the end."""
    with Disturbed(program, seed, WRITES, SECONDS) as setting:
        first = shuffled(setting.source, OFTEN)
        whats = first + shuffled(setting.source, LATER, "killed")
        checks.same("the recorder is there", setting.recorder.is_there(), True)
        setting.write()
        for count, what in enumerate(whats, 1):
            # The writers write during the disturbance too: their next share.
            setting.gate.share = (count + 1) / (len(whats) + 1)
            share = count / (len(whats) + 1)
            checks.same(f"the writers reach {what}", soon(lambda at=share: setting.has_share(at), True, 300), True)
            print("%d of %d: %s" % (count, len(whats), what), flush=True)
            if count == len(first) + 1:
                before = [used(it) for it in setting.gateways]
            setting.disturb(what)
            time.sleep(setting.source.uniform(0.1, 1))
        writes = setting.done()
        checks.same("the number of writes", len(writes), WRITES)
        connected = [setting.recorder.is_there(), *(it.says("resources") for it in setting.gateways)]
        checks.same("all are connected", connected, [True, True, True])
        after = [used(it) for it in setting.gateways]
        grown = [tuple(b - a for a, b in zip(*it)) for it in zip(before, after)]
        print("memory and descriptors: %r, then %r" % (before, after))
        checks.same("level", all(got <= most for it in grown for got, most in zip(it, LEVEL)) or grown, True)
        check_end(checks, setting, writes, setting.recorder.epochs())


def main(program, seed=None):
    require(PACKAGES)
    seed = random.randrange(1 << 32) if seed is None else int(seed)
    print("seed %d" % seed, flush=True)

    def check_soak_with_seed(checks, path):
        check_soak(checks, path, seed)

    checks = made(check_soak_with_seed, os.path.abspath(program))
    return checks.end()


if __name__ == "__main__":
    sys.exit(main(*sys.argv[1:]))
