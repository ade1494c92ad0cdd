"""Counts the cost of a GET, a PUT and a tick on a server with many connections, observers or resources.

These are events of a script. The cost of 1,000 of them is reduced by that of 1,000 lines without an effect. These lines
are the same bytes for a connection that does not exist, and ticks that do not change the time. So neither reading a
line nor starting the program counts.

The script also counts the cost of a notification with its drain. In the first run, 255 connections observe the resource
that changes. In the second run, with the same changes and drains, they observe another one. The same is counted for the
observers of one connection, after a tick and after a PUT. Last, it is counted for one observer beside others of its
connection that observe another resource.
"""

import collections

import pictures
from counting import MISSED_BY, counted_alone
from servers import ROOT

TIMES = 1000

# The program with its maximum numbers of connections and resources.
COMMAND = [f"{ROOT}/bin/coap-server", "--connections", "256", "-d", "1000", "--script", "-"]

# The number of other open connections, the total number of their observers of another resource, and the number of
# stored resources.
Setting = collections.namedtuple("Setting", ["connections", "observers", "resources"])

# The three tables: title, varied field, and settings.
ROWS = [
    ("other connections", "connections", [Setting(it, 0, 1) for it in (0, 16, 64, 128, 255)]),
    ("observers, beside 255 other connections", "observers",
     [Setting(255, it, 1) for it in (0, 255, 1020, 2040, 4080)]),
    ("resources", "resources", [Setting(0, 0, it) for it in (1, 10, 100, 300, 998)]),
]

# Limits beside all other connections: the ratio of the cost of a PUT to that without them, and the instructions of a
# tick.
IDLE_TIMES, IDLE_TICK = 1.3, 500

# Limits beside connections that each observe another resource as often as possible. The first is the ratio of the cost
# of a PUT to that without observers. The second is the number of instructions of a tick for each of these connections.
PUT_TIMES, TICK_EACH = 1.1, 2

# Maximum instructions of a notification with its drain, number of notified connections, and number of changes.
NOTIFIED_EACH, TOLD, CHANGES = 880, 255, 20

# The program with the maximum number of observers of a connection, and the counted numbers of observers. Then the
# maximum instructions of a notification with its drain, and its maximum ratio to the cost with the fewest observers.
MANY_OBSERVERS = [*COMMAND[:-2], "--observers", "256", *COMMAND[-2:]]
TOGETHER, TOGETHER_EACH, TOGETHER_TIMES = (16, 64, 255), 1_300, 1.2

# Numbers of other observers of the connection, and the maximum ratio of the cost of a notification to that without
# them.
BESIDE, BESIDE_TIMES = (0, 16, 64, 255), 1.1

# The resource that observers observe, the one that is requested and changed, and /time.
SEEN, ASKED, MOMENT = b"seen", b"0000", b"time"

CSM = "00e1"


def request(code, token, options, payload=b""):
    """Returns a request whose options and payload fit into 12 bytes, in hexadecimal."""
    body = options + (b"\xff" + payload if payload else b"")
    return (bytes([len(body) << 4 | len(token), code]) + token + body).hex()


GET = request(0x01, b"\x01", b"\xb4" + ASKED)
PUT = request(0x03, b"\x02", b"\xb4" + ASKED, b"yz")


def observation(number, path=SEEN):
    """Returns a GET that registers an observer of a path of four letters, with this number as its token."""
    return request(0x01, number.to_bytes(2, "big"), b"\x60\x54" + path)


def before(setting):
    """Returns the lines that make a setting. The last connection is the one that sends requests."""
    lines = [f"put /{SEEN.decode()} - 78", *(f"put /{it:04} - 78" for it in range(setting.resources))]
    lines += ["open"] * (setting.connections + 1)
    lines += [f"in {it} {CSM}" for it in range(1, setting.connections + 2)]
    return lines + [f"in {1 + it % setting.connections} {observation(it)}" for it in range(setting.observers)]


def kinds(setting):
    """Yields for each kind of event its lines, and the lines without an effect."""
    asking, absent = setting.connections + 1, 999
    for sent in (GET, PUT):
        yield [f"in {asking} {sent}"] * TIMES, [f"in {absent} {sent}"] * TIMES
    yield [f"tick {it}" for it in range(1, TIMES + 1)], ["tick 0"] * TIMES


def costs(setting):
    """Yields the instructions of an event of each kind."""
    for lines, idle in kinds(setting):
        spent, nothing = (counted_alone(COMMAND, "\n".join([*before(setting), *it, ""]).encode())
                          for it in (lines, idle))
        yield round((spent - nothing) / TIMES)


def judged(changed, rows):
    """Prints whether the first and the last row of a table meet the limits beside other connections, or beside
    observers of another resource. The table of resources has none."""
    (_, _, put_alone, _), (_, _, put_beside, tick) = rows[0], rows[-1]
    times, each = put_beside / put_alone, tick / ROWS[1][2][-1].connections
    limits = {
        "connections": ((times <= IDLE_TIMES,
                         f"a PUT beside idle connections, {times:.2f} times, at most {IDLE_TIMES}"),
                        (tick <= IDLE_TICK,
                         f"a tick beside idle connections, {tick:,} instructions, at most {IDLE_TICK}")),
        "observers": ((times <= PUT_TIMES,
                       f"a PUT beside observers of another resource, {times:.2f} times, at most {PUT_TIMES}"),
                      (each <= TICK_EACH,
                       f"a tick for each connection that does not observe /time, {each:.1f}, at most {TICK_EACH}")),
    }.get(changed, ())
    for one, said in limits:
        print(f"{'met' if one else 'MISSED'}: {said}", flush=True)
    return all(one for one, _ in limits)


def notified():
    """Prints the cost of a notification with its drain, and returns true if it is within its limit."""
    totals = []
    for path in (ASKED, SEEN):
        observers = [f"in {it} {observation(it, path)}" for it in range(1, TOLD + 1)]
        drains = [f"drain {it}" for it in range(1, TOLD + 2)]
        changes = [f"in {TOLD + 1} {PUT}", *drains] * CHANGES
        lines = [*before(Setting(TOLD, 0, 1)), *observers, *drains, *changes, ""]
        totals.append(counted_alone(COMMAND, "\n".join(lines).encode()))
    each = round((totals[0] - totals[1]) / (TOLD * CHANGES))
    met = each <= MISSED_BY * NOTIFIED_EACH
    print(f"\n{'met' if met else 'MISSED'}: a notification with its drain, {each:,} instructions, at most "
          f"{NOTIFIED_EACH:,}", flush=True)
    return met


def cost_on_one(observers_of, path, changes):
    """Returns the instructions of all notifications of this path with their drains, when these lines change it.
    `observers_of` returns the observers that one connection registers, where some of them observe the path that it is
    given."""
    totals = []
    for observed in (path, SEEN):
        observers = [f"in 1 {it}" for it in observers_of(observed)]
        lines = [*before(Setting(1, 0, 1)), *observers, "drain 1",
                 *[it for change in changes for it in (change, "drain 1", "drain 2")], ""]
        totals.append(counted_alone(MANY_OBSERVERS, "\n".join(lines).encode()))
    return totals[0] - totals[1]


def cost_together(count, path, changes):
    """Returns the instructions of a notification with its drain, when one connection has `count` observers of the path
    that changes."""

    def observers_of(observed):
        return [observation(it, observed) for it in range(1, count + 1)]

    return round(cost_on_one(observers_of, path, changes) / (count * len(changes)))


def cost_beside(count, path, changes):
    """Returns the same for one observer, when `count` other observers of its connection observe something else."""

    def observers_of(observed):
        return [observation(0, observed), *(observation(it) for it in range(1, count + 1))]

    return round(cost_on_one(observers_of, path, changes) / len(changes))


def on_one_connection(title, counts, cost, judge):
    """Prints the cost of a notification by the number of observers, and returns `True` if it is within its limits.
    `cost` returns one of them; `judge` returns whether a column of costs is within its limits, and the words for it."""
    print(f"\n| {title} | a notification after a tick | after a PUT |\n|---|---|---|")
    rows = []
    for count in counts:
        ticked = cost(count, MOMENT, [f"tick {it}" for it in range(1, CHANGES + 1)])
        rows.append((ticked, cost(count, ASKED, [f"in 2 {PUT}"] * CHANGES)))
        print(f"| {count} | {rows[-1][0]:,} | {rows[-1][1]:,} |", flush=True)
    all_met = True
    for kind, costs_of in zip(("a tick", "a PUT"), zip(*rows)):
        met, words = judge(costs_of)
        all_met = met and all_met
        print(f"{'met' if met else 'MISSED'}: a notification after {kind}, {words}", flush=True)
    return all_met


def together():
    """Prints the cost of a notification beside others of its connection, and returns `True` if it is within its
    limits."""

    def judge(costs_of):
        met = max(costs_of) <= TOGETHER_EACH and costs_of[-1] <= TOGETHER_TIMES * costs_of[0]
        return met, (f"{max(costs_of):,} instructions, at most {TOGETHER_EACH:,}, and "
                     f"{costs_of[-1] / costs_of[0]:.2f} times with {TOGETHER[-1]} observers, at most {TOGETHER_TIMES}")

    return on_one_connection("observers of one connection", TOGETHER, cost_together, judge)


def beside():
    """Prints the cost of a notification beside observers of its connection that observe something else, and returns
    `True` if it is within its limits."""

    def judge(costs_of):
        return (costs_of[-1] <= BESIDE_TIMES * costs_of[0],
                f"{costs_of[-1] / costs_of[0]:.2f} times with {BESIDE[-1]} others, at most {BESIDE_TIMES}")

    return on_one_connection("other observers of the connection", BESIDE, cost_beside, judge)


def over_settings():
    """Prints, keeps and draws the tables. Returns true if they are drawn and the targets are met."""
    tables, met = [], True
    for title, changed, settings in ROWS:
        print(f"\n| {title} | GET | PUT | tick |\n|---|---|---|---|")
        rows = []
        for setting in settings:
            rows.append([getattr(setting, changed), *costs(setting)])
            print("| %s |" % " | ".join(f"{it:,}" for it in rows[-1]), flush=True)
        met = judged(changed, rows) and met
        tables.append(pictures.table(title, [changed, "GET", "PUT", "tick"], rows))
    met = notified() and met
    met = together() and met
    met = beside() and met
    pictures.keep("instructions", tables)
    return pictures.draw("instructions") and met
