"""Counts checks, and has the bytes that many tests expect: the CSM of the server, each Abort, and the greeting."""

from concurrent.futures import ThreadPoolExecutor

CSM = "60e1230100004140"

ABORTS = {
    "bad message": "c0e5ff626164206d657373616765",
    "message too large": "d005e5ff6d65737361676520746f6f206c61726765",
    "bad token length": "d004e5ff62616420746f6b656e206c656e677468",
    "reserved code": "d001e5ff726573657276656420636f6465",
    "CSM expected": "d000e5ff43534d206578706563746564",
    "bad CSM option 1": "d004e52101ff6261642043534d206f7074696f6e",
    "bad CSM option 2": "d004e52102ff6261642043534d206f7074696f6e",
    "bad signal option": "d005e5ff626164207369676e616c206f7074696f6e",
}

# 2.05 of the root, without the bytes up to its token: Content-Format 0 and the greeting.
GREETING = "c0ff636f61702b746370"


# Beginning of a line on a check that was not made.
SKIPPED = "skipped: "


class Checks:
    """Counts passed and failed checks."""

    def __init__(self):
        self.passed = 0
        self.failed = 0

    def same(self, name, got, wanted):
        if got == wanted:
            self.passed += 1
        else:
            self.failed += 1
            print("FAILED %s: got %r, wanted %r" % (name, got, wanted))

    def skip(self, why):
        """Notes a check that this machine cannot make, with the reason. The gate repeats these at its end."""
        print("%s%s" % (SKIPPED, why), flush=True)

    def end(self, name=""):
        """Prints the counts, and returns the exit status of the script."""
        print(f"{name}: " * bool(name) + f"{self.passed} passed, {self.failed} failed")
        return int(self.failed > 0)

    def add(self, other):
        self.passed, self.failed = self.passed + other.passed, self.failed + other.failed


def side_by_side(runs, count):
    """Makes runs, `count` at a time, and returns their checks together. A run is a function of checks with its
    arguments."""
    def made(run):
        checks = Checks()
        run[0](checks, *run[1:])
        return checks
    total = Checks()
    with ThreadPoolExecutor(count) as pool:
        for checks in pool.map(made, runs):
            total.add(checks)
    return total


def part_of(checks, words):
    """Returns a list of checks, or its part K of N if the command line has `--part K/N`. Removes this from the line.

    Part K has every N-th check, so that the N parts together have all.
    """
    if "--part" not in words:
        return checks
    at = words.index("--part")
    _, part = words[at : at + 2]
    del words[at : at + 2]
    number, count = map(int, part.split("/"))
    return checks[number - 1 :: count]
