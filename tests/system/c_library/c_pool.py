"""Checks programs of the C library with the static pool of examples/c in place of malloc."""

from c_examples import run


def check_pool(checks, made, large, given):
    """Runs the programs of the tests with a pool: their output is that with malloc. A pool that is too small is an
    allocation that fails, and nothing else. The smallest example does not even link malloc."""
    for words, way in ((large, "pooled"), (["application"], "pooled"), (["changes"], "pooled")):
        runs = [run([*made["driver", it], *words], given) for it in ("plain", way)]
        checks.same(f"{words[0]} with a pool", *((it.returncode, it.stdout, it.stderr) for it in reversed(runs)))
    runs = [run([*made["pair", it], "pair", "9"]) for it in ("plain", "pooled")]
    checks.same("a client and a server with a pool", *((it.returncode, it.stdout, it.stderr) for it in reversed(runs)))
    small = run([*made["driver", "small"], *large], given)
    checks.same("a pool that is too small", (small.returncode, small.stdout, small.stderr), (2, b"", b""))
    [program] = made["socketpair", "plain"]
    called = {line.split()[-1].partition("@")[0] for line in run(["nm", "-u", program]).stdout.decode().splitlines()}
    checks.same("a program without a pool calls malloc", "malloc" in called, True)
    [program] = made["socketpair", "unsanitized"]
    called = {line.split()[-1].partition("@")[0] for line in run(["nm", "-u", program]).stdout.decode().splitlines()}
    checks.same("a program with a pool calls no allocator", called & {"malloc", "realloc", "free", "calloc"}, set())
