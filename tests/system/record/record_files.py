"""Checks the header of a record, and the files and outputs that records are written to."""

import os
import socket
import stat
import subprocess
import tempfile
import time

from greeted_peers import GET_ROOT, GREETED, PEER_SETTINGS, ask
from option_table import recorded
from peers import LIMIT, LOCAL, Server, free_port, line_of, read_bytes, soon, started
from records import Record, record_in, replay


def check_header(checks, server):
    """Checks the header: the version, the options in force, and a command line that replays the record."""
    version = subprocess.run([server, "--version"], capture_output=True, text=True).stdout.split()[-1]
    options = ["-d", "3", "--max-message", "1152", "--max-sent", "1153", "--queue", "4608", "--pending", "5",
               "--observers", "6", "--connections", "7"]
    options += ["--starts", "18446744073709551615,22,33"]
    shown = {"plain-1.2_3+4": "plain-1.2_3+4", "./-x": "./-x", "with space": "FILE", "ünicode": "FILE",
             "quote'": "FILE", "a\nb": "FILE", "a$(b)": "FILE", "~": "FILE"}
    with tempfile.TemporaryDirectory() as folder:
        for name, word in shown.items():
            words = ["--stdio", "--record", name, "--turns", "9", "--log", "0", *reversed_pairs(options)]
            done = subprocess.run([server, *words], input=PEER_SETTINGS, stdout=subprocess.DEVNULL,
                                  stderr=subprocess.PIPE, timeout=LIMIT, cwd=folder)
            checks.same(f"a record of the name {name!r}", (done.returncode, done.stderr), (0, b""))
            text = (f"# Record of coap-server {version}, format 1\n# options: {' '.join(options)}\n"
                    f"# replay: coap-server --script {word} {' '.join(options)}\n")
            with open(os.path.join(folder, name), "rb") as it:
                checks.same(f"the header for the name {name!r}", it.read().decode().partition("open\n")[0], text)
        name = f"{folder}/record"
        subprocess.run([server, "--stdio", "--record", name], input=b"", stdout=subprocess.DEVNULL, timeout=LIMIT)
        # Without entries of an application.
        usual = [word for it in recorded("coap-server") if it.default for word in (it.name, it.default)]
        checks.same("default options, and a name with slashes", (record_in(name).options(), record_in(name).command()),
                    (usual, ["--script", name, *usual]))
        name = f"{folder}/turns"
        done = subprocess.run([server, "--stdio", "--turns", "1", "--record", name],
                              input=PEER_SETTINGS + GET_ROOT * 2_000, capture_output=True, timeout=LIMIT)
        checks.same("a record that the limit of turns ends",
                    (done.returncode, len(done.stdout) > 4_096, record_in(name).options()), (3, True, usual))
        checks.same("its replay with another limit of turns", replay(server, record_in(name).command()),
                    (0, {1: done.stdout}, b""))
        began = int(time.time())
        with Server(server, ["--record", f"{folder}/listening"]):
            soon(lambda: os.path.getsize(f"{folder}/listening") > 0)
        moment, versions, ids = map(int, record_in(f"{folder}/listening").options()[-1].split(","))
        checks.same("a listening server begins at the time of its start", (abs(moment - began) < 5, versions, ids),
                    (True, moment * 65_536, 0))


def reversed_pairs(options):
    """Returns options with values in the reverse order."""
    pairs = list(zip(options[::2], options[1::2]))
    return [word for pair in reversed(pairs) for word in pair]


def refused(server, name, *words):
    """Returns the result of a server with a record of this name: its status, its output and its error output."""
    words = words or ["-A", LOCAL, "-p", str(free_port())]
    done = subprocess.run([server, *words, "--record", name], input=PEER_SETTINGS, capture_output=True, timeout=LIMIT)
    return done.returncode, done.stdout.decode(), done.stderr.decode()


def cannot_open(name, why):
    """Returns the result of a server that cannot create the file of its record."""
    return 3, "", f"coap-server: cannot open {name}\ncoap-server: {why}\n"


def check_file(checks, server):
    """Checks the file of a record: its permissions, that an existing file stays as it is, and that a server that cannot
    listen creates none."""
    with tempfile.TemporaryDirectory() as folder:
        name, used = f"{folder}/record", f"{folder}/used"
        with Server(server, ["--record", name], umask=0) as running:
            checks.same("a server with a record", ask(running), True)
            checks.same("permissions of the file", stat.S_IMODE(os.stat(name).st_mode), 0o600)
            with open(used, "wb") as it:
                it.write(b"kept")
            exists = cannot_open(used, f"{used} exists already; choose another name")
            for words in (["-A", LOCAL, "-p", str(free_port())], ["--stdio"]):
                checks.same(f"an existing file, {words[0]}", refused(server, used, *words), exists)
            with open(used, "rb") as it:
                checks.same("an existing file is unchanged", it.read(), b"kept")
            in_use = ["-A", LOCAL, "-p", str(running.port)]
            checks.same("a server that cannot listen creates no record",
                        (refused(server, f"{folder}/new", *in_use)[0], os.path.lexists(f"{folder}/new")), (3, False))
        os.symlink(f"{folder}/nothing", f"{folder}/link")
        checks.same("a link to no file", refused(server, f"{folder}/link"),
                    cannot_open(f"{folder}/link", f"{folder}/link exists already; choose another name"))
        checks.same("a link to no file is not followed", os.path.lexists(f"{folder}/nothing"), False)
        checks.same("a device", refused(server, "/dev/full"),
                    cannot_open("/dev/full", "/dev/full exists already; choose another name"))
        absent, below = f"{folder}/absent/record", f"{used}/record"
        checks.same("no such directory", refused(server, absent),
                    cannot_open(absent, f"no such directory for {absent}; create it or choose another name"))
        checks.same("a directory that is a file", refused(server, below),
                    cannot_open(below, f"{below}: Not a directory (os error 20)"))
        os.mkdir(f"{folder}/closed", 0o500)
        closed = f"{folder}/closed/record"
        if os.geteuid() != 0:
            checks.same("no permission", refused(server, closed),
                        cannot_open(closed,
                                    f"permission denied for {closed}; choose a directory in which you may create "
                                    "files"))


def check_output(checks, server):
    """Checks a listening server that writes its record to standard output."""
    port = free_port()
    words = ["-A", LOCAL, "-p", str(port), "--record", "-"]
    with started([server, *words], stdin=subprocess.DEVNULL, stdout=subprocess.PIPE, stderr=subprocess.PIPE) as process:
        checks.same("standard output: the server listens", line_of(process.stderr),
                    b"coap-server: listening on %s:%d\n" % (LOCAL.encode(), port))
        with socket.create_connection((LOCAL, port), LIMIT) as peer:
            peer.sendall(PEER_SETTINGS + GET_ROOT)
            checks.same("standard output: the peer is served", read_bytes(peer, len(GREETED)), GREETED)
        time.sleep(0.3)
        process.terminate()
        text, said = process.communicate(timeout=LIMIT)
    record = Record(text)
    checks.same("standard output: nothing else is written", (said, record.torn), (b"", b""))
    checks.same("standard output: the name in the header", record.command()[:2], ["--script", "FILE"])
    checks.same("standard output: the replay", replay(server, ["--script", "-", *record.options()], text),
                (0, {1: GREETED}, b""))
