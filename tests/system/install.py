"""Installs the programs, their manuals and completions, the systemd unit, the configuration of HAProxy and the C
library into temporary folders, and uninstalls them.

    tests/system/install.py bin/coap-server bin/coap-client bin/coap-explain bin/coap-directory [bin/libdachreup.a]

`make` runs on a copy of the installed files, with sources that are newer than the programs and a build script that
fails. A build would therefore be noticed. Without the archive of the C library, only the programs are installed. The
script installs Debian's packages pkg-config and systemd if they are missing.
"""

import os
import re
import shutil
import stat
import subprocess
import sys
import tempfile

sys.path.insert(0, os.path.join(os.path.dirname(os.path.abspath(__file__)), "..", "harness"))
from checks import Checks  # noqa: E402
from packages import install  # noqa: E402
from workspace import ROOT  # noqa: E402

PROGRAMS = ["coap-server", "coap-client", "coap-explain", "coap-directory"]

UNIT = "lib/systemd/system/coap-server.service"

FRONT = "share/doc/coap-server/examples/haproxy.cfg"

SHARED = "share/man/man7/dachreup.7"

# Completions of a program.
COMPLETIONS = ["share/bash-completion/completions/%s", "share/zsh/site-functions/_%s",
               "share/fish/vendor_completions.d/%s.fish"]

# The files of the C library, each with its source. The pkg-config file differs from its source.
LIBRARY = {
    "lib/libdachreup.a": "bin/libdachreup.a",
    "include/dachreup.h": "include/dachreup.h",
    "share/man/man3/dachreup.3": "man/dachreup.3",
    "lib/pkgconfig/dachreup.pc": None,
}

# Maximum exposure of the unit, of 10, as systemd-analyze reports it. The rest is the access to all networks.
EXPOSURE = 1.1

LIMIT = 300


def wanted_files(has_library):
    """Returns the files installed below the prefix, each with its mode."""
    files = {"bin/%s" % name: 0o755 for name in PROGRAMS}
    files.update({name: 0o644 for name in LIBRARY if has_library})
    files.update({"share/man/man1/%s.1" % name: 0o644 for name in PROGRAMS})
    files.update({path % name: 0o644 for name in PROGRAMS for path in COMPLETIONS})
    files.update({UNIT: 0o644, FRONT: 0o644, SHARED: 0o644})
    return files


def run(words, folder, **how):
    """Runs a command with a umask of 077. Returns its status and output."""
    done = subprocess.run(words, cwd=folder, stdin=subprocess.DEVNULL, stdout=subprocess.PIPE, stderr=subprocess.STDOUT,
                          umask=0o077, timeout=LIMIT, **how)
    return done.returncode, done.stdout.decode(errors="replace")


def make(folder, target, prefix, destination):
    """Runs a target of the Makefile. Without a prefix, the default of the Makefile is used."""
    words = (["make", target] + (["PREFIX=" + prefix] if prefix else [])
             + (["DESTDIR=" + destination] if destination else []))
    return run(words, folder)


def copy_tree(folder, programs, archive):
    """Copies the installed files, with newer sources and a build script that fails."""
    os.makedirs(os.path.join(folder, "bin"))
    for name, program in zip(PROGRAMS, programs):
        shutil.copy(program, os.path.join(folder, "bin", name))
        os.utime(os.path.join(folder, "bin", name), (0, 0))
    shutil.copy(archive, os.path.join(folder, "bin/libdachreup.a"))
    os.utime(os.path.join(folder, "bin/libdachreup.a"), (0, 0))
    for name in ("include", "install", "man"):
        shutil.copytree(os.path.join(ROOT, name), os.path.join(folder, name))
    for name in ("Makefile", "VERSION", "crates.txt"):
        shutil.copy(os.path.join(ROOT, name), folder)
    os.makedirs(os.path.join(folder, "crates"))
    os.makedirs(os.path.join(folder, "tests"))
    with open(os.path.join(folder, "tests", "build"), "w", encoding="utf-8") as builder:
        builder.write("#!/bin/sh\nexit 1\n")
        os.chmod(builder.name, 0o755)


def files_below(folder):
    """Returns the files below a folder, each with its mode."""
    found = {}
    for place, _, names in os.walk(folder):
        for name in names:
            path = os.path.join(place, name)
            found[os.path.relpath(path, folder)] = stat.S_IMODE(os.lstat(path).st_mode)
    return found


def folder_modes(folder):
    """Returns the modes of the folders below a folder."""
    return {stat.S_IMODE(os.lstat(os.path.join(place, name)).st_mode) for place, names, _ in os.walk(folder)
            for name in names}


def read(*parts):
    with open(os.path.join(*parts), "rb") as file:
        return file.read()


def check_library(checks, tree, got, place):
    """Checks the content of the installed C library, and what pkg-config says of it."""
    for name, source in LIBRARY.items():
        if source:
            checks.same("%s: %s" % (got, name), read(place, name) == read(tree, source), True)
    written = read(place, "lib/pkgconfig/dachreup.pc").decode()
    checks.same("%s: placeholders in dachreup.pc" % got, re.findall(r"@\w+@", written), [])
    environment = dict(os.environ, PKG_CONFIG_PATH=os.path.join(place, "lib/pkgconfig"))
    for words, wanted in (
        (["--modversion"], read(tree, "VERSION").decode().strip()),
        (["--variable=prefix"], got),
        (["--cflags", "--libs"], "-I%s/include -L%s/lib -ldachreup" % (got, got)),
    ):
        status, said = run(["pkg-config", *words, "dachreup"], tree, env=environment)
        checks.same("%s: pkg-config %s" % (got, words[0]), (status, said.strip()), (0, wanted))


def check_prefix(checks, tree, prefix, has_library):
    """Checks one installation: the installed files, their content, and the files left after it is uninstalled."""
    got = prefix or "/usr/local"
    with tempfile.TemporaryDirectory(prefix="a folder ") as destination:
        checks.same("%s: install" % got, make(tree, "install", prefix, destination)[0], 0)
        below = {"%s/%s" % (got[1:], name): mode for name, mode in wanted_files(has_library).items()}
        checks.same("%s: files" % got, files_below(destination), below)
        checks.same("%s: folders" % got, folder_modes(destination), {0o755})
        place = destination + got
        for name in PROGRAMS:
            checks.same("%s: %s" % (got, name), read(place, "bin", name) == read(tree, "bin", name), True)
            checks.same("%s: %s.1" % (got, name),
                        read(place, "share/man/man1", name + ".1") == read(tree, "man", name + ".1"), True)
        for name, source in ((FRONT, "install/haproxy.cfg"), (SHARED, "man/dachreup.7")):
            checks.same("%s: %s" % (got, name), read(place, name) == read(tree, source), True)
        if has_library:
            check_library(checks, tree, got, place)
        unit = read(place, UNIT).decode()
        starts = re.findall(r"(?m)^ExecStart=(.*)$", unit)
        checks.same("%s: command of the unit" % got, starts, ["%s/bin/coap-server $COAP_SERVER_OPTIONS" % got])
        checks.same("%s: placeholders in the unit" % got, re.findall(r"@\w+@", unit), [])
        others = [os.path.join(os.path.dirname(name), "other") for name in below]
        for name in others:
            with open(os.path.join(destination, name), "w", encoding="utf-8"):
                pass
        checks.same("%s: uninstall" % got, make(tree, "uninstall", prefix, destination)[0], 0)
        checks.same("%s: files after uninstall" % got, sorted(files_below(destination)), sorted(set(others)))
        for name in set(others):
            os.remove(os.path.join(destination, name))
        checks.same("%s: folders alone" % got, files_below(destination), {})


def check_unbuilt(checks, tree):
    """Checks that nothing is installed and nothing is built if a program is missing."""
    with tempfile.TemporaryDirectory() as destination:
        for name in PROGRAMS:
            missing = os.path.join(tree, "bin", name)
            os.rename(missing, missing + ".away")
            status, said = make(tree, "install", "", destination)
            os.rename(missing + ".away", missing)
            checks.same("%s is missing" % name, (status != 0, "make all" in said, files_below(destination)),
                        (True, True, {}))


def check_analyzed(checks, name, unit):
    """Checks a unit with systemd-analyze: its remarks and the exposure."""
    folder = os.path.dirname(unit)
    status, said = run(["systemd-analyze", "verify", "--man=no", unit], folder)
    checks.same("remarks of systemd-analyze on %s" % name,
                (status, [line for line in said.splitlines() if "coap-server" in line]), (0, []))
    status, said = run(["systemd-analyze", "security", "--offline=true", "--no-pager", unit], folder)
    exposure = re.search(r"Overall exposure level for coap-server\.service: ([\d.]+)", said)
    checks.same("exposure of %s of at most %s" % (name, EXPOSURE),
                (status, bool(exposure) and float(exposure[1]) <= EXPOSURE), (0, True))


def check_unit(checks, tree):
    """Checks the installed unit with systemd-analyze."""
    with tempfile.TemporaryDirectory() as prefix:
        make(tree, "install", prefix, "")
        check_analyzed(checks, "the unit", os.path.join(prefix, UNIT))


def check_recording_unit(checks, tree):
    """Checks the unit with its example of a record, whose lines are comments. The shell replaces variables in its
    command as systemd does."""
    with tempfile.TemporaryDirectory() as prefix:
        make(tree, "install", prefix, "")
        unit, logs = os.path.join(prefix, UNIT), os.path.join(prefix, "logs")
        text = re.sub(r"(?m)^#(?=\w+=)", "", read(unit).decode())
        said = [it.split("=", 1) for it in text.splitlines() if re.match("LogsDirectory|ExecStart=", it)]
        plain = "%s/bin/coap-server $COAP_SERVER_OPTIONS" % prefix
        records = "%s/bin/coap-server --record ${LOGS_DIRECTORY}/${INVOCATION_ID}.record $COAP_SERVER_OPTIONS" % prefix
        wanted = [["ExecStart", plain], ["LogsDirectory", "coap-server"], ["LogsDirectoryMode", "0700"],
                  ["ExecStart", ""], ["ExecStart", records]]
        checks.same("the unit with a record", said, wanted)
        os.mkdir(logs)
        how = dict(os.environ, LOGS_DIRECTORY=logs, INVOCATION_ID="0123456789abcdef",
                   COAP_SERVER_OPTIONS="--stdio -d 1")
        checks.same("the command of the unit with a record", run(["sh", "-c", said[-1][1]], prefix, env=how)[0], 0)
        checks.same("its record", (files_below(logs), read(logs, "0123456789abcdef.record")[:24]),
                    ({"0123456789abcdef.record": 0o600}, b"# Record of coap-server "))
        with open(unit, "w", encoding="utf-8") as file:
            file.write(text)
        check_analyzed(checks, "the unit with a record", unit)


def check_numbered_unit(checks, tree):
    """Checks the unit for several servers, which docs/DEPLOYING.md derives from the installed one, with
    systemd-analyze."""
    changes = re.findall(r"-e ('[^']*')", read(ROOT, "docs", "DEPLOYING.md").decode())
    with tempfile.TemporaryDirectory() as prefix:
        make(tree, "install", prefix, "")
        unit = os.path.join(prefix, "coap-server@.service")
        run(["sh", "-c", "sed -e %s %s > %s" % (" -e ".join(changes), os.path.join(prefix, UNIT), unit)], prefix)
        said = read(unit).decode().splitlines()
        for line in ("EnvironmentFile=-/etc/default/coap-server-%i", "ExecStartPre=/bin/sleep %i"):
            checks.same("%s in the numbered unit" % line, said.count(line), 1)
        status, said = run(["systemd-analyze", "verify", "--man=no", unit.replace("@", "@1")], prefix)
        checks.same("remarks of systemd-analyze on the numbered unit",
                    (status, [line for line in said.splitlines() if "coap-server" in line]), (0, []))


def check_without_library(checks, tree):
    """Checks that nothing of the C library is installed if its archive is missing."""
    archive = os.path.join(tree, "bin/libdachreup.a")
    os.rename(archive, archive + ".away")
    check_prefix(checks, tree, "", False)
    os.rename(archive + ".away", archive)


def check(programs, archive):
    checks = Checks()
    checks.same("packages can be installed", install({"pkg-config": "pkg-config", "systemd-analyze": "systemd"}), True)
    with tempfile.TemporaryDirectory() as folder:
        tree = os.path.join(folder, "tree")
        copy_tree(tree, programs, archive)
        for prefix in ("", "/opt/coap"):
            check_prefix(checks, tree, prefix, True)
        check_without_library(checks, tree)
        check_unbuilt(checks, tree)
        check_recording_unit(checks, tree)
        check_unit(checks, tree)
        check_numbered_unit(checks, tree)
    return checks.end("install")


def main(words):
    *programs, archive = map(os.path.abspath,
                             words if len(words) > len(PROGRAMS) else [*words, os.path.join(ROOT, "bin/libdachreup.a")])
    return check(programs, archive)


if __name__ == "__main__":
    sys.exit(main(sys.argv[1:]))
