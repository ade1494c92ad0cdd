"""Checks packages that are installed, used, upgraded, removed and purged."""

import contextlib
import glob
import os
import re
import shutil
import tempfile
import time

from c_examples import check_example
from commands import LIMIT, read, run, write
from package_files import (
    ENABLED, EXAMPLE, FILES, GATEWAY, GATEWAY_ENABLED, GATEWAY_OPTIONS, GATEWAY_UNIT, LEFTOVERS, LIBRARIES, LIBRARY,
    NAME, OPTIONS, PROGRAMS, UNIT, files, here, options_in, version,
)
from peers import LOCAL, Server, free_port
from workspace import ROOT

# The text of each manual's first section.
TITLES = {
    "coap-server.1": "CoAP server over TCP",
    "coap-client.1": "CoAP client over TCP",
    "coap-explain.1": "explain a record of a CoAP server",
    "coap-directory.1": "CoRE resource directory over TCP",
    "dachreup.7": "logs, silent connections, scripts and records of the CoAP programs",
    "dachreup.3": "server and client engines for CoAP over TCP (RFC 8323), as a C library",
    "coap-mqtt.1": "CoAP over TCP for the retained messages of an MQTT broker",
}

# Folders in which the installation may create files, folders and links.
PLACES = ["/etc", "/usr/bin", "/usr/include", "/usr/lib/systemd", LIBRARIES + "/pkgconfig",
          "/usr/share/bash-completion", "/usr/share/doc", "/usr/share/fish", "/usr/share/lintian", "/usr/share/man",
          "/usr/share/zsh", "/var/lib/dpkg/info", "/var/lib/systemd"]

# Arguments of the server after its address and port.
STORES = ["-d", "100"]


def unit_command():
    """Returns the command of the installed unit, with the values that systemd would replace."""
    unit = read(UNIT)
    values = dict(re.findall(r"(?m)^Environment=(\w+)=(.*)$", unit))
    for path in re.findall(r"(?m)^EnvironmentFile=-?(.*)$", unit):
        values.update(options_in(read(path)))
    [command] = re.findall(r"(?m)^ExecStart=(.*)$", unit)
    # A variable that is a word of its own becomes several words.
    return [part for word in command.split() for part in (values[word[1:]].split() if word.startswith("$") else [word])]


def dpkg(*words):
    """Runs dpkg, and waits for others that use it. All files are installed, even if the system leaves out documents."""
    ends = time.monotonic() + LIMIT
    while True:
        status, said = run(["dpkg", "--path-include=*", *words], env=dict(os.environ, DEBIAN_FRONTEND="noninteractive"))
        if status == 0 or "lock" not in said or time.monotonic() > ends:
            return status, said
        time.sleep(1)


def dpkg_status(name):
    """Returns the version of an installed package and its state, or nothing."""
    status, said = run(["dpkg-query", "-W", "-f", "${Version} ${db:Status-Status}", name])
    return said if status == 0 else ""


def files_in_places():
    """Returns the paths of all files, folders and links below PLACES."""
    return {os.path.join(at, name) for place in map(here, PLACES) for at, folders, names in os.walk(place)
            for name in [*folders, *names]}


def ask(program, *words):
    """Runs a client. Returns its status and its output with its errors."""
    return run([program, *words])


def check_served(checks, name, port):
    """Starts the server by the command of the unit, and sends requests to it by the installed client and by
    libcoap's."""
    command = unit_command()
    checks.same("%s: command of the unit" % name, command,
                ["/usr/bin/coap-server", "-A", LOCAL, "-p", str(port), *STORES])
    with Server("/usr/bin/coap-server", STORES, port=port) as server:
        checks.same("%s: the root" % name, ask("/usr/bin/coap-client", "-w", server.uri()), (0, "coap+tcp\n"))
        checks.same("%s: put" % name, ask("/usr/bin/coap-client", "-m", "put", "-e", "21.5", server.uri("/a")), (0, ""))
        checks.same("%s: get" % name, ask("/usr/bin/coap-client", "-w", server.uri("/a")), (0, "21.5\n"))
        checks.same("%s: get by libcoap" % name, ask("/usr/bin/coap-client-notls", "-m", "get", server.uri("/a")),
                    (0, "21.5\n"))


def check_manuals(checks, names):
    """Checks that `man` finds the installed manuals, if it exists."""
    for page in names if shutil.which("man") else ():
        name, _, part = page.partition(".")
        environment = dict(os.environ, MANPAGER="cat", MANWIDTH="100", LC_ALL="C.UTF-8")
        status, said = run(["man", "-M", "/usr/share/man", part, name], env=environment)
        checks.same("man %s" % page, (status, re.findall(r"(?m)^ +(\S+) \S (%s)$" % re.escape(TITLES[page]), said)),
                    (0, [(name, TITLES[page])]))


def check_compiled(checks, client):
    """Compiles the installed example by the command of the manual, with the paths of pkg-config, and runs it. Variables
    that name other folders are not passed on."""
    environment = {name: value for name, value in os.environ.items() if not name.startswith("PKG_CONFIG")}
    for word, wanted in {"--modversion": version(), "--variable=libdir": here(LIBRARIES),
                         "--variable=includedir": "/usr/include"}.items():
        checks.same("pkg-config %s" % word, run(["pkg-config", word, "dachreup"], env=environment),
                    (0, wanted + "\n"))
    with tempfile.TemporaryDirectory() as folder:
        [line] = re.findall(r"(?m)^\.Dl (cc program\.c .*)$", read(ROOT, "man/dachreup.3"))
        command = line.replace("program.c", "-std=c11 -Wall -Wextra -Werror -o server %s" % EXAMPLE)
        compiled = run(["sh", "-c", command], cwd=folder, env=environment)
        checks.same("the installed example is compiled", compiled, (0, ""))
        if not compiled[0]:
            check_example(checks, [[os.path.join(folder, "server")]], client)


def check_ended(checks, name, kept):
    """Removes a package and purges it. Only the files `kept` stay after the removal."""
    state = version() + "+test config-files" if kept else ""
    checks.same("%s: remove" % name, (dpkg("-r", name)[0], dpkg_status(name)), (0, state))
    checks.same("%s: files after the removal" % name, [path for path in files(name) if os.path.lexists(path)], kept)
    checks.same("%s: purge" % name, (dpkg("-P", name)[0], dpkg_status(name)), (0, ""))


def check_installed(checks, name, package):
    """Installs a package, and checks that all its files exist."""
    status, said = dpkg("-i", package)
    checks.same("%s: install" % name, (status, dpkg_status(name)), (0, version() + " installed"))
    if status:
        raise OSError(said)
    checks.same("%s: missing installed files" % name, [path for path in files(name) if not os.path.isfile(path)], [])


def check_upgraded(checks, name, higher):
    checks.same("%s: upgrade" % name, (dpkg("-i", higher)[0], dpkg_status(name)), (0, version() + "+test installed"))


def check_life(checks, package, higher):
    """Installs the package of the programs, changes its options, upgrades it, removes it and purges it."""
    libcoap = run(["dpkg-query", "-L", "libcoap3-bin"])[1].split()
    port = free_port()
    check_installed(checks, NAME, package)
    checks.same("missing files of libcoap3-bin",
                [path for path in libcoap if path.startswith("/usr/bin/") and not os.path.exists(path)], [])
    checks.same("the unit is disabled", os.path.lexists(ENABLED), False)
    checks.same("command of the unit without options", unit_command(), ["/usr/bin/coap-server"])
    check_manuals(checks, [*(f"{name}.1" for name in PROGRAMS), "dachreup.7"])

    changed = read(OPTIONS) + 'COAP_SERVER_OPTIONS="-A %s -p %d %s"\n' % (LOCAL, port, " ".join(STORES))
    write(changed, OPTIONS)
    can_enable = shutil.which("systemctl") and run(["systemctl", "--root=/", "enable", "coap-server"])[0] == 0
    check_served(checks, "installed", port)

    check_upgraded(checks, NAME, higher)
    checks.same("options after the upgrade", read(OPTIONS), changed)
    checks.same("the upgraded unit is enabled", os.path.lexists(ENABLED), bool(can_enable))
    check_served(checks, "upgraded", port)

    check_ended(checks, NAME, [OPTIONS])


def check_library_life(checks, package, higher, client):
    """Installs the package of the C library, compiles and runs its example, upgrades it, removes it and purges it."""
    check_installed(checks, LIBRARY, package)
    check_manuals(checks, ["dachreup.3"])
    check_compiled(checks, client)
    check_upgraded(checks, LIBRARY, higher)
    check_ended(checks, LIBRARY, [])


def check_gateway_life(checks, package, higher):
    """Installs the package of the gateway, runs its program, changes its options, upgrades, removes and purges it."""
    check_installed(checks, GATEWAY, package)
    check_manuals(checks, ["coap-mqtt.1"])
    checks.same("the installed gateway", run(["/usr/bin/coap-mqtt", "--version"]), (0, "coap-mqtt %s\n" % version()))
    checks.same("no gateway is enabled", os.path.lexists(GATEWAY_ENABLED), False)
    changed = read(GATEWAY_OPTIONS) + 'COAP_MQTT_BROKER="--broker-port 1884"\n'
    write(changed, GATEWAY_OPTIONS)
    # As `systemctl enable coap-mqtt@1` does, which needs no systemd but its program.
    os.makedirs(os.path.dirname(GATEWAY_ENABLED), exist_ok=True)
    os.symlink(GATEWAY_UNIT, GATEWAY_ENABLED)
    check_upgraded(checks, GATEWAY, higher)
    checks.same("the upgraded gateway", run(["/usr/bin/coap-mqtt", "--version"]),
                (0, "coap-mqtt %s+test\n" % version()))
    kept = read(GATEWAY_OPTIONS), os.path.lexists(GATEWAY_ENABLED)
    checks.same("options and link after the upgrade", kept, (changed, True))
    check_ended(checks, GATEWAY, [GATEWAY_OPTIONS])
    checks.same("the link after the purge", os.path.lexists(GATEWAY_ENABLED), False)


def clean_up():
    """Removes all that is left of the packages after a failed check."""
    for name in FILES:
        if dpkg_status(name) and dpkg("-P", name)[0]:
            # A wrong maintainer script prevents the purge.
            for path in glob.glob("/var/lib/dpkg/info/%s.p*" % name):
                os.remove(path)
            dpkg("--force-all", "-P", name)
    for path in LEFTOVERS:
        with contextlib.suppress(FileNotFoundError):
            os.remove(path)


def hindrance():
    """Returns the reason for which no package is installed, or nothing."""
    if os.geteuid() != 0:
        return "the script does not run as root"
    for name in FILES:
        if dpkg_status(name):
            return "the package %s is already installed" % name
    found = [path for path in [*(path for name in FILES for path in files(name)), *LEFTOVERS] if os.path.lexists(path)]
    return "%s already exists" % found[0] if found else ""


def check_lives(checks, built, library, gateway, client):
    """Installs, upgrades, removes and purges each package, and compares the files before and after."""
    before = files_in_places()
    try:
        check_library_life(checks, *library, client)
        check_gateway_life(checks, *gateway)
        check_life(checks, *built)
        after = files_in_places()
        checks.same("files after the purge", sorted(after - before), [])
        checks.same("missing files after the purge", sorted(before - after), [])
    finally:
        clean_up()
