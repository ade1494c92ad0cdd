"""The files of the packages, and their version."""

import functools
import shlex

from commands import read, run
from workspace import ROOT

# The package of the programs, that of the C library, and that of the gateway to MQTT.
NAME, LIBRARY, GATEWAY = "dachreup", "libdachreup-dev", "dachreup-mqtt"

PROGRAMS = ["coap-server", "coap-client", "coap-explain", "coap-directory"]

OPTIONS = "/etc/default/coap-server"

UNIT = "/usr/lib/systemd/system/coap-server.service"

# Link by which `systemctl enable` enables the unit.
ENABLED = "/etc/systemd/system/multi-user.target.wants/coap-server.service"

# The files of the gateway's package with options and with its unit, and the link that enables gateway 1.
GATEWAY_OPTIONS = "/etc/default/coap-mqtt"
GATEWAY_UNIT = "/usr/lib/systemd/system/coap-mqtt@.service"
GATEWAY_ENABLED = "/etc/systemd/system/multi-user.target.wants/coap-mqtt@1.service"

# Folder of the files by which Debian's maintainer scripts record the links of a unit.
RECORDS = "/var/lib/systemd/deb-systemd-helper-enabled"

# Files that a purge may leave if the maintainer scripts are wrong.
LEFTOVERS = [OPTIONS, GATEWAY_OPTIONS, ENABLED, GATEWAY_ENABLED, RECORDS + "/coap-server.service.dsh-also",
             RECORDS + "/multi-user.target.wants/coap-server.service"]

# The examples of the C library, and the one that a test compiles and runs.
EXAMPLES = "/usr/share/doc/libdachreup-dev/examples"
EXAMPLE = f"{EXAMPLES}/server.c"

# Directory of libraries. The function `here` replaces the placeholder.
LIBRARIES = "/usr/lib/@TRIPLET@"

ARCHIVE = LIBRARIES + "/libdachreup.a"

# Completions of a program, in the folders of Debian's packages.
COMPLETIONS = ["/usr/share/bash-completion/completions/%s", "/usr/share/zsh/vendor-completions/_%s",
               "/usr/share/fish/vendor_completions.d/%s.fish"]


def completions(*programs):
    """Returns the files with the completions of programs."""
    return {path % program: (0o644, None) for program in programs for path in COMPLETIONS}


# Installed files of each package, each with its mode, and with its source if it is a copy.
FILES = {NAME: {
    "/usr/bin/coap-server": (0o755, None),
    "/usr/bin/coap-client": (0o755, None),
    "/usr/bin/coap-explain": (0o755, None),
    "/usr/bin/coap-directory": (0o755, None),
    "/usr/share/man/man1/coap-server.1.gz": (0o644, None),
    "/usr/share/man/man1/coap-client.1.gz": (0o644, None),
    "/usr/share/man/man1/coap-explain.1.gz": (0o644, None),
    "/usr/share/man/man1/coap-directory.1.gz": (0o644, None),
    "/usr/share/man/man7/dachreup.7.gz": (0o644, None),
    **completions(*PROGRAMS),
    "/usr/share/doc/dachreup/changelog.gz": (0o644, None),
    "/usr/share/doc/dachreup/copyright": (0o644, "install/debian/copyright"),
    "/usr/share/doc/dachreup/README.Debian": (0o644, "install/debian/dachreup.README.Debian"),
    "/usr/share/doc/dachreup/examples/haproxy.cfg": (0o644, "install/haproxy.cfg"),
    UNIT: (0o644, None),
    OPTIONS: (0o644, "install/debian/coap-server.default"),
}, LIBRARY: {
    "/usr/include/dachreup.h": (0o644, "include/dachreup.h"),
    ARCHIVE: (0o644, None),
    LIBRARIES + "/pkgconfig/dachreup.pc": (0o644, None),
    "/usr/share/doc/libdachreup-dev/changelog.gz": (0o644, None),
    "/usr/share/doc/libdachreup-dev/copyright": (0o644, "install/debian/copyright"),
    "/usr/share/doc/libdachreup-dev/README.Debian": (0o644, "install/debian/libdachreup-dev.README.Debian"),
    **{f"{EXAMPLES}/{name}.c": (0o644, f"examples/c/{name}.c") for name in ("client", "pool", "server", "socketpair")},
    "/usr/share/man/man3/dachreup.3.gz": (0o644, None),
}, GATEWAY: {
    "/usr/bin/coap-mqtt": (0o755, None),
    "/usr/share/man/man1/coap-mqtt.1.gz": (0o644, None),
    **completions("coap-mqtt"),
    GATEWAY_UNIT: (0o644, None),
    GATEWAY_OPTIONS: (0o644, "install/debian/coap-mqtt.default"),
    "/usr/share/doc/dachreup-mqtt/changelog.gz": (0o644, None),
    "/usr/share/doc/dachreup-mqtt/copyright": (0o644, "install/debian/copyright"),
    "/usr/share/doc/dachreup-mqtt/examples/mosquitto.conf": (0o644, "install/mosquitto.conf"),
}}


@functools.cache
def triplet():
    """Returns Debian's name of this architecture in the directories of libraries."""
    return run(["dpkg-architecture", "-qDEB_HOST_MULTIARCH"])[1].strip()


def here(path):
    """Returns a path for this architecture."""
    return path.replace("@TRIPLET@", triplet())


def files(name):
    """Returns the installed files of a package, each with its mode and source."""
    return {here(path): how for path, how in FILES[name].items()}


def version():
    return read(ROOT, "VERSION").strip()


def options_in(text):
    """Returns the variables of a file of options."""
    lines = (line for line in text.splitlines() if line and not line.startswith("#"))
    return {name: "".join(shlex.split(value)) for name, value in (line.split("=", 1) for line in lines)}
