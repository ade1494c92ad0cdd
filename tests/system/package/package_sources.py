"""Checks the sources of the packages: versions, the copyright and the maintainer scripts."""

import os
import re
import tempfile

from commands import read, run, write
from package_files import LIBRARY, NAME, PROGRAMS, version
from workspace import ROOT, crates, listed

# The crates of each package.
CRATES = {NAME: ["program_server", "program_client", "program_explain", "program_directory"], LIBRARY: ["c_api"]}

# Maintainer scripts with their arguments, and the calls that they make on a machine with systemd. None starts or
# restarts the server.
SCRIPT_CALLS = [
    ("postinst", ["configure", ""], [
        "deb-systemd-helper debian-installed coap-server.service",
        "deb-systemd-helper unmask coap-server.service",
        "deb-systemd-helper --quiet was-enabled coap-server.service",
        "deb-systemd-helper enable coap-server.service",
        "deb-systemd-helper update-state coap-server.service",
        "systemctl --system daemon-reload",
    ]),
    ("prerm", ["upgrade", "9"], []),
    ("prerm", ["remove"], ["deb-systemd-invoke stop coap-server.service"]),
    ("postrm", ["upgrade", "9"], []),
    ("postrm", ["remove"], ["systemctl --system daemon-reload"]),
    ("postrm", ["purge"], ["deb-systemd-helper purge coap-server.service"]),
    ("dachreup-mqtt.postinst", ["configure", ""], ["systemctl --system daemon-reload"]),
    ("dachreup-mqtt.postinst", ["configure", "9"], ["systemctl --system daemon-reload"]),
    ("dachreup-mqtt.prerm", ["upgrade", "9"], []),
    ("dachreup-mqtt.prerm", ["remove"], ["deb-systemd-invoke stop coap-mqtt@*.service"]),
    ("dachreup-mqtt.postrm", ["upgrade", "9"], []),
    ("dachreup-mqtt.postrm", ["remove"], ["systemctl --system daemon-reload"]),
    ("dachreup-mqtt.postrm", ["purge"], ["systemctl --system daemon-reload"]),
]


def check_versions(checks, programs):
    """Checks that the programs, both changelogs, the comparison, the header and the record in the manual dachreup(7)
    have the version of the file VERSION."""
    for name, program in zip(PROGRAMS, programs):
        checks.same("%s: version" % name, run([program, "--version"]), (0, "%s %s\n" % (name, version())))
    checks.same("version in CHANGELOG.md", re.findall(r"report version (\S+)", read(ROOT, "CHANGELOG.md")), [version()])
    checks.same("version in Debian's changelog",
                re.match(r"dachreup \((\S+)\) ", read(ROOT, "install/debian/changelog"))[1], version())
    checks.same("version in docs/COMPARISON.md", re.findall(r"\| Dachreup (\S+) \|", read(ROOT, "docs/COMPARISON.md")),
                [version()])
    checks.same("version in the header of the C library",
                re.findall(r'(?m)^#define DACHREUP_VERSION "(.*)"$', read(ROOT, "include/dachreup.h")), [version()])
    checks.same("version in the record of the manual",
                re.findall(r"(?m)^# Record of coap\\-server (\S+),", read(ROOT, "man/dachreup.7")), [version()])


def check_copyright(checks):
    """Checks that the copyright file names each library of Rattle's kit that crates.txt lists for a package."""
    text, below, uses = read(ROOT, "install/debian/copyright"), crates(), listed()
    for name, built in CRATES.items():
        used = {library for top in built for crate in [top, *below[top]] for library in uses[crate]
                if library not in uses}
        missing = [library for library in sorted(used)
                   if not re.search(r"(?m)^(?:Files:)? kit/rattle/%s/\*$" % library, text)]
        checks.same("%s: libraries of the kit without copyright" % name, (len(used) > 1, missing), (True, []))
    named = set(re.findall(r"(?m)^License: (.*)$", text))
    names = {name for line in named for name in re.split(r" (?:and|or) ", line.replace("(", "").replace(")", ""))}
    checks.same("licences without a text",
                [name for name in sorted(names) if not re.search(r"(?m)^License: %s\n " % re.escape(name), text)], [])


def script_calls(script, words, folder):
    """Runs a maintainer script as on a machine with systemd. Returns the status, and the calls of systemd's
    programs."""
    stubs, log = os.path.join(folder, "stubs"), os.path.join(folder, "log")
    os.makedirs(stubs, exist_ok=True)
    for name in ("systemctl", "deb-systemd-helper", "deb-systemd-invoke"):
        write('#!/bin/sh\necho "%s $*" >> %s\n' % (name, log), os.path.join(stubs, name))
        os.chmod(os.path.join(stubs, name), 0o755)
    write("", log)
    text = read(ROOT, "install/debian", script)
    assert text.count("/run/systemd/system") <= 1
    environment = {"PATH": "%s:%s" % (stubs, os.environ["PATH"])}
    status, said = run(["sh", "-c", text.replace("/run/systemd/system", folder), script, *words], env=environment)
    return status, said, read(log).splitlines()


def check_scripts(checks):
    with tempfile.TemporaryDirectory() as folder:
        for script, words, wanted in SCRIPT_CALLS:
            checks.same(" ".join([script, *words]), script_calls(script, words, folder), (0, "", wanted))
        check_links(checks, folder)


def check_links(checks, root):
    """Checks that a purge of the gateway's package removes the links of its unit below another root, and no others."""
    wants = os.path.join(root, "etc/systemd/system/multi-user.target.wants")
    os.makedirs(wants)
    names = ["coap-mqtt@1.service", "coap-mqtt@65535.service", "coap-server.service"]
    for name in names:
        os.symlink("/gone", os.path.join(wants, name))
    script = os.path.join(ROOT, "install/debian/dachreup-mqtt.postrm")
    for words, left in (["remove"], names), (["purge"], names[2:]):
        done = run(["sh", script, *words], env={"PATH": os.environ["PATH"], "DPKG_ROOT": root})
        checks.same("links after %s" % words, (done, sorted(os.listdir(wants))), ((0, ""), left))
