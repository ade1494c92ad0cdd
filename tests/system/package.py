"""Builds the Debian packages, checks them with lintian, and installs, upgrades, removes and purges them.

    tests/system/package.py bin/coap-server bin/coap-client bin/coap-explain bin/coap-directory [bin/libdachreup.a]

The script needs Debian's packages dpkg-dev, gcc, libc6-dev, libcoap3-bin, libmosquitto-dev, lintian and pkg-config, and
installs the missing ones. `make deb` runs on a copy of its inputs, and builds the gateway to MQTT there.

The installation needs root. The script installs no package if any of their files already exists: it then fails, and
names the first of these. It starts the server by the command of the installed unit, because systemd may not run. It
compiles the installed example of the C library, and runs it. In the end it purges the packages, also after a failure.
"""

import os
import signal
import sys
import tempfile

HERE = os.path.dirname(os.path.abspath(__file__))
sys.path[:0] = [os.path.join(HERE, "..", "harness"), os.path.join(HERE, "package")]
from built_packages import check_packages  # noqa: E402
from checks import Checks  # noqa: E402
from installed_packages import check_lives, hindrance  # noqa: E402
from package_files import PROGRAMS  # noqa: E402
from package_sources import check_copyright, check_scripts, check_versions  # noqa: E402
from packages import alone, require  # noqa: E402
from workspace import ROOT  # noqa: E402

PACKAGES = {
    "dpkg-shlibdeps": "dpkg-dev",
    "cc": "gcc",
    "/usr/include/stdlib.h": "libc6-dev",
    "coap-client-notls": "libcoap3-bin",
    "/usr/include/mosquitto.h": "libmosquitto-dev",
    "lintian": "lintian",
    "pkg-config": "pkg-config",
}


def check(programs, archive):
    checks = Checks()
    check_versions(checks, programs)
    check_copyright(checks)
    check_scripts(checks)
    with tempfile.TemporaryDirectory() as folder:
        packages = check_packages(checks, folder, programs, archive)
        with alone():
            reason = hindrance()
            checks.same("obstacle to the installation of the packages", reason, "")
            if not reason:
                check_lives(checks, *packages, programs[1])
    return checks.end("package")


def main(words):
    # A signal ends the script by an exception, so that it purges the packages.
    signal.signal(signal.SIGTERM, lambda *_: sys.exit(1))
    require(PACKAGES)
    *programs, archive = map(os.path.abspath,
                             words if len(words) > len(PROGRAMS) else [*words, os.path.join(ROOT, "bin/libdachreup.a")])
    return check(programs, archive)


if __name__ == "__main__":
    sys.exit(main(sys.argv[1:]))
