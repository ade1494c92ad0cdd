"""Runs HAProxy with install/haproxy.cfg in front of the server, with peers of many source addresses.

    tests/system/haproxy.py bin/coap-server
    tests/system/haproxy.py --broken bin/coap-server

The script needs Debian's packages haproxy, openssl and libcoap3-bin, and installs the missing ones.

The configuration is the file itself with replacements: pairs of texts, of which the first must be in the file exactly
once. The replacements adapt the parts that require root, the ports and the certificate. Each check also replaces the
numbers that it names, with shorter times or smaller counts. The rest is as installed. The commands of
docs/DEPLOYING.md are run too, with stand-ins for systemd.

With --broken, each entry of BROKEN adds one replacement to the configuration of its check. The entry passes if that
check fails.
"""

import os
import subprocess
import sys
import tempfile
import time

HERE = os.path.dirname(os.path.abspath(__file__))
sys.path[:0] = [os.path.join(HERE, "..", "harness"), os.path.join(HERE, "haproxy")]
import messages  # noqa: E402
from balancing import check_drained, check_four, check_full, check_killed, check_stuck  # noqa: E402
from checks import Checks  # noqa: E402
from documented import check_documented, check_one_server  # noqa: E402
from greedy_sources import check_places, check_rate, check_silent  # noqa: E402
from libcoap_over_tls import check_file, check_libcoap  # noqa: E402
from packages import require  # noqa: E402
from proxies import Setting, certify  # noqa: E402
from silent_peers import check_alive, check_idle, check_unread  # noqa: E402
from tls_peers import check_certified, check_constrained, check_tls  # noqa: E402

PACKAGES = {"haproxy": "haproxy", "openssl": "openssl", "coap-client-openssl": "libcoap3-bin"}

CHECKS = [
    check_file, check_libcoap, check_tls, check_constrained, check_certified, check_silent, check_places, check_rate,
    check_idle, check_alive, check_unread, check_full, check_killed, check_drained, check_stuck, check_four,
    check_documented, check_one_server,
]

# The lines of the check of a server in the configuration.
EXCHANGE = """    tcp-check send-binary 00e1
    tcp-check expect binary 60e1230100004140
    tcp-check send-binary 00e2
    tcp-check expect binary 00e3
"""

# Broken configurations: the check that must fail, a text of its configuration, and the replacement.
BROKEN = [
    (check_file, "mode tcp", "mode http"),
    (check_file, "timeout connect 2s\n", "timeout conect 2s\n"),
    (check_libcoap, " ssl crt ", " crt "),
    (check_libcoap, "60e1230100004140\n    tcp-check send-binary 00e2",
     "60e1230200004140\n    tcp-check send-binary 00e2"),
    (check_libcoap, "    tcp-request content accept if { req.len ge 2 }\n", ""),
    (check_tls, "    tcp-request content reject unless { ssl_fc_alpn coap }\n", ""),
    (check_tls, " alpn coap ssl-min-ver", " ssl-min-ver"),
    (check_tls, "ssl-min-ver TLSv1.2", "ssl-min-ver TLSv1.1 ciphers DEFAULT:@SECLEVEL=0"),
    (check_tls, "ssl-min-ver TLSv1.2", "ssl-min-ver TLSv1.3"),
    (check_constrained, ":ECDHE-ECDSA-AES128-CCM8", ""),
    (check_certified, " tcp-ut 1m verify required ", " tcp-ut 1m verify optional "),
    (check_silent, "    tcp-request connection reject if { sc0_conn_cur gt 32 }\n", ""),
    (check_silent, "src,ipmask(32,64)", "src,ipmask(8,64)"),
    (check_places, "sc0_conn_cur gt 32", "sc0_conn_cur gt 45"),
    (check_rate, "    tcp-request connection reject if { sc0_conn_rate gt 20 }\n", ""),
    (check_rate, "src,ipmask(32,64)", "src,ipmask(8,64)"),
    (check_idle, "timeout tunnel 3s", "timeout tunnel 60s"),
    (check_idle, "    tcp-request content accept if { req.len ge 2 }\n    tcp-request content reject\n", ""),
    (check_idle, "timeout client 2s", "timeout client 60s"),
    (check_alive, "timeout tunnel 3s", "timeout tunnel 3s\n    option independent-streams"),
    (check_alive, "timeout tunnel 3s", "timeout tunnel 300ms"),
    (check_unread, " tcp-ut 2s", ""),
    (check_full, "maxconn 3 ", "maxconn 4 "),
    (check_full, "timeout queue 4s", "timeout queue 60s"),
    (check_killed, "    option redispatch 1\n", ""),
    (check_killed, "    hash-type consistent\n", ""),
    (check_killed, "balance source", "balance roundrobin"),
    (check_drained, "level admin", "level operator"),
    (check_stuck, EXCHANGE, "    tcp-check connect\n"),
    (check_stuck, "maxconn 255 on-marked-down shutdown-sessions", "maxconn 255"),
    (check_four, "balance source", "balance roundrobin"),
    (check_four, "balance source", "balance first"),
]


def made(check, server, folder, broken=()):
    """Runs a check and returns its counts. An exception counts as a failure."""
    checks = Checks()
    try:
        check(checks, Setting(server, folder, broken))
    except (OSError, subprocess.SubprocessError, messages.Malformed, LookupError) as trouble:
        checks.same("%s runs to its end" % check.__name__, trouble, None)
    return checks


def check_all(checks, server, folder):
    """Runs all checks on the unchanged configuration."""
    for check in CHECKS:
        began, counted = time.monotonic(), made(check, server, folder)
        checks.add(counted)
        got = check.__name__, counted.passed, counted.failed, time.monotonic() - began
        print("%s: %d passed, %d failed, %.1f s" % got, flush=True)


def check_broken(checks, server, folder):
    """Runs each broken configuration, which its check must detect."""
    for check, old, new in BROKEN:
        print("%s, with %r for %r" % (check.__name__, new, old), flush=True)
        checks.same("the check fails", made(check, server, folder, [(old, new)]).failed > 0, True)


def main(words):
    checks = Checks()
    run = check_broken if words[0] == "--broken" else check_all
    require(PACKAGES)
    with tempfile.TemporaryDirectory() as folder:
        certify(folder)
        run(checks, os.path.abspath(words[-1]), folder)
    return checks.end("HAProxy in front")


if __name__ == "__main__":
    sys.exit(main(sys.argv[1:]))
