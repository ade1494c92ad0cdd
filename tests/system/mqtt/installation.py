"""Checks the unit, the installation, and the commands of docs/GATEWAYS.md."""

import contextlib
import os
import re
import select
import shutil
import signal
import subprocess
import tempfile

from gateway_checks import run, write_file
from gateways import CONFIGURATION, PREFIX, Peer, read_file, soon
from peers import LOCAL, accepts, free_port
import proxies
from workspace import ROOT

# Maximum exposure of the unit, of 10, as systemd-analyze reports it.
EXPOSURE = 1.1

UNIT = f"{ROOT}/install/coap-mqtt.service.in"


def check_unit(checks, _):
    """Checks the unit with systemd-analyze."""
    with tempfile.TemporaryDirectory(prefix="coap-mqtt-") as folder, open(UNIT, encoding="utf-8") as file:
        unit = f"{folder}/coap-mqtt@1.service"
        write_file(f"{folder}/bin/coap-mqtt", "#!/bin/sh\n", 0o755)
        write_file(unit, file.read().replace("@PREFIX@", folder))
        verified = run(["systemd-analyze", "verify", "--man=no", unit])
        remarks = [it for it in verified.stderr.splitlines() if "coap-mqtt" in it]
        checks.same("remarks of systemd-analyze", (verified.returncode, remarks), (0, []))
        rated = run(["systemd-analyze", "security", "--offline=true", "--no-pager", unit])
        exposure = re.search(r"Overall exposure level for \S+: ([\d.]+)", rated.stdout)
        is_low = bool(exposure) and float(exposure[1]) <= EXPOSURE
        checks.same("the unit's exposure of at most %s" % EXPOSURE, is_low, True)


INSTALLED = {"bin/coap-mqtt": 0o755, "share/man/man1/coap-mqtt.1": 0o644,
             "share/bash-completion/completions/coap-mqtt": 0o644, "share/zsh/site-functions/_coap-mqtt": 0o644,
             "share/fish/vendor_completions.d/coap-mqtt.fish": 0o644,
             "lib/systemd/system/coap-mqtt@.service": 0o644, "share/doc/coap-mqtt/examples/mosquitto.conf": 0o644}


def files_below(folder):
    """Returns the files below a folder, each with its mode."""
    paths = (os.path.join(at, name) for at, _, names in os.walk(folder) for name in names)
    return {os.path.relpath(it, folder): os.stat(it).st_mode & 0o777 for it in paths}


def check_install(checks, program):
    """Installs the gateway into a temporary folder, and uninstalls it."""
    with tempfile.TemporaryDirectory(prefix="coap-mqtt-") as folder:
        for name in ("install", "man"):
            shutil.copytree(f"{ROOT}/{name}", f"{folder}/{name}")
        for name in ("Makefile", "VERSION", "crates.txt"):
            shutil.copy(f"{ROOT}/{name}", folder)
        os.makedirs(f"{folder}/bin")
        os.makedirs(f"{folder}/crates")
        shutil.copy(program, f"{folder}/bin/coap-mqtt")
        make = ["make", "-C", folder, f"DESTDIR={folder}/to", "PREFIX=/usr"]
        done = run([*make, "install-gateway"])
        checks.same("make install-gateway", (done.returncode, files_below(f"{folder}/to/usr")), (0, INSTALLED))
        with open(f"{folder}/to/usr/lib/systemd/system/coap-mqtt@.service", encoding="utf-8") as file:
            checks.same("the command of the unit", "\nExecStart=/usr/bin/coap-mqtt --id %i " in file.read(), True)
        checks.same("make uninstall", (run([*make, "uninstall"]).returncode, files_below(f"{folder}/to/usr")), (0, {}))


# Stands in for systemctl: starts the programs with the files that the commands wrote.
SYSTEMCTL = r"""#!/bin/sh
case "$*" in
"restart mosquitto") mosquitto -c @/etc/mosquitto/mosquitto.conf >>@/log 2>&1 & ;;
"enable --now coap-mqtt@"*)
    id=${3#*@}
    for file in @/etc/default/coap-mqtt @/etc/default/coap-mqtt-$id; do . $file; done
    mkdir -p @/run/coap-mqtt-$id @/credentials
    for file in @/etc/coap-mqtt/*; do cp $file @/credentials/broker_${file##*/}; done
    line=$(sed -n '/^ExecStart=/{N;s/\\\n *//;s/^ExecStart=//p}' @/usr/local/lib/systemd/system/coap-mqtt@.service)
    line=$(echo "$line" | sed "s|%i|$id|g; s|[$]{RUNTIME_DIRECTORY}|@/run/coap-mqtt-$id|")
    line=$(echo "$line" | sed "s|[$]COAP_MQTT_BROKER|$COAP_MQTT_BROKER|; s|[$]COAP_MQTT_OPTIONS|$COAP_MQTT_OPTIONS|")
    CREDENTIALS_DIRECTORY=@/credentials $line >>@/log 2>&1 & ;;
"reload haproxy") haproxy -db -f @/etc/haproxy/haproxy.cfg >>@/log 2>&1 & ;;
*) exit 1 ;;
esac
echo $! >>@/processes
"""


def commands():
    """Returns the commands of the page on gateways, to the end of their section."""
    with open(f"{ROOT}/docs/GATEWAYS.md", encoding="utf-8") as file:
        section = file.read().partition("\nThese commands lead from nothing to two gateways")[2].partition("\n## ")[0]
    return "".join(line[4:] for line in section.splitlines(keepends=True) if line.startswith("    "))


def text_of(name):
    with open(name, encoding="utf-8") as file:
        return file.read()


def installed(folder, program, ports):
    """Writes the files that `make install` installs, below a folder and with other ports. Returns replacements for the
    commands."""
    replaced = {
        "/etc/": f"{folder}/etc/", "/usr/local": f"{folder}/usr/local", "/var/lib/mosquitto/": f"{folder}/kept/",
        "-g mosquitto ": "", "--connections 256": f"--connections 256 --broker-port {ports['mosquitto']}",
        "127.0.0.1:5701": f"127.0.0.1:{ports['one']}", "127.0.0.1:5702": f"127.0.0.1:{ports['two']}",
        "listener 1883": f"listener {ports['mosquitto']}", "-p 570$n": "-p $(eval echo '$PORT'$n)",
        "127.0.0.1:570$n": f"{LOCAL}:$(eval echo '$PORT'$n)",
    }
    share, user = f"{folder}/usr/local/share/doc", "user root\n" if os.geteuid() == 0 else ""
    places = [("stats socket /run/haproxy/admin.sock", f"stats socket {folder}/admin"),
              ("bind :::5684 v4v6", f"bind {LOCAL}:{ports['haproxy']}")]
    haproxy_text = proxies.placed([*proxies.ANY_USER, *places, *proxies.QUICK_CHECKS])
    unit = f"{folder}/usr/local/lib/systemd/system/coap-mqtt@.service"
    for target, text in ((f"{share}/coap-mqtt/examples/mosquitto.conf", text_of(CONFIGURATION) + user),
                         (f"{share}/coap-server/examples/haproxy.cfg", haproxy_text), (unit, text_of(UNIT))):
        for old, new in replaced.items():
            text = text.replace(old, new)
        write_file(target, text.replace("@PREFIX@", f"{folder}/usr/local"))
    for name, text in (("sudo", '#!/bin/sh\nexec "$@"\n'), ("apt-get", "#!/bin/sh\n"), ("make", "#!/bin/sh\n"),
                       ("systemctl", SYSTEMCTL.replace("@/", f"{folder}/"))):
        write_file(f"{folder}/shims/{name}", text, 0o755)
    for name in ("etc/mosquitto", "etc/default", "etc/haproxy", "kept", "usr/local/bin"):
        os.makedirs(f"{folder}/{name}", exist_ok=True)
    os.symlink(program, f"{folder}/usr/local/bin/coap-mqtt")
    return replaced


def end_other(process):
    """Ends a program that is no child of this one, by SIGTERM or, if it stays, by SIGKILL. Returns after its end."""
    with contextlib.suppress(ProcessLookupError), os.fdopen(os.pidfd_open(process), "rb", 0) as descriptor:
        for number in (signal.SIGTERM, signal.SIGKILL):
            signal.pidfd_send_signal(descriptor.fileno(), number)
            if select.select([descriptor], [], [], 10)[0]:
                return


def check_documented(checks, program):
    """Runs the commands of docs/GATEWAYS.md, with stand-ins for systemd and apt, below a temporary folder."""
    with tempfile.TemporaryDirectory(prefix="coap-mqtt-") as folder:
        ports = {name: free_port() for name in ("mosquitto", "one", "two", "haproxy")}
        replaced, text = installed(folder, program, ports), commands()
        proxies.certify(folder)
        write_file(f"{folder}/coap.pem", text_of(f"{folder}/server.pem"))
        for old, new in replaced.items():
            text = text.replace(old, new)
        path = f"{folder}/shims:{os.path.dirname(program)}:{os.environ['PATH']}"
        own = {"PATH": path, "HOME": folder, "PORT1": str(ports["one"]), "PORT2": str(ports["two"])}
        try:
            with open(f"{folder}/log", "ab") as log:
                shell = ["bash", "-eu", "-o", "pipefail", "-c", text]
                done = subprocess.run(shell, cwd=folder, env={**os.environ, **own}, stdin=subprocess.DEVNULL,
                                      stdout=subprocess.PIPE, stderr=log, timeout=60)
            with open(f"{folder}/log", encoding="utf-8", errors="replace") as log:
                said = log.read()
            found = (done.returncode, done.stdout.splitlines()[-1:], said if done.returncode else "")
            checks.same("the commands", found, (0, [b"21.5"], ""))
            checks.same("HAProxy listens", soon(lambda: accepts(ports["haproxy"]), True), True)
            with Peer(ports["haproxy"], LOCAL, proxies.context(folder, proxies.Kind())) as peer:
                checks.same("GET through HAProxy", soon(lambda: peer.get(f"{PREFIX}/room")[1], b"21.5"), b"21.5")
        finally:
            for process in read_file(f"{folder}/processes").split():
                end_other(int(process))
