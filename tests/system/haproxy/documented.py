"""Runs the commands of docs/DEPLOYING.md for one server, and for HAProxy in front of four, with stand-ins for make,
systemd and apt."""

import contextlib
import os
import re
import signal
import subprocess
import tempfile
import textwrap

from commands import read
from peers import LIMIT
from peers import LOCAL as HOST
from peers import accepts, free_port, soon
from proxies import SERVERS, placed, places_for
from workspace import ROOT

# Stands in for systemctl: starts the programs with the files that the commands wrote below @.
SYSTEMCTL = r"""#!/bin/sh
start() {
    . "$1"
    line=$(sed -n 's/^ExecStart=//p' "$2")
    $(echo "$line" | sed "s|[$]COAP_SERVER_OPTIONS|$COAP_SERVER_OPTIONS|") &
}
case "$*" in
"enable --now coap-server")
    start @/etc/default/coap-server @/usr/local/lib/systemd/system/coap-server.service ;;
"enable --now coap-server@"*)
    start @/etc/default/coap-server-${3#*@} @/etc/systemd/system/coap-server@.service ;;
"reload haproxy") haproxy -db -f @/etc/haproxy/haproxy.cfg & ;;
*) exit 1 ;;
esac
"""


def commands_below(heading):
    """Returns the section of docs/DEPLOYING.md with this heading, and its first block of commands."""
    section = read(ROOT, "docs/DEPLOYING.md").partition(f"\n## {heading}\n")[2]
    return section, textwrap.dedent(re.match(r"\n((?:    .*\n)+)", section)[1])


def prepare(folder, setting, front):
    """Writes the files that `make install` installs, with this configuration of HAProxy, and the stand-ins, below a
    folder."""
    unit = read(ROOT, "install/coap-server.service.in").replace("@PREFIX@", f"{folder}/usr/local")
    files = {
        "usr/local/share/doc/coap-server/examples/haproxy.cfg": front.replace("/etc/", f"{folder}/etc/"),
        "usr/local/lib/systemd/system/coap-server.service": unit.replace("/etc/", f"{folder}/etc/"),
        "shims/sudo": '#!/bin/sh\nexec "$@"\n', "shims/apt-get": "#!/bin/sh\n", "shims/make": "#!/bin/sh\n",
        "shims/systemctl": SYSTEMCTL.replace("@/", f"{folder}/"),
    }
    for name in ("etc/default", "etc/haproxy", "etc/systemd/system", "usr/local/bin", *map(os.path.dirname, files)):
        os.makedirs(f"{folder}/{name}", exist_ok=True)
    for name, text in files.items():
        with open(f"{folder}/{name}", "w", encoding="utf-8") as file:
            file.write(text)
        os.chmod(f"{folder}/{name}", 0o755 if name.startswith("shims/") else 0o644)
    os.symlink(setting.server, f"{folder}/usr/local/bin/coap-server")
    os.symlink(f"{setting.folder}/server.pem", f"{folder}/coap.pem")


def check_commands(checks, folder, commands, port, client):
    """Runs commands, which must succeed, below a folder with the stand-ins, and a client once a program accepts
    connections at the port. Returns what the client prints."""
    commands = commands.replace("/etc/", f"{folder}/etc/").replace("/usr/local/", f"{folder}/usr/local/")
    own = {**os.environ, "PATH": f"{folder}/shims:{os.environ['PATH']}"}
    with open(f"{folder}/log", "w+", encoding="utf-8", errors="replace") as log:
        shell = subprocess.Popen(["bash", "-euc", commands], cwd=folder, env=own, stdin=subprocess.DEVNULL,
                                 stdout=log, stderr=log, process_group=0)
        try:
            status = shell.wait(LIMIT)
            log.seek(0)
            checks.same("the commands of docs/DEPLOYING.md", (status, log.read() if status else ""), (0, ""))
            soon(lambda: accepts(port))
            how = {"stdin": subprocess.DEVNULL, "capture_output": True, "timeout": LIMIT, "text": True}
            return subprocess.run(["bash", "-c", client], **how).stdout
        finally:
            with contextlib.suppress(ProcessLookupError):
                os.killpg(shell.pid, signal.SIGKILL)


def check_one_server(checks, setting):
    """Checks the commands for one server, and what the client of the next sentence prints."""
    section, commands = commands_below("One server")
    client, printed = re.search(r"Then `(.*?)` must print `(.*?)`", section).groups()
    port = free_port(HOST)
    client = client.replace("127.0.0.1/", f"127.0.0.1:{port}/")
    with tempfile.TemporaryDirectory(prefix="deploying-") as folder:
        prepare(folder, setting, "")
        said = check_commands(checks, folder, commands.replace("-d 100", f"-d 100 -p {port}"), port,
                              f"{os.path.dirname(setting.server)}/{client}")
        checks.same("the client of one server", said, printed)


def check_documented(checks, setting):
    """Checks the commands for HAProxy, and what the last one, a client, prints."""
    text = commands_below("HAProxy in front")[1]
    port, ports = free_port(HOST), {name: free_port(HOST) for name in SERVERS}
    for number, name in enumerate(SERVERS, 1):
        text = f"PORT{number}={ports[name]}\n{text}"
    for old, new in (("-p 570$n", "-p $(eval echo '$PORT'$n)"), ("//HOST/", f"//{HOST}:{port}/"),
                     ("coap-client-openssl", f"coap-client-openssl -R {setting.folder}/authority.pem")):
        text = text.replace(old, new)
    commands, client = text.rstrip().rsplit("\n", 1)
    with tempfile.TemporaryDirectory(prefix="deploying-") as folder:
        prepare(folder, setting, placed(places_for(folder, port, ports)))
        said = check_commands(checks, folder, commands, port, client)
        checks.same("the client of docs/DEPLOYING.md", said, re.search(r"prints (.*)", client)[1] + "\n")
