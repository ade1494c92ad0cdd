"""Checks the files of TLS at the start, and a key that changes later."""

import os
import shutil
import sys
import tempfile

from connections import StrictBroker
from gateway_checks import run, write_file
from gateways import CONTENT, CREATED, PREFIX, PUT, UNAVAILABLE, Broker, Gateway
import proxies


def make_key(folder, name, *words):
    line = ["openssl", "genrsa", *words, "-out", f"{folder}/{name}", "2048"]
    if run(line).returncode:
        raise OSError("no key is made")


# Files that are none, and a part of the text that names the fault.
BAD_FILES = [("none", "No such file or directory"), (".", "Is a directory"), ("pipe", "Invalid argument"),
             ("empty", "in PEM"), ("text", "in PEM")]

BAD_KEYS = [("encrypted.key", "encrypted"), ("traditional.key", "encrypted"), ("signed.crt", "no private key in PEM")]

BAD_CERTIFICATES = [("server.key", "no certificate in PEM")]


def check_tls_files(checks, program):
    """Checks files of TLS that cannot be used. Each is named, and nothing is connected."""
    with tempfile.TemporaryDirectory(prefix="coap-mqtt-") as folder, StrictBroker() as broker:
        proxies.certify(folder)
        make_key(folder, "encrypted.key", "-aes128", "-passout", "pass:secret")
        make_key(folder, "traditional.key", "-traditional", "-aes128", "-passout", "pass:secret")
        write_file(f"{folder}/empty", "")
        write_file(f"{folder}/text", "-----BEGIN NOTHING-----\n")
        run(["openssl", "x509", "-in", f"{folder}/signed.pem", "-out", f"{folder}/signed.crt"], check=True)
        os.mkfifo(f"{folder}/pipe")
        good = {"--cafile": "authority.pem", "--cert": "signed.pem", "--key": "server.key"}
        for option in good:
            for file, text in [*BAD_FILES, *(BAD_KEYS if option == "--key" else BAD_CERTIFICATES)]:
                words = [it for key, value in {**good, option: file}.items() for it in (key, f"{folder}/{value}")]
                done = run([program, "-A", "127.0.0.1", "-p", "1", "--broker-port", str(broker.port), *words])
                found = (done.returncode, [it in done.stderr for it in (option, f"{folder}/{file}", text)])
                checks.same(f"{option} {file}", (found, done.stderr.count("\n")), ((1, 3 * [True]), 1))
        checks.same("nothing was connected", broker.connects, [])


# Runs a program that has a terminal, on which nobody types.
WITH_TERMINAL = [sys.executable, "-c", """
import fcntl, os, sys, termios
for it in (pair := os.openpty()):
    os.set_inheritable(it, True)
os.setsid()
fcntl.ioctl(pair[1], termios.TIOCSCTTY, 0)
os.execvp(sys.argv[1], sys.argv[1:])
"""]


def check_key_replaced(checks, program):
    """Checks a key that is encrypted after the start: no password is asked for, and peers are served."""
    with tempfile.TemporaryDirectory(prefix="coap-mqtt-") as folder:
        proxies.certify(folder)
        names = {"cafile": "authority.pem", "certfile": "signed.pem", "keyfile": "server.key"}
        lines = "".join(f"{word} {folder}/{name}\n" for word, name in names.items()) + "require_certificate true\n"
        shutil.copy(f"{folder}/server.key", f"{folder}/gateway.key")
        own = ["--cafile", f"{folder}/authority.pem", "--cert", f"{folder}/signed.pem"]
        own += ["--key", f"{folder}/gateway.key"]
        with Broker(folder, [("# Only the gateways: each", lines + "# Only the gateways: each")]) as broker:
            with Gateway(program, broker, folder, 1, own, WITH_TERMINAL) as gateway, gateway.peer() as peer:
                checks.same("a write", peer.code(PUT, f"{PREFIX}/a", payload=b"1"), CREATED)
                files = ["-in", f"{folder}/server.key", "-out", f"{folder}/gateway.key"]
                run(["openssl", "pkey", "-aes128", "-passout", "pass:secret", *files], check=True)
                broker.kill()
                checks.same("the gateway notices", gateway.says("next attempt"), True)
                broker.start()
                checks.same("it cannot connect", gateway.says("cannot connect"), True)
                checks.same("a read", peer.get(f"{PREFIX}/a"), (CONTENT, b"1", None))
                checks.same("a write without the broker", peer.code(PUT, f"{PREFIX}/a", payload=b"2"), UNAVAILABLE)
