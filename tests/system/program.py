"""Runs the built programs, and checks their command lines, output, error lines and statuses.

    tests/system/program.py bin/coap-server bin/coap-client
"""

import os
import sys

HERE = os.path.dirname(os.path.abspath(__file__))
sys.path[:0] = [os.path.join(HERE, "..", "harness"), os.path.join(HERE, "program")]
from checked_arguments import check_help, check_words, refused_words, run  # noqa: E402
from checks import CSM, Checks  # noqa: E402
from client_arguments import CLIENT_CLASHES, CLIENT_HELP, CLIENT_VALUES, CLIENT_WORDS, TARGETS  # noqa: E402
from server_arguments import SERVER_CLASHES, SERVER_HELP, SERVER_VALUES, SERVER_WORDS  # noqa: E402
from server_scripts import STDIO_WORDS, STREAMS, check_scripts  # noqa: E402


def main(words):
    program = os.path.abspath(words[0])
    checks = Checks()
    for sent, answered in STREAMS:
        done = run(program, ["--stdio"], bytes.fromhex(sent))
        checks.same("bytes for %r" % sent, done.stdout.hex(), CSM + answered)
        checks.same("status for %r" % sent, (done.returncode, done.stderr), (0, b""))
    check_scripts(program, checks)
    check_words(program, "coap-server", SERVER_WORDS + refused_words("coap-server", SERVER_VALUES, SERVER_CLASHES),
                checks)
    client_words = CLIENT_WORDS + refused_words("coap-client", CLIENT_VALUES, CLIENT_CLASHES, TARGETS)
    check_words(os.path.abspath(words[1]), "coap-client", client_words, checks)
    check_help(program, "coap-server", SERVER_HELP, checks)
    check_help(os.path.abspath(words[1]), "coap-client", CLIENT_HELP, checks)
    for said, sent, greeting, answered in STDIO_WORDS:
        done = run(program, said + ["--stdio"], bytes.fromhex(sent))
        checks.same("bytes for %r" % said, (done.returncode, done.stdout.hex()), (0, greeting + answered))
    done = run(program, ["--turns", "1", "--stdio"], bytes.fromhex("00e1"))
    checks.same("too many turns", (done.returncode, done.stderr), (3, b"coap-server: too many turns\n"))
    with open("/dev/full", "wb") as full:
        done = run(program, ["--stdio"], stdout=full)
        checks.same("writing fails", (done.returncode, done.stderr), (3, b"coap-server: cannot write\n"))
    folder = os.open("/", os.O_RDONLY)
    done = run(program, ["--stdio"], stdin=folder)
    os.close(folder)
    checks.same("reading fails", (done.returncode, done.stdout.hex(), done.stderr),
                (3, CSM, b"coap-server: cannot read\n"))
    return checks.end("programs from outside")


if __name__ == "__main__":
    sys.exit(main(sys.argv[1:]))
