"""The sources that a manual describes, and the texts that they print."""

import glob
import os
import re

from workspace import ROOT

# Sources of the programs that are in libraries with error texts.
LIBRARIES = ["coap_io/src/*.rt", "program_common/src/*.rt", "coap_sockets/src/*.rt",
             "coap_command_line/src/arguments.rt"]

SOURCES = {
    # Source files with the lines and statuses of a program.
    "coap-server": ["program_server/src/*.rt", "program_server_common/src/*.rt", "coap_serve/src/*.rt",
                    "coap_script/src/*.rt", "coap_model/src/*.rt", "coap_server_engine/src/*.rt"] + LIBRARIES,
    "coap-client": ["program_client/src/*.rt", "coap_client_engine/src/run.rt", "coap_client_engine/src/run/*.rt",
                    "coap_client_engine/src/error_lines.rt", "coap_client_engine/src/cause_line.rt"] + LIBRARIES,
    "coap-explain": ["program_explain/src/*.rt"] + LIBRARIES,
    "coap-directory": ["program_directory/src/*.rt", "program_server_common/src/*.rt", "coap_serve/src/*.rt",
                       "coap_server_engine/src/io_fault.rt"] + LIBRARIES,
}

# Files with error texts that a program prints as lines, beside the texts in its calls of `print_fault`.
ARGUMENTS = "coap_command_line/src/arguments.rt"
LISTENS = ["coap_sockets/src/door.rt", "coap_server_engine/src/io_fault.rt"]
ERRORS = {
    "coap-server": [*LISTENS, ARGUMENTS],
    "coap-client": ["coap_sockets/src/client_wire.rt", "coap_client_engine/src/run/state.rt", ARGUMENTS],
    "coap-explain": [ARGUMENTS],
    "coap-directory": [*LISTENS, ARGUMENTS],
}

# Text for a plan that no command line can make, and texts for ends that no run of the client has. The manuals do not
# have them.
UNREACHED = {"a limit is out of its range", "the message is too large", "the queue has no room",
             "the client sent Release"}


def code_of(patterns):
    """Returns the text of these source files of crates, without comments."""
    return re.sub(r"(?m)^\s*//.*", "", source_of(patterns))


def shape(text):
    """Returns a format string with each of its values as `{}`. The name of an option in the line for a bad value is one
    too."""
    return re.sub(r"^bad value for -.*", "bad value for {}", re.sub(r"\{[^}]*\}", "{}", text))


def printed(name):
    """Returns the texts that a program gives to `print_fault`, with `{}` for their values, and the values that are no
    texts."""
    words = re.findall(r'print_fault\(\s*rt,\s*(?:format_args!\(\s*)?("[^"]*"|[\w.()]+)', code_of(SOURCES[name]))
    return {shape(it[1:-1]) for it in words if it[0] == '"'}, {it for it in words if it[0] != '"'}


def source_of(patterns):
    """Returns the text of these source files of crates."""
    files = sorted(name for pattern in patterns for name in glob.glob(os.path.join(ROOT, "crates", pattern)))
    text = ""
    for name in files:
        with open(name, encoding="utf-8") as file:
            text += file.read()
    return text
