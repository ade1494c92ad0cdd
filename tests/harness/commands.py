"""Runs of commands that end by themselves, libraries that tests preload, and files of text."""

import os
import subprocess

HARNESS = os.path.dirname(os.path.abspath(__file__))

# Timeout of each command in seconds.
LIMIT = 300


def run(words, **how):
    """Runs a command. Returns its status, and its output with its errors."""
    done = subprocess.run(words, stdin=subprocess.DEVNULL, stdout=subprocess.PIPE, stderr=subprocess.STDOUT,
                          timeout=LIMIT, **how)
    return done.returncode, done.stdout.decode(errors="replace")


def preloaded(name, folder, home=HARNESS):
    """Compiles a library that a test preloads, and returns its path in a folder."""
    library = f"{folder}/{name}.so"
    words = ["gcc", "-O2", "-Wall", "-Wextra", "-Werror", "-shared", "-fPIC"]
    subprocess.run([*words, "-o", library, f"{home}/{name}.c"], check=True)
    return library


def read(*parts):
    with open(os.path.join(*parts), encoding="utf-8") as file:
        return file.read()


def write(text, path):
    with open(path, "w", encoding="utf-8") as file:
        file.write(text)
