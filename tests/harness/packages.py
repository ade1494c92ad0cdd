"""Installs Debian packages whose programs or files are missing."""

import contextlib
import fcntl
import os
import shutil
import subprocess
import sys

# HAProxy is in a directory that is not in every user's PATH.
os.environ["PATH"] += os.pathsep + "/usr/sbin"


@contextlib.contextmanager
def alone():
    """Waits until no other script of these tests changes the installed packages. They wait until the block ends."""
    folder = os.open("/var/lib/dpkg", os.O_RDONLY)
    try:
        fcntl.flock(folder, fcntl.LOCK_EX)
        yield
    finally:
        os.close(folder)


def apt(words):
    quiet = dict(os.environ, DEBIAN_FRONTEND="noninteractive")
    command = ["apt-get", "--yes", "-o", "DPkg::Lock::Timeout=60"] + words
    return subprocess.run(command, env=quiet, stdin=subprocess.DEVNULL, stdout=subprocess.PIPE,
                          stderr=subprocess.STDOUT, timeout=300)


def exists(name):
    """Returns true if a program exists, or a file that is named by its full path, such as a header."""
    return os.path.isfile(name) if name.startswith("/") else bool(shutil.which(name))


def missing_of(packages):
    """Returns the packages whose programs or files are missing."""
    return [package for name, package in packages.items() if not exists(name)]


def require(packages):
    """Installs the missing programs and files. Ends the script, as one that failed, if one is missing afterwards."""
    if not install(packages):
        print(f"the packages {', '.join(missing_of(packages))} cannot be installed\n0 passed, 1 failed")
        sys.exit(1)


def install(packages):
    """Installs the missing programs and files, each from its package, and returns true if all exist afterwards."""
    if not missing_of(packages):
        return True
    with alone():
        words = ["install", "--no-install-recommends", *missing_of(packages)]
        done = apt(words)
        if done.returncode:
            # The package lists may be missing or old.
            apt(["update"])
            done = apt(words)
    if done.returncode:
        sys.stdout.write(done.stdout.decode(errors="replace"))
    return not missing_of(packages)
