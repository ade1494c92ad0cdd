"""Checks the packages that `make deb` builds: their files, fields and equal bytes."""

import glob
import os
import re
import shutil
import subprocess
import tarfile
import tempfile

from commands import LIMIT, read, run, write
from package_files import (
    ARCHIVE, FILES, GATEWAY, GATEWAY_OPTIONS, LIBRARY, NAME, OPTIONS, PROGRAMS, files, here, options_in, version,
)
from workspace import ROOT

# Control fields of each package.
FIELDS = {
    NAME: {"Package": NAME, "Section": "net", "Depends": r"libc6 \(>= [\d.]+\)"},
    LIBRARY: {"Package": LIBRARY, "Source": NAME, "Section": "libdevel", "Depends": r"libc6-dev \| libc-dev",
              "Multi-Arch": "same"},
    GATEWAY: {"Package": GATEWAY, "Source": NAME, "Section": "net",
              "Depends": r"libc6 \(>= [\d.]+\), libmosquitto1 \(>= [\d.]+\)"},
}


def copy_tree(tree, programs, archive):
    """Copies the inputs of `make deb`. The programs and the archive are newer than the sources, so that they are not
    built again."""
    os.makedirs(os.path.join(tree, "crates"))
    for name in ("examples", "gateway", "include", "install", "man"):
        shutil.copytree(os.path.join(ROOT, name), os.path.join(tree, name))
    for name in ("Makefile", "VERSION", "crates.txt"):
        shutil.copy(os.path.join(ROOT, name), tree)
    os.makedirs(os.path.join(tree, "bin"))
    for name, program in zip(PROGRAMS, programs):
        shutil.copyfile(program, os.path.join(tree, "bin", name))
        os.chmod(os.path.join(tree, "bin", name), 0o755)
    shutil.copyfile(archive, os.path.join(tree, "bin/libdachreup.a"))


def make_deb(checks, tree, wanted, mask=0o022):
    """Builds the packages of this version from a copy. Returns their paths, that of the programs first."""
    status, said = run(["make", "deb"], cwd=tree, umask=mask)
    architecture = run(["dpkg", "--print-architecture"])[1].strip()
    made = [os.path.join(tree, "bin", "%s_%s_%s.deb" % (name, wanted, architecture))
            for name in (NAME, LIBRARY, GATEWAY)]
    missing = [path for path in made if not os.path.isfile(path)]
    checks.same("make deb, version %s" % wanted, (status, missing), (0, []))
    if missing:
        raise OSError(said)
    return made


def raise_version(tree):
    """Raises the version of a copy, and returns it."""
    changelog = os.path.join(tree, "install/debian/changelog")
    text, higher = read(changelog), version() + "+test"
    write(higher + "\n", os.path.join(tree, "VERSION"))
    write(text.replace("(%s)" % version(), "(%s)" % higher, 1) + "\n" + text, changelog)
    return higher


def check_wrong_version(checks, tree):
    """Checks that no package is built if the changelog has another version than the file VERSION."""
    write("9\n", os.path.join(tree, "VERSION"))
    status, said = run(["make", "deb"], cwd=tree)
    checks.same("VERSION differs from the changelog",
                (status != 0, "has another version" in said, glob.glob(tree + "/bin/*.deb")), (True, True, []))
    shutil.copy(os.path.join(ROOT, "VERSION"), tree)


def members(package):
    """Returns the members of a package that are not folders: path, mode, owner, and content."""
    packed = subprocess.run(["dpkg-deb", "--fsys-tarfile", package], stdout=subprocess.PIPE, check=True,
                            timeout=LIMIT).stdout
    with tempfile.TemporaryFile() as file:
        file.write(packed)
        file.seek(0)
        with tarfile.open(fileobj=file) as it:
            return {member.name.removeprefix("."): (member.mode, member.uname, it.extractfile(member).read())
                    for member in it if not member.isdir()}


def check_content(checks, name, package):
    """Checks the files of a package, its fields, and that lintian has no remark."""
    packed = members(package)
    checks.same("%s: files" % name, {path: (mode, owner) for path, (mode, owner, _) in packed.items()},
                {path: (mode, "root") for path, (mode, _) in files(name).items()})
    for path, (_, source) in files(name).items():
        if source and path in packed:
            checks.same("%s: content of %s" % (name, path), packed[path][2] == read(ROOT, source).encode(), True)
    for field, wanted in FIELDS[name].items():
        status, value = run(["dpkg-deb", "-f", package, field])
        checks.same("%s: %s is %r" % (name, field, value), (status, bool(re.fullmatch(wanted, value.strip()))),
                    (0, True))
    status, said = run(["lintian", "--fail-on", "error,warning", package])
    checks.same("%s: lintian" % name, (status, [line for line in said.splitlines() if re.match("[EW]:", line)]),
                (0, []))
    return packed


def check_programs(checks, package):
    packed = check_content(checks, NAME, package)
    checks.same("options in the installed file", options_in(packed[OPTIONS][2].decode()), {})
    checks.same("configuration files", run(["dpkg-deb", "-I", package, "conffiles"]), (0, OPTIONS + "\n"))


def exported(archive):
    """Returns the exported names of an archive."""
    status, said = run(["nm", "--defined-only", "--extern-only", "--format=just-symbols", archive])
    return sorted(said.split()) if status == 0 else said


def check_library(checks, package, archive, folder):
    packed = check_content(checks, LIBRARY, package)
    placed = os.path.join(folder, "packed.a")
    with open(placed, "wb") as file:
        file.write(packed[here(ARCHIVE)][2])
    checks.same("exported names of the packed archive", exported(placed), exported(archive))
    status, said = run(["sh", "-c", 'dpkg-deb --ctrl-tarfile "$0" | tar -t', package])
    checks.same("%s: control files" % LIBRARY, (status, sorted(line.strip("./") for line in said.splitlines())),
                (0, ["", "control", "md5sums"]))


def check_packages(checks, folder, programs, archive):
    """Builds the packages twice, and a higher version. Returns the paths of both versions of each."""
    trees = [os.path.join(folder, name) for name in ("one", "another folder")]
    for tree in trees:
        copy_tree(tree, programs, archive)
    check_wrong_version(checks, trees[0])
    first, second = make_deb(checks, trees[0], version()), make_deb(checks, trees[1], version(), 0o077)
    for one, other in zip(first, second):
        with open(one, "rb") as left, open(other, "rb") as right:
            checks.same("equal bytes of two packages %s" % os.path.basename(one), left.read() == right.read(), True)
    paths = [path for name in FILES for path in files(name)]
    checks.same("files of two packages", sorted(path for path in set(paths) if paths.count(path) > 1), [])
    check_programs(checks, first[0])
    check_library(checks, first[1], archive, folder)
    packed = check_content(checks, GATEWAY, first[2])
    checks.same("the gateway's options in the installed file", options_in(packed[GATEWAY_OPTIONS][2].decode()), {})
    conffiles = run(["dpkg-deb", "-I", first[2], "conffiles"])
    checks.same("the gateway's configuration files", conffiles, (0, GATEWAY_OPTIONS + "\n"))
    return list(zip(first, make_deb(checks, trees[1], raise_version(trees[1]))))
