#!/usr/bin/env python3
"""Compares the code in the documentation with proved and compiled sources:

    tests/tools/examples.py

- Each block of code under `# Examples` in a comment of crates/*/src must be the body of a test in TESTS, without its
  last line `Ok(())`. Each of these tests must have such a block.
- Each block marked `rust` in README.md and docs/*.md names a file after this word, one of SOURCES. It must consist of
  whole items of this file, in their order, with their comments and attributes: functions, `impl` blocks to their end,
  types, imports. A block of TESTS can also be the body of a test, as in a comment. Those of TUTORIAL are whole files of
  a crate, which tests/system/tutorial.py proves.
- A block marked `rust signatures` names files, and has signatures of functions in them, with other comments. Those of a
  trait are all that it has, in their order. `{ .. }` after one means that the method has a default.
- The blocks marked `c` of docs/EMBEDDING_C.md are together the body of a function with the parameters of C_FUNCTION. A
  C compiler must accept it without a warning, with the header. The literal blocks of man/dachreup.3 likewise. Without a
  compiler, this is skipped.
- The line `server=` of docs/EMBEDDING.md must list `coap_serve` and all crates below it, the line `client=` the others
  that `coap_client` needs. Its lines of examples must be in crates.txt.

A last line such as `send(rt, &mut client)` means the body of the function `send` of the same file, if `rt` and
`client` are its parameters.

Indentation of a whole block does not count. The script also checks itself on SAMPLES. The last line is 'N passed, M
failed'. Each block, each test, each sample, both lists of crates and each function in C counts once.
"""

import glob
import os
import re
import shutil
import subprocess
import sys
import textwrap

sys.path.insert(0, os.path.join(os.path.dirname(os.path.abspath(__file__)), "..", "harness"))
from checks import SKIPPED  # noqa: E402
from commands import read  # noqa: E402
from workspace import ROOT, crates  # noqa: E402

TESTS = "crates/test_proved/src/examples.rt"
SOURCES = [TESTS, "crates/test_proved/src/**/*.rt", "crates/example_*/src/*.rt", "crates/coap_io/src/polled.rt"]

# The word before the files of a block with signatures.
SIGNATURES = "signatures "

TEST = re.compile(r"#\[test\]\nfn (\w+)\(.*?\{\n(.*?)^\}", re.S | re.M)
# A function with its name, its parameters and its body.
FUNCTION = re.compile(r"^fn (\w+)(?:<[^>]*>)?\(([^{}]*?)\n?\)(?: -> [^\n]*)? \{\n(.*?)^\}", re.S | re.M)
# A call that is the last line of a function.
CALL = re.compile(r"^    (\w+)\(([^()]*)\)\n(?=\})", re.M)
FENCED = re.compile(r"^``` ?(\w*) *([^\n]*)\n(.*?)^```$", re.S | re.M)
# The document whose blocks are files.
TUTORIAL = "docs/TUTORIAL.md"
# The crates that a repository of its own copies, for a server and for a client.
COPIED = re.compile(r'^ *(?:server|client)="([\w ]+)"', re.M)
# A line of crates.txt.
LISTED = re.compile(r"^    (example_\w+: .*)$", re.M)
# A trait with its name and its methods; a type or a function in a trait or elsewhere, up to its clauses or its body.
TRAIT = re.compile(r"^pub trait (\w+).*? \{\n(.*?)^\}", re.S | re.M)
SIGNATURE = re.compile(r"\b(?:pub )?(?:type|fn) \w[^;]*?(?=;| \{$| \{ \.\. \}$|\s+(?:requires|ensures)\b)", re.S | re.M)


# The document with blocks in C and the manual with literal blocks in C, and the function around them.
C_DOCUMENT, C_MANUAL = "docs/EMBEDDING_C.md", "man/dachreup.3"
LITERAL = re.compile(r"^\.Bd -literal[^\n]*\n(.*?)^\.Ed$", re.S | re.M)
C_FUNCTION = """#include <dachreup.h>
#include <stdio.h>
#include <time.h>
int listed(const uint8_t *input, size_t length) {
%s
    return 0;
}
"""
COMPILER = ["cc", "-std=c11", "-Wall", "-Wextra", "-Werror", "-fsyntax-only", f"-I{ROOT}/include", "-x", "c", "-"]

# A source, blocks that show whole items of it, and blocks that do not.
SAMPLE = '''//! A file.

use a::{
    B,
};
const C: u8 = 1;

/// Does it.
#[tactic(auto)]
fn one(b: &B) -> u8 {
    let c = C;

    c
}

impl A for B {
    fn two(&self) {}

    fn three(&self) {}
}
'''
ONE = "/// Does it.\n#[tactic(auto)]\nfn one(b: &B) -> u8 {\n    let c = C;\n\n    c\n}"
B = "impl A for B {\n    fn two(&self) {}\n\n    fn three(&self) {}\n}"
SAMPLES = [
    (ONE, True),
    (B, True),
    (f"{ONE}\n\n{B}", True),
    ("use a::{\n    B,\n};", True),
    (f"const C: u8 = 1;\n\n{B}", True),
    ("", False),
    (ONE.removesuffix("\n}"), False),
    (ONE.removeprefix("/// Does it.\n"), False),
    (ONE.replace("C;", "2;"), False),
    ("let c = C;\n\nc", False),
    ("fn two(&self) {}", False),
    ("impl A for B {\n    fn two(&self) {}\n}", False),
    (B.removesuffix("\n}"), False),
    (f"{B}\n\n{ONE}", False),
    (f"{ONE}\n\n{ONE}", False),
    (f"{ONE}\n\nlet c = 1;", False),
]

# A trait, signatures that it has, and others.
TRAIT_SAMPLE = '''/// A trait.
pub trait A {
    ghost told: { Self → List ℕ };

    /// Does it.
    fn one(
        &mut self,
        b: B,
    ) -> u8
        ensures within { result ≤ 8 };

    fn two(&self) -> bool {
        true
    }
}
'''
SIGNED = [
    ("pub trait A {\n    // Other.\n    fn one(&mut self, b: B) -> u8;\n\n    fn two(&self) -> bool { .. }\n}", True),
    ("pub trait A {\n    fn one(&mut self, b: B) -> u8;\n    fn two(&self) -> bool;\n}", False),
    ("pub trait A {\n    fn one(&mut self, b: B) -> u8;\n}", False),
    ("fn one(&mut self, b: B) -> u8;", True),
    ("fn one(&mut self, c: B) -> u8;", False),
    ("pub trait B {\n}", False),
]


def continued(path):
    """Returns the text of a source. The last line of a function that continues in another one is the body of that
    one."""
    text, named, passed = read(ROOT, path), r"(?:^|,)\s*(\w+):", r"(?:^|,)\s*(?:&(?:mut )?)?(\w+)"
    bodies = {(name, *re.findall(named, parameters)): body for name, parameters, body in FUNCTION.findall(text)}
    return CALL.sub(lambda it: bodies.get((it[1], *re.findall(passed, it[2])), it[0]), text)


def files(*patterns):
    """Returns the paths that match, relative to the repository."""
    return sorted(os.path.relpath(it, ROOT) for one in patterns for it in glob.glob(f"{ROOT}/{one}", recursive=True))


def plain(code):
    """Returns code without indentation of the whole, and without blank lines at its ends."""
    return textwrap.dedent(code).strip("\n")


def items(code):
    """Returns the items of a source, with their comments and attributes. An item ends with a line without indentation
    that ends with a brace or a semicolon. Lines after the last item are one more."""
    found, item = [], []
    for line in code.splitlines():
        if line.startswith("//!") or not (item or line.strip()):
            continue
        item.append(line)
        if line[:1] not in ("", " ", "/", "#") and line.endswith((";", "}")):
            found.append("\n".join(item))
            item = []
    return found + ["\n".join(item)] * bool(item)


def is_whole(code, source):
    """Returns true if the code consists of items of the source, in their order."""
    left, shown = iter(items(source)), items(code)
    return bool(shown) and all(it in left for it in shown)


def signatures(code):
    """Returns the signatures in a source, in one line each."""
    code = re.sub(r"^ *//.*\n", "", code, flags=re.M)
    return [re.sub(r"(?<=\() | (?=\))|, (?=\))|,(?=\))", "", " ".join(it.split())) for it in SIGNATURE.findall(code)]


def trait_methods(code):
    """Returns the methods of each trait in a source by its name, each as its signature and whether it has a default."""
    found = {}
    for name, body in TRAIT.findall(re.sub(r"^ *//.*\n", "", code, flags=re.M)):
        members = re.findall(r"^    (?:type|fn) .*?(?=^    (?:type|fn|ghost) |\Z)", body, re.S | re.M)
        found[name] = [(*signatures(it), bool(re.search(r"(?:^| )\{(?: \.\. \})?$", it, re.M))) for it in members]
    return found


def are_signatures(code, source):
    """Returns true if a source has the signatures, and its traits of these names have no others."""
    shown, traits = signatures(code), trait_methods(source)
    return bool(shown) and set(shown) <= set(signatures(source)) \
        and all(traits.get(name) == methods for name, methods in trait_methods(code).items())


def tests():
    """Returns the body of each test, by the name of the test."""
    found = TEST.findall(continued(TESTS))
    return {name: re.sub(r"\n*\s*Ok\(\(\)\)\s*$", "", plain(body)) for name, body in found}


def comment_blocks():
    """Yields each block of code under `# Examples`, with its file."""
    for path in files("crates/*/src/**/*.rt"):
        for comment in re.findall(r"(?:^[ \t]*//[/!].*\n)+", read(ROOT, path), re.M):
            text = "".join(re.sub(r"^\s*//[/!] ?", "", line) + "\n" for line in comment.splitlines())
            _, _, examples = text.partition("# Examples\n")
            for _, _, code in FENCED.findall(re.split(r"^# ", examples, flags=re.M)[0]):
                yield path, plain(code)


def document_blocks():
    """Yields each block of code marked `rust` in the documents except TUTORIAL, with its file and the source that it
    names."""
    for path in files("README.md", "docs/*.md"):
        for language, source, code in FENCED.findall(read(ROOT, path)):
            if language == "rust" and path != TUTORIAL:
                yield path, source, plain(code)


def is_in(source, code, bodies):
    """Returns true if the source that a block names has its code. `bodies` are those of the tests."""
    if source.startswith(SIGNATURES):
        return are_signatures(code, "\n".join(map(read, files(*source.split()[1:]))))
    is_whole_in = source in files(*SOURCES) and is_whole(code, read(ROOT, source))
    return is_whole_in or source == TESTS and code in bodies.values()


def c_blocks(path):
    """Returns the blocks in C of the document or of the manual."""
    if path == C_MANUAL:
        return LITERAL.findall(read(ROOT, path))
    return [code for language, _, code in FENCED.findall(read(ROOT, path)) if language == "c"]


def c_errors(path):
    """Returns the output of the compiler for the blocks in C, or `None` if there is no compiler."""
    if not shutil.which(COMPILER[0]):
        return None
    blocks = c_blocks(path)
    if not blocks:
        return "no blocks in C\n"
    done = subprocess.run(COMPILER, input=C_FUNCTION % "\n".join(blocks), capture_output=True, text=True)
    return done.stdout + done.stderr + f"status {done.returncode}\n" * bool(done.returncode)


def main():
    bodies, passed, failed = tests(), 0, 0
    unused = set(bodies)
    for path, code in comment_blocks():
        names = [name for name, body in bodies.items() if body == code]
        unused -= set(names)
        if names:
            passed += 1
        else:
            failed += 1
            print(f"{path}: no test of {TESTS} has this body:\n{textwrap.indent(code, '    ')}")
    for name in sorted(bodies):
        passed, failed = passed + (name not in unused), failed + (name in unused)
        if name in unused:
            print(f"{TESTS}: no documentation comment shows {name}")
    for path, source, code in document_blocks():
        if is_in(source, code, bodies):
            passed += 1
        else:
            failed += 1
            named = source or "that the block must name"
            print(f"{path}: these are no whole items of the source {named}:\n{textwrap.indent(code, '    ')}")
    for is_right, sample, samples in ((is_whole, SAMPLE, SAMPLES), (are_signatures, TRAIT_SAMPLE, SIGNED)):
        for code, wanted in samples:
            passed, failed = passed + (is_right(code, sample) == wanted), failed + (is_right(code, sample) != wanted)
            if is_right(code, sample) != wanted:
                print(f"sample, {'right' if wanted else 'wrong'}:\n{textwrap.indent(code, '    ')}")
    copied = [sorted(it.split()) for it in COPIED.findall(read(ROOT, "docs/EMBEDDING.md"))]
    server, client = ({it, *crates()[it]} for it in ("coap_serve", "coap_client"))
    wanted = [sorted(it.removeprefix("coap_") for it in one) for one in (server, client - server)]
    if copied != wanted:
        print(f"docs/EMBEDDING.md: the lines `server=` and `client=` have {copied}, and not {wanted}")
    passed, failed = passed + (copied == wanted), failed + (copied != wanted)
    unlisted = set(LISTED.findall(read(ROOT, "docs/EMBEDDING.md"))) - set(read(ROOT, "crates.txt").splitlines())
    passed, failed = passed + (not unlisted), failed + bool(unlisted)
    print("".join(f"docs/EMBEDDING.md: crates.txt has no line '{it}'\n" for it in unlisted), end="")
    for path in (C_DOCUMENT, C_MANUAL):
        errors = c_errors(path)
        passed, failed = passed + (errors == ""), failed + bool(errors)
        if errors is None:
            print(f"{SKIPPED}the listings of {path}: there is no C compiler")
        elif errors:
            print(f"{path}: the listings do not compile:\n{errors}", end="")
    print(f"{passed} passed, {failed} failed")
    return min(failed, 1)


if __name__ == "__main__":
    sys.exit(main())
