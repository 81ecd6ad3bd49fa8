#!/usr/bin/env python3
"""Tests the crate for Rust, rust/encoding_rs, over the library that `make c` has built: as the last step of the gate.

    python3 tools/gate/rust_crate.py

It runs `cargo test --offline` there, with what Debian's package librust-serde-dev has, the example on a short input, and the
program that docs/RUST.md begins with, which must print what the page says. For another processor the build script must refuse,
and say why. If something that it needs is not here, it says so, and nothing is wrong.

`make lint` compares what the crate declares of the library with `include/jillapun.h`: functions, types and numbers.
"""

import glob
import os
import re
import shutil
import subprocess
import sys

sys.dont_write_bytecode = True

from steps import TOP, main

import c_library

CRATE = os.path.join(TOP, "rust", "encoding_rs")
TARGET = os.path.join(TOP, "out", "rust")
TOOLS = ["cargo", "cc"]
SERDE = "/usr/share/cargo/registry/serde-1.*"
HEADER = os.path.join(TOP, "include", "jillapun.h")
DECLARED = os.path.join(CRATE, "src", "sys", "raw.rs")
# The oldest compiler, as Cargo.toml has it.
OLDEST = (1, 70)
# The tests take no longer, in seconds.
PATIENCE = 1200
# Cargo takes other crates from Debian's packages, and not from the network.
DEBIAN = ['source.crates-io.replace-with="debian"', 'source.debian.directory="%s"' % os.path.dirname(SERDE)]
OFFLINE = ["--offline", *(word for setting in DEBIAN for word in ("--config", setting))]
# Words for cargo. The example has them, too, since the crate is built anew for others.
FLAGS = [*OFFLINE, "--features", "serde"]
EXAMPLE = ["cargo", "run", "--quiet", *FLAGS, "--example", "losses", "shift_jis"]
# What the example reads, and what it writes to standard output and to standard error.
READ = b"A\x83\x6e\xff\n\x83"
WRITTEN = "A\u30cf\ufffd\n\ufffd", "malformed: 1 from offset 3 on\nmalformed: 1 from offset 5 on\n"

# The page for its users, the program that it begins with, and how it says what that prints.
GUIDE = os.path.join(TOP, "docs", "RUST.md")
FIRST = ["cargo", "run", "--quiet", *FLAGS, "--example", "first"]
PRINTS = re.compile(r"^It prints `([^`]*)`", re.M)

# A target that the library is no code for, and what the build script says of it.
OTHER = ["cargo", "check", *OFFLINE, "--target", "aarch64-unknown-linux-gnu"]
REFUSED = "libjillapun.a is code for x86_64 Linux"

# The types of the header, as Rust writes them.
TYPES = {
    "size_t": "usize", "uint8_t": "u8", "jillapun_status": "u8", "uint32_t": "u32", "bool": "bool", "jillapun_char16": "u16",
    "void": "c_void",
}  # fmt: skip


def in_rust(declared):
    """A C declaration of a parameter, a member or a result, as Rust has it: a name, and a type."""
    form = r"(const )?(\w+) ?(\*?) ?(\w*)(?:\[(\d+)\])?"
    const, base, pointer, name, many = re.fullmatch(form, " ".join(declared.split())).groups()
    camel = "".join(word.capitalize() for word in base.removeprefix("jillapun_").split("_"))
    known = TYPES.get(base, camel)
    if many:
        return name, "[%s; %s]" % (known, many)
    return name, ("*const " if const else "*mut ") + known if pointer else known


def in_header():
    """What the header has: functions, structs and numbers, as Rust has them."""
    with open(HEADER, encoding="utf-8") as file:
        text = re.sub(r"/\*.*?\*/|^#.*?$", "", file.read(), flags=re.S | re.M)
    found = {}
    for result, name, given in re.findall(r"^(\w+) (\w+)\(([^)]*)\);", text, re.M):
        result = "" if result == "void" else in_rust(result)[1]
        found[name] = [in_rust(part) for part in given.split(",")], result
    for members, name in re.findall(r"typedef struct \{(.*?)\} jillapun_(\w+);", text, re.S):
        found[in_rust("jillapun_" + name)[1]] = [in_rust(member) for member in members.split(";")[:-1]]
    found |= {name: number for name, number in re.findall(r"JILLAPUN_(\w+) = (\d+)", text)}
    return {**found, "REFUSED": "usize::MAX"}


def in_crate():
    """What the crate declares, alike."""
    with open(DECLARED, encoding="utf-8") as file:
        text = file.read().replace("pub(super) ", "")

    def pairs(listed):
        return [tuple(part.strip().split(": ")) for part in listed.split(",") if part.strip()]

    for name, given, result in re.findall(r"^    fn (\w+)\(([^)]*)\)(?:\s+-> (\w+))?;", text, re.M):
        yield name, (pairs(given), result)
    for name, members in re.findall(r"struct (\w+) \{(.*?)\}", text, re.S):
        yield name, pairs(members)
    yield from re.findall(r"const (\w+): \w+ = (\S+);", text)


def header_faults():
    """Where the crate declares something else than the header."""
    header = in_header()
    for name, declared in in_crate():
        if header.get(name) != declared:
            yield "%s: %s is %s, and in the header %s" % (os.path.relpath(DECLARED, TOP), name, declared, header.get(name))


def read(*path):
    with open(os.path.join(*path), encoding="utf-8") as file:
        return file.read()


def guide_faults():
    """What the page says otherwise than it is. Settings of cargo in the crate's folder would hold for its users, too."""
    program = "".join("    " + line for line in read(CRATE, "examples", "first.rs").splitlines(keepends=True))
    if program not in read(GUIDE):
        yield "docs/RUST.md does not have examples/first.rs"
    if os.path.exists(os.path.join(CRATE, ".cargo")):
        yield "rust/encoding_rs has settings of cargo"


def compiler():
    """The version of the compiler, as two numbers."""
    said = subprocess.run(["rustc", "--version"], cwd=CRATE, capture_output=True, text=True, check=False).stdout
    found = re.match(r"rustc (\d+)\.(\d+)", said)
    return tuple(map(int, found.groups())) if found else (0, 0)


def missing():
    """What the tests need and is not here."""
    for tool in TOOLS:
        if not shutil.which(tool):
            return "there is no %s here" % tool
    if compiler() < OLDEST:
        return "rustc is older than %d.%d here" % OLDEST
    if not glob.glob(SERDE):
        return "there is no serde in %s" % os.path.dirname(SERDE)
    if not os.path.isfile(os.path.join(c_library.OUT, c_library.ARCHIVE)):
        return "the library is not built (make c)"
    return None


def run(words, given=b""):
    """Runs a command in the crate's folder: its status, and what it writes to standard output and to standard error."""
    environment = dict(os.environ, CARGO_TARGET_DIR=TARGET, JILLAPUN_LIB=c_library.OUT)
    ran = subprocess.run(words, cwd=CRATE, env=environment, input=given, capture_output=True, timeout=PATIENCE, check=False)
    return ran.returncode, ran.stdout.decode(errors="replace"), ran.stderr.decode(errors="replace")


def faults():
    """What is wrong with the crate."""
    wrong, why = list(guide_faults()), missing()
    if why:
        print("left out: the tests of the crate for Rust, since %s" % why)
        return wrong
    status, said, errors = run(["cargo", "test", *FLAGS])
    print("%d tests of the crate for Rust" % sum(map(int, re.findall(r"^test result: ok\. (\d+) passed", said, re.M))))
    if status:
        return [*wrong, "cargo test: status %d\n%s%s" % (status, said[-4000:], errors[-4000:])]
    for words, given, wanted in ((EXAMPLE, READ, WRITTEN), (FIRST, b"", (PRINTS.search(read(GUIDE))[1] + "\n", ""))):
        if (ran := run(words, given)) != (0, *wanted):
            wrong.append("%s: %r" % (" ".join(words), ran))
    status, said, errors = run(OTHER)
    if not status or REFUSED not in errors:
        wrong.append("%s: status %d\n%s%s" % (" ".join(OTHER), status, said, errors[-4000:]))
    return wrong


if __name__ == "__main__":
    sys.exit(main(faults()))
