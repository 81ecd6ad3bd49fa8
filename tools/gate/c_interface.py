#!/usr/bin/env python3
"""Builds the library for C, and calls it: from Python, and from the C programs of docs/examples/c.

    python3 tools/gate/c_interface.py

The library is built twice, by LLVM and by the kit's own compiler, and each shared library is loaded by ctypes and called
by the checks that `CHECKS` lists: what must come of a call is worked out by Python's own codecs and by plain programs.

If there is a C compiler (`CC`, or cc), it and a C++ compiler (`CXX`, or c++) read the header with all warnings, and each
NAME.c of docs/examples/c is compiled, linked with the archive and with the shared library, and once more with the
sanitizers if the compiler has them. Run in the top folder on NAME.in with the words of NAME.args, if these are there, it must
write NAME.out, and NAME.err to standard error, and end with the status of NAME.status, 0 if there is none. Then all is packed
as `make dist` does, unpacked, and programs are built over it by the command of docs/C.md, and started as it says. The wheel
for Python is packed and installed (`python_wheel.py`), and what `make install` puts in place is run and removed
(`installed.py`).
The names that the archives show to a linker are looked at, too: none may be one that a program could have.
What was left out is said. The status is 1 if something was wrong.
"""

import os
import re
import shutil
import subprocess
import sys
import tempfile

sys.dont_write_bytecode = True

from steps import TOP, main

import c_archives
import c_handles
import c_library
import c_loaded
import c_mem
import c_python
import c_streams
import install
import installed
import python_wheel

EXAMPLES = os.path.join(TOP, "docs", "examples", "c")
INCLUDE = os.path.join(TOP, "include")

# The calls of each part of the library, and what they say is wrong.
CHECKS = [c_mem.faults, c_streams.faults, c_handles.faults, c_python.faults]

# What the global names of each archive begin with. `rattle_` has the kit's heap functions.
NAMES = {
    c_library.ARCHIVE: ("jillapun_", "rattle_"),
    "libjillapun_indexes.a": ("jillapun_index_files",),
    "libjillapun_encoding_c.a": ("encoding_",),
}

# Programs that are compiled by the command of docs/C.md: with what package for pkg-config, and what is linked before.
LINKED = [("first", "jillapun", ""), ("encode", "jillapun", ""), ("linked", "jillapun-indexes", "-ljillapun_encoding_c")]

# The page for its users, the command that it shows, and what its program prints.
GUIDE = os.path.join(TOP, "docs", "C.md")
SHOWN = re.compile(r"^    \$ (cc first\.c .*)\n    \$ \./first\n((?:    .*\n)+)", re.M)

# What the examples of the header use and do not declare.
SHOWN_BEFORE = """#include <jillapun.h>
#include <stdio.h>
static jillapun_tables tables;
static uint8_t chunk[4096], text[8192], output[4096];
static size_t at, len;
static bool last;
static jillapun_status status;
static jillapun_loss losses[256];
static jillapun_report report;
"""
WARNINGS = ["-Wall", "-Wextra", "-pedantic", "-Werror"]
SANITIZERS = ["-g", "-fsanitize=address,undefined", "-fno-sanitize-recover=all"]
# No build or run of a program takes longer, in seconds.
PATIENCE = 120


def checked(path):
    """What the checks say of a shared library. They run in a process of their own, which a wrong call may end."""
    words = [sys.executable, os.path.abspath(__file__), "--library", path]
    ran = subprocess.run(words, capture_output=True, text=True, errors="replace", timeout=1200, check=False)
    lines = ran.stdout.split("\n")
    wrong = [line.removeprefix("WRONG ") for line in lines if line.startswith("WRONG ")]
    print("\n".join(line for line in lines if line and not line.startswith("WRONG ")))
    if ran.returncode not in (0, 1) or (ran.returncode == 1 and not wrong):
        wrong.append("the checks ended with status %d: %s" % (ran.returncode, ran.stderr[-2000:]))
    return wrong


def check(path):
    """Runs the checks on a shared library, here."""
    library = c_loaded.Loaded(path)
    return main(fault for faults in CHECKS for fault in faults(library))


def compiler(variable, default):
    name = os.environ.get(variable, default)
    return name if shutil.which(name) else None


def run(words, folder=TOP, **more):
    return subprocess.run(words, capture_output=True, timeout=PATIENCE, check=False, cwd=folder, **more)


def compiled(words):
    """What a compiler says if it fails."""
    ran = run(words)
    return ran.stderr.decode(errors="replace")[-2000:] if ran.returncode else None


def read(path, default=b""):
    if not os.path.isfile(path):
        return default
    with open(path, "rb") as file:
        return file.read()


def names(folder):
    """The global names of the archives in a folder."""
    if not shutil.which("nm"):
        print("left out: the names of the archives, since there is no nm here")
        return
    for archive, begins in NAMES.items():
        said = run(["nm", "-g", "--defined-only", os.path.join(folder, archive)]).stdout.decode()
        found = re.findall(r"^[0-9a-f]+ [A-Z] (\S+)$", said, re.M)
        others = [name for name in found if not name.startswith(begins)]
        if others or not found:
            yield "%s has %d names, of which these begin otherwise: %s" % (archive, len(found), " ".join(others))


def shown():
    """A program with the examples of the header, each in a function of its own."""
    blocks = re.findall(r"^ \*\n((?: \*     .*\n)+)", read(os.path.join(INCLUDE, "jillapun.h")).decode(), re.M)
    functions = [
        "static int example_%d(void) {\n%sreturn 0;\n}\n" % (at, block.replace(" *     ", ""))
        for at, block in enumerate(blocks)
    ]
    calls = " + ".join("example_%d()" % at for at in range(len(blocks)))
    return SHOWN_BEFORE + "".join(functions) + "int main(void) { return %s; }\n" % calls


def headers(folder):
    """The header, read by a C and a C++ compiler, by that for C with its examples."""
    path = os.path.join(folder, "header.c")
    with open(path, "w", encoding="ascii") as file:
        file.write("#ifdef __cplusplus\n#include <jillapun.h>\nint main() { return 0; }\n#else\n%s#endif\n" % shown())
    cases = [("CC", "cc", ["-std=c99"]), ("CC", "cc", ["-std=c11"]), ("CXX", "c++", ["-x", "c++", "-std=c++98"])]
    for variable, default, flags in [*cases, ("CXX", "c++", ["-x", "c++", "-std=c++17"])]:
        name = compiler(variable, default)
        if not name:
            print("left out: the header for %s, since there is no %s here" % (" ".join(flags), default))
            continue
        said = compiled([name, *WARNINGS, *flags, "-I", INCLUDE, "-fsyntax-only", path])
        if said:
            yield "the header, by %s %s: %s" % (name, " ".join(flags), said)


def has_sanitizers(cc, folder):
    path = os.path.join(folder, "header.c")
    return not compiled([cc, *SANITIZERS, path, "-I", INCLUDE, "-o", os.path.join(folder, "sanitized")])


def examples(archive, shared, folder):
    """The C programs of docs/examples/c, each by what it must write."""
    cc = compiler("CC", "cc")
    names = sorted(name[:-2] for name in os.listdir(EXAMPLES) if name.endswith(".c"))
    if not cc:
        print("left out: the C programs %s, since there is no C compiler (cc) here" % ", ".join(names))
        return
    beside = [os.path.join(os.path.dirname(archive), name) for name in c_archives.ARCHIVES]
    ways = [("the archive", [archive]), ("the shared library", [shared, "-Wl,-rpath," + os.path.dirname(shared)])]
    if has_sanitizers(cc, folder):
        ways.append(("the archive and sanitizers", [archive, *SANITIZERS]))
    else:
        print("left out: sanitizers, which %s has not" % cc)
    for name in names:
        path = os.path.join(EXAMPLES, name)
        words = read(path + ".args").decode().split("\n")[:-1]
        wanted = int(read(path + ".status", b"0")), read(path + ".out"), read(path + ".err")
        for how, flags in ways:
            program = os.path.join(folder, name)
            said = compiled([cc, *WARNINGS, "-std=c99", "-O2", "-I", INCLUDE, path + ".c", *beside, *flags, "-o", program])
            if said:
                yield "%s.c with %s: %s" % (name, how, said)
                continue
            ran = run([program, *words], input=read(path + ".in"))
            if (ran.returncode, ran.stdout, ran.stderr) != wanted:
                yield "%s.c with %s: status %d, %r, %r" % (name, how, ran.returncode, ran.stdout, ran.stderr[-2000:])
        print("example: %s.c, with %s" % (name, ", ".join(how for how, _ in ways)))


def linked(cc, top, folder):
    """What is wrong with the programs of `LINKED` over what is installed in a folder, and with what docs/C.md shows."""
    there = {**os.environ, "PKG_CONFIG_PATH": os.path.join(top, "lib", "pkgconfig")}
    there.pop("LD_LIBRARY_PATH", None)
    command, printed = SHOWN.search(read(GUIDE).decode()).groups()
    if printed.replace("    ", "").encode() != read(os.path.join(EXAMPLES, "first.out")):
        yield "docs/C.md says that first.c prints %r" % printed
    for name, package, more in LINKED:
        shutil.copy(os.path.join(EXAMPLES, name + ".c"), folder)
        script = command.replace("--libs jillapun", "--libs " + package).replace("first.c", "first.c " + more)
        ran = run(["sh", "-c", script.replace("first", name).replace("cc", '"$0"', 1), cc], folder, env=there)
        if not ran.returncode:
            ran = run(["./" + name], folder, env=there)
        if (ran.returncode, ran.stdout) != (0, read(os.path.join(EXAMPLES, name + ".out"))):
            yield "%s.c over what `make dist` packs: status %d, %r, %r" % (name, ran.returncode, ran.stdout, ran.stderr[-2000:])


def unpacked(folder):
    """What `make dist` packs, where it was unpacked: a program finds the header and the library there."""
    cc, programs = compiler("CC", "cc"), [os.path.join(TOP, source) for source, _ in install.PROGRAMS]
    if not all(map(os.path.isfile, programs)):
        print("left out: the archive of `make dist`, since the programs are not built (make build)")
        return
    packed = install.archive()
    shutil.unpack_archive(packed, folder)
    top = os.path.join(folder, os.path.basename(packed).removesuffix(".tar.gz"))
    if not cc or not shutil.which("pkg-config"):
        print("left out: a program over what `make dist` packs, since there is no C compiler (cc) or no pkg-config here")
        return
    yield from linked(cc, top, folder)
    print("packed, unpacked and linked with: %s" % os.path.basename(top))


def faults():
    """What is wrong with the library for C."""
    with tempfile.TemporaryDirectory() as folder:
        print("built by the kit's compiler")
        wrong = checked(c_library.build(os.path.join(folder, "second"), "--backend", "rattle")[1])
        archive, shared = c_library.build()
        print("built by LLVM")
        wrong += checked(shared)
        wrong += names(os.path.dirname(archive))
        wrong += headers(folder)
        wrong += examples(archive, shared, folder)
        wrong += unpacked(folder)
        wrong += python_wheel.faults(shared)
        wrong += installed.faults()
    return wrong


if __name__ == "__main__":
    sys.exit(check(sys.argv[2]) if sys.argv[1:2] == ["--library"] else main(faults()))
