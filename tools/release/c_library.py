#!/usr/bin/env python3
"""Builds the library for C, static and shared: `make c`.

    python3 tools/release/c_library.py

`rt lib` proves crates/jillapun_c and builds it. From what it leaves in the crate's `out/` this makes, in `out/c` at the top,
`libjillapun.a`, which has the kit's heap functions too, and `libjillapun.so.VERSION`, which has the index texts as well, with
the two links to it that a linker and a loader look for (`rt` refuses links in a crate's `out/`), and the archives of
`c_archives.py`. All are made by the kit's tools, so no C compiler is needed.
"""

import os
import re
import shutil
import subprocess
import sys

import c_archives
import fresh

TOP = os.path.abspath(os.path.join(os.path.dirname(os.path.abspath(__file__)), "..", ".."))
CRATE = os.path.join(TOP, "crates", "jillapun_c")
BUILT = os.path.join(CRATE, "out", "libjillapun_c.a")
OUT = os.path.join(TOP, "out", "c")
VERSION_SOURCE = os.path.join(TOP, "crates", "recode_words", "src", "command.rt")

ARCHIVE, SHARED = "libjillapun.a", "libjillapun.so"


class NotBuilt(Exception):
    """A command that failed, with what it said."""


def version():
    with open(VERSION_SOURCE, encoding="utf-8") as file:
        return re.search(r'const VERSION: &str = "([^"]*)"', file.read())[1]


def soname():
    """The name that programs are linked with: it changes when a program has to be linked anew."""
    return SHARED + "." + version().split(".")[0]


def kit(*path):
    """A file of the kit."""
    rt = shutil.which("rt")
    if not rt:
        raise NotBuilt("rt is not on the path")
    return os.path.join(os.path.dirname(os.path.realpath(rt)), "..", *path)


def run(words, folder, **more):
    """Runs a command."""
    ran = subprocess.run(words, cwd=folder, capture_output=True, text=True, errors="replace", check=False, **more)
    if ran.returncode:
        raise NotBuilt("%s: status %d\n%s%s" % (" ".join(words), ran.returncode, ran.stdout[-4000:], ran.stderr[-4000:]))


def archive(folder):
    """One archive of the crate's own and of the kit's heap functions."""
    script = "CREATE %s\nADDLIB %s\nADDLIB %s\nSAVE\nEND\n" % (ARCHIVE, BUILT, kit("c", "liblibc_c.a"))
    path = os.path.join(folder, ARCHIVE)
    if os.path.exists(path):
        os.remove(path)
    run([kit("toolchain", "bin", "llvm-ar"), "-M"], folder, input=script)
    return path


def shared(folder):
    """The shared library, which shows the exports and the index texts alone, and its links."""
    name = SHARED + "." + version()
    heap, system = kit("c", "liblibc_c.a"), kit("toolchain", "lib", "libc.so.6")
    words = [kit("toolchain", "bin", "ld.lld"), "-shared", "-soname", soname(), "-o", name, "-z", "now", "-z", "relro"]
    words += ["--whole-archive", BUILT, os.path.join(folder, "libjillapun_indexes.a"), "--no-whole-archive"]
    words += ["--exclude-libs", "liblibc_c.a", heap, system, "--no-undefined"]
    run(words, folder)
    for link in (soname(), SHARED):
        path = os.path.join(folder, link)
        if os.path.lexists(path):
            os.remove(path)
        os.symlink(name, path)
    return os.path.join(folder, name)


def beside(folder):
    """The archives that may be linked beside the library."""
    for name, text in c_archives.ARCHIVES.items():
        path = os.path.join(folder, name)
        built = path.removesuffix(".a") + ".o"
        if os.path.exists(path):
            os.remove(path)
        run([kit("toolchain", "bin", "clang"), "-c", "-x", "assembler", "-", "-o", built], folder, input=text())
        run([kit("toolchain", "bin", "llvm-ar"), "rcs", path, built], folder)
        os.remove(built)


def prove(*flags, is_shown=False):
    """Proves and builds the crate. What `rt` says meanwhile is shown as it comes, or only if it fails."""
    words = ["rt", "lib", *flags]
    if not is_shown:
        run(words, CRATE)
    elif status := subprocess.run(words, cwd=CRATE, check=False).returncode:
        raise NotBuilt("%s: status %d" % (" ".join(words), status))


def build(folder=OUT, *flags, is_shown=False):
    """Builds both into a folder, and returns their paths. `--backend rattle` has the kit's own compiler build."""
    prove(*flags, is_shown=is_shown)
    os.makedirs(folder, exist_ok=True)
    beside(folder)
    return archive(folder), shared(folder)


def main():
    here = os.path.dirname(os.path.abspath(__file__))
    scripts = [os.path.join(here, name) for name in ("c_library.py", "c_archives.py")]
    names = [ARCHIVE, SHARED + "." + version(), *c_archives.ARCHIVES]
    outputs = [os.path.join(OUT, name) for name in names]
    made = fresh.Made("jillapun_c", outputs, [*scripts, VERSION_SOURCE, c_archives.INDEXES])
    if made.is_fresh():
        return
    print("proving and building the library for C: 5 GB of memory, and 8 minutes the first time", flush=True)
    try:
        paths = build(is_shown=True)
    except NotBuilt as fault:
        sys.exit(str(fault))
    made.keep()
    for path in paths:
        print("built", os.path.relpath(path, TOP))


if __name__ == "__main__":
    main()
