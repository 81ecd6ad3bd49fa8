#!/usr/bin/env python3
"""Installs what `make build` and `make c` have built, removes it or packs it: `make install`, `uninstall` and `dist`.

    python3 tools/release/install.py --prefix PREFIX [--destdir DIR] [--remove]
    python3 tools/release/install.py --archive

It installs the programs, the library for C with its header, its files for pkg-config and its man page, the programs' man
pages and their completion in bash, the index texts, and the licences. The commands `recode` and `recode-places` are scripts
that hand the folder of the index texts to the programs, which look in the current folder: another default would stand in
what is proved. A list of what was installed, with checksums, stands beside the licences: a file that is there and not in it
is not overwritten, and one that was changed since is not removed.

The archive, `out/jillapun-VERSION-x86_64-linux.tar.gz`, also has the Python module, the crate for Rust with its page, and the
wheel if `make wheel` has made one: it is for machines without `rt`. Each file finds the others by its own place, so it can
be unpacked anywhere. It is the same, byte by byte, for the same files.
"""

import argparse
import glob
import gzip
import hashlib
import io
import os
import re
import shutil
import stat
import subprocess
import sys
import tarfile
import tempfile

import c_library

TOP = c_library.TOP
SHARED = os.path.join("out", "c", c_library.SHARED)

# What is installed: where it stands here, and there below the prefix.
PROGRAMS = [
    ("crates/recode_cli/out/recode_cli", "libexec/jillapun/recode"),
    ("crates/recode_places_cli/out/recode_places_cli", "libexec/jillapun/recode-places"),
]
FILES = [
    ("out/c/libjillapun.a", "lib/libjillapun.a"),
    ("out/c/libjillapun_indexes.a", "lib/libjillapun_indexes.a"),
    ("out/c/libjillapun_encoding_c.a", "lib/libjillapun_encoding_c.a"),
    ("include/jillapun.h", "include/jillapun.h"),
    ("man/recode.1", "share/man/man1/recode.1"),
    ("man/recode-places.1", "share/man/man1/recode-places.1"),
    ("man/jillapun.3", "share/man/man3/jillapun.3"),
    # bash-completion looks for the name of a command.
    ("completions/recode.bash", "share/bash-completion/completions/recode"),
    ("completions/recode.bash", "share/bash-completion/completions/recode-places"),
]
LICENCES = ["COPYRIGHT", "LICENSE-APACHE", "LICENSE-MIT", "LICENSE-WHATWG"]
DOCUMENTS = "share/doc/jillapun"
# The licences of the kit's crates that are linked into programs and libraries, and these crates.
LINKED = DOCUMENTS + "/LICENSES-LINKED"
CRATES = ["clap", "itoa", "simdutf8", "strsim", "thiserror", "ucd_props", "unicode_width"]
# The list of what was installed, as `sha256sum --check` takes it.
LIST = DOCUMENTS + "/installed.sha256"
INDEXES = "share/recode/indexes"
# What the archive has of the repository as it stands there.
SOURCES = ["python/jillapun", "rust/encoding_rs", "docs/RUST.md"]
# The folders that nothing else is installed in.
OWN = ["libexec/jillapun", "share/recode/indexes", "share/recode", DOCUMENTS]

# A program's command, `bin/NAME`. It finds the others by its own place, so all can be moved.
COMMAND = """#!/bin/sh
# Runs {name} with the index texts that are installed with it, unless a word names another folder.
self=$0
[ -h "$self" ] && self=$(readlink -f -- "$self")
case $self in */*) top=${{self%/*}}/.. ;; *) top=.. ;; esac
{names}for word; do
    case $word in --indexes | --indexes=*) exec "$top/{program}" "$@" ;; esac
done
exec "$top/{program}" --indexes "$top/{indexes}" "$@"
"""

# The program takes words in UTF-8 only. A file with another name is opened here, and the program is given its descriptor.
NAMES = """for word; do
    shift
    case $word in *[!\\ -~]*)
        if [ -f "$word" ] && [ -r "$word" ] && ! printf %s "$word" |
            "$top/{recode}" --from utf-8 --to utf-8 --mark keep > /dev/null 2>&1; then
            exec 3< "$word"
            word=/dev/fd/3
        fi ;;
    esac
    set -- "$@" "$word"
done
""".format(recode=PROGRAMS[0][1])

# What a command has in its second line.
OURS = COMMAND.split("\n")[1].split("{")[0]

PKG_CONFIG = {
    "lib/pkgconfig/jillapun.pc": """prefix={prefix}
libdir=${{prefix}}/lib
includedir=${{prefix}}/include

Name: jillapun
Description: Text encodings, by the Encoding Standard, with proofs
Version: {version}
Libs: -L${{libdir}} -ljillapun
Cflags: -I${{includedir}}
""",
    "lib/pkgconfig/jillapun-indexes.pc": """prefix={prefix}
libdir=${{prefix}}/lib

Name: jillapun-indexes
Description: The indexes of the Encoding Standard, to be linked in
Version: {version}
Requires: jillapun
Libs: -L${{libdir}} -ljillapun_indexes
""",
}

README = """Jillapun {version}, for Linux on x86-64: text encodings, by the Encoding Standard, with proofs.

    bin/recode, bin/recode-places    programs, which find the index texts here; man/man1 below share has their pages
    share/bash-completion            completion of their words in bash
    lib, include                     the library for C, static and shared; share/man/man3/jillapun.3 is its page
    lib/pkgconfig                    PKG_CONFIG_PATH for `pkg-config --cflags --libs jillapun` (or jillapun-indexes)
    python                           the module for Python, if it is here: PYTHONPATH, over lib/libjillapun.so
    jillapun-*.whl                   the module with library and indexes for `pip install`, if it is here
    rust/encoding_rs, docs/RUST.md   the crate for Rust, over lib/libjillapun.a: `cargo doc` there has its pages
    share/recode/indexes             the indexes of the standard: `jillapun_tables_new` loads them
    share/doc/jillapun               the licences

The folder can stand anywhere.
"""

SAID = """installed below {prefix}:
    bin                                        recode, recode-places
    include, lib                               the library for C (PKG_CONFIG_PATH={prefix}/lib/pkgconfig)
    share/man, share/bash-completion           man pages, completion
    share/recode/indexes                       the index texts
    share/doc/jillapun                         the licences, and the list of all files"""


def cleared(target):
    """Makes place for a file: another may be a link, or a program that runs."""
    os.makedirs(os.path.dirname(target), exist_ok=True)
    if os.path.lexists(target):
        os.remove(target)


def copied(source, target, mode):
    cleared(target)
    shutil.copyfile(os.path.join(TOP, source), target)
    os.chmod(target, mode)


def written(text, target, mode=0o644):
    cleared(target)
    with open(target, "w", encoding="utf-8") as file:
        file.write(text)
    os.chmod(target, mode)


def glibc(path):
    """The oldest glibc that a program or a library runs on, as the N of 2.N: the newest that it takes symbols from."""
    with open(path, "rb") as file:
        return max(int(minor) for minor in re.findall(rb"\0GLIBC_2\.(\d+)", file.read()))


def index_names():
    return sorted(os.listdir(os.path.join(TOP, "indexes")))


def library_names():
    """The shared library's file, and the two links to it."""
    return c_library.SHARED + "." + c_library.version(), c_library.soname(), c_library.SHARED


def links(target):
    """The shared library, and the links to it."""
    name, *others = library_names()
    copied(SHARED + "." + c_library.version(), os.path.join(target, name), 0o755)
    for link in others:
        path = os.path.join(target, link)
        cleared(path)
        os.symlink(name, path)


def command(program):
    """Where the command of a program stands."""
    return "bin/" + os.path.basename(program)


def install(folder, prefix):
    """Puts all into a folder, which will stand at a prefix."""
    for source, target in PROGRAMS:
        copied(source, os.path.join(folder, target), 0o755)
        name = os.path.basename(target)
        names = NAMES if name == "recode-places" else ""
        text = COMMAND.format(name=name, program=target, indexes=INDEXES, names=names)
        written(text, os.path.join(folder, command(target)), 0o755)
    for source, target in [*FILES, *((licence, DOCUMENTS + "/" + licence) for licence in LICENCES)]:
        copied(source, os.path.join(folder, target), 0o644)
    written(linked_licences(), os.path.join(folder, LINKED))
    links(os.path.join(folder, "lib"))
    for name in index_names():
        copied(os.path.join("indexes", name), os.path.join(folder, INDEXES, name), 0o644)
    for target, text in PKG_CONFIG.items():
        written(text.format(prefix=prefix, version=c_library.version()), os.path.join(folder, target))


def linked_licences():
    """The licences of the kit's crates that are linked in, each once, below the names of the crates that have it."""
    found = {}
    for crate in CRATES:
        for path in sorted(glob.glob(c_library.kit("rattle", crate, "LICENSE*"))):
            with open(path, encoding="utf-8") as file:
                found.setdefault(file.read().strip(), []).append("%s, %s" % (crate, os.path.basename(path)))
    return "\n\n".join("%s:\n\n%s" % ("; ".join(names), text) for text, names in found.items()) + "\n"


def targets():
    """All that `install` puts below a prefix."""
    paths = [target for _, target in [*PROGRAMS, *FILES]] + [command(target) for _, target in PROGRAMS]
    paths += ["lib/" + name for name in library_names()] + [INDEXES + "/" + name for name in index_names()]
    return [*paths, *PKG_CONFIG, *(DOCUMENTS + "/" + licence for licence in LICENCES), LINKED]


def checksum(path):
    """The checksum of a file, or of what a link leads to."""
    if not os.path.isfile(path):
        return None
    with open(path, "rb") as file:
        return hashlib.file_digest(file, "sha256").hexdigest()


def installed(folder):
    """What was installed in a folder: each path, with its checksum. An installation that has left no list is known by the
    second line of a command; then no checksum is known."""
    if os.path.isfile(os.path.join(folder, LIST)):
        with open(os.path.join(folder, LIST), encoding="utf-8") as file:
            return {line[66:].rstrip("\n"): line[:64] for line in file}
    is_there = any(is_command(os.path.join(folder, command(target))) for _, target in PROGRAMS)
    return dict.fromkeys(targets()) if is_there else {}


def is_command(path):
    """Whether a file is one of the commands, by its second line."""
    if not os.path.isfile(path):
        return False
    with open(path, "rb") as file:
        return file.readline() == b"#!/bin/sh\n" and file.readline().startswith(OURS.encode())


def keep_list(folder):
    """Writes the list of what is installed in a folder."""
    lines = ["%s  %s\n" % (checksum(os.path.join(folder, target)), target) for target in sorted(targets())]
    written("".join(lines), os.path.join(folder, LIST))


def others(folder, paths, known):
    """Which of some paths in a folder are there, and not as they were installed."""
    for target in paths:
        path = os.path.join(folder, target)
        is_ours = target in known and known[target] in (None, checksum(path))
        if os.path.lexists(path) and not is_ours:
            yield target


def remove(folder):
    """Removes what `install` has put into a folder, and the folders that are its own, if nothing else is in them. Returns what
    was changed since, and stays."""
    known = installed(folder)
    left = list(others(folder, known, known))
    for target in [*known, LIST]:
        path = os.path.join(folder, target)
        if os.path.lexists(path) and target not in left:
            os.remove(path)
    for own in OWN:
        path = os.path.join(folder, own)
        if os.path.isdir(path) and not os.listdir(path):
            os.rmdir(path)
    return left


def has_git():
    """Whether this is a clone, and not files that were unpacked."""
    return os.path.exists(os.path.join(TOP, ".git"))


def unpacked(place):
    """The files at a place or below it, but for what is built there."""
    top = os.path.join(TOP, place)
    found = [top] if os.path.isfile(top) else []
    for folder, folders, names in os.walk(top):
        folders[:] = [name for name in folders if name not in ("__pycache__", "target")]
        found += [os.path.join(folder, name) for name in names if name != "Cargo.lock"]
    return sorted(os.path.relpath(path, TOP) for path in found)


def tracked(place):
    """The files of the repository at a place or below it."""
    if not has_git():
        return unpacked(place)
    ran = subprocess.run(["git", "ls-files", place], cwd=TOP, capture_output=True, text=True, check=True)
    return sorted(ran.stdout.split("\n")[:-1])


def sources(place, folder):
    """The files of a folder of the repository, as far as it has them, with their place."""
    for path in tracked(place):
        copied(path, os.path.join(folder, path), 0o644)


def python_module(folder):
    sources(SOURCES[0], folder)


def commit_time():
    """How old what is packed is, in seconds since 1970: SOURCE_DATE_EPOCH, else the last commit, else the unpacked Makefile."""
    if "SOURCE_DATE_EPOCH" in os.environ:
        return int(os.environ["SOURCE_DATE_EPOCH"])
    if not has_git():
        return int(os.stat(os.path.join(TOP, "Makefile")).st_mtime)
    return int(subprocess.run(["git", "log", "-1", "--format=%ct"], cwd=TOP, capture_output=True, text=True, check=True).stdout)


def packed(folder, name, path):
    """An archive of a folder, in which all belongs to root and is as old as `commit_time` says."""
    time = commit_time()

    def plain(info):
        info.uid = info.gid = 0
        info.uname = info.gname = "root"
        info.mtime = time
        if info.isdir():
            info.mode = stat.S_IFDIR | 0o755
        return info

    data = io.BytesIO()
    with tarfile.open(fileobj=data, mode="w", format=tarfile.PAX_FORMAT) as archive:
        archive.add(folder, name, filter=plain)
    with open(path, "wb") as file, gzip.GzipFile("", "wb", fileobj=file, mtime=time) as stream:
        stream.write(data.getvalue())


def archive():
    """Packs all, and returns the archive's path."""
    version = c_library.version()
    name = "jillapun-%s-x86_64-linux" % version
    path = os.path.join(TOP, "out", name + ".tar.gz")
    with tempfile.TemporaryDirectory() as folder:
        install(folder, "${pcfiledir}/../..")
        for place in SOURCES:
            sources(place, folder)
        for wheel in glob.glob(os.path.join(TOP, "out", "jillapun-%s-*.whl" % version)):
            copied(wheel, os.path.join(folder, os.path.basename(wheel)), 0o644)
        written(README.format(version=version), os.path.join(folder, "README"))
        packed(folder, name, path)
    return path


def main():
    parser = argparse.ArgumentParser()
    parser.add_argument("--prefix")
    parser.add_argument("--destdir", default="")
    parser.add_argument("--remove", action="store_true")
    parser.add_argument("--archive", action="store_true")
    words = parser.parse_args()
    # Folders are made with the mode 0755.
    os.umask(0o022)
    if words.archive:
        print("packed", os.path.relpath(archive(), TOP))
    elif words.prefix:
        prefix = os.path.abspath(words.prefix)
        folder = words.destdir + prefix
        return removed(folder) if words.remove else placed(folder, prefix)
    else:
        parser.error("--prefix or --archive")
    return 0


def placed(folder, prefix):
    """Installs all in a folder, unless a file is there that is not from an installation of this: a status."""
    if there := list(others(folder, targets(), installed(folder))):
        said = "not installed: in %s are files that no `make install` has put there, or that were changed since:" % folder
        print(said, *there, "Remove them, or take another PREFIX.", sep="\n    ", file=sys.stderr)
        return 1
    remove(folder)
    install(folder, prefix)
    keep_list(folder)
    print(SAID.format(prefix=prefix))
    return 0


def removed(folder):
    """Removes all that was installed in a folder: a status."""
    if not installed(folder):
        print("nothing is installed in %s" % folder)
        return 0
    for target in remove(folder):
        print("left, since it was changed after it was installed: %s" % os.path.join(folder, target))
    return 0


if __name__ == "__main__":
    sys.exit(main())
