#!/usr/bin/env python3
"""Packs what `make build` and `make c` have built for Debian: `make deb`.

    python3 tools/release/debian.py

It writes these to `out/debian`, by `dpkg-deb`; they are the same, byte by byte, for the same files:

- jillapun: `recode` and `recode-places`, with their man pages and completion. GNU recode has a command of this name, so the
  two conflict.
- jillapun-data: the index texts.
- libjillapun0 and libjillapun-dev: the library for C, and its header, archive, file for pkg-config and man page.
- python3-jillapun: the Python package, with its command, the command's man page and completion.
"""

import gzip
import os
import shutil
import subprocess
import sys
import tempfile
import textwrap
import time
import tomllib

import c_library
import install

TOP = c_library.TOP
OUT = os.path.join(TOP, "out", "debian")
LIBRARIES = "usr/lib/x86_64-linux-gnu"
PYTHON = "usr/lib/python3/dist-packages/jillapun"
MAINTAINER = "The Jillapun developers <maintainers@users.noreply.jillapun.example>"

CONTROL = """Package: {name}
Version: {version}
Architecture: {architecture}
Maintainer: {maintainer}
Installed-Size: {size}
Section: {section}
Priority: optional
{relations}Description: {title}
{text}
"""

# Each package: its architecture, section, relations, title and text; `{version}` is the version of all, `{glibc}` what its
# programs and libraries need.
PACKAGES = {
    "jillapun": (
        "amd64",
        "text",
        "Depends: libc6 (>= 2.{glibc}), jillapun-data (= {version})\nConflicts: recode\n",
        "convert text between the encodings of the web, and tell what is lost",
        "The program recode converts its standard input between the 40 encodings of the Encoding Standard, and logs each "
        "malformed sequence and each unmappable character; its status says whether the output, read back with byte order "
        "marks kept, is the text of the input. The program recode-places shows line and column of what was lost. What recode "
        "writes and reports is proved to be what definitions made after the standard say.",
    ),
    "jillapun-data": (
        "all",
        "text",
        "",
        "indexes of the Encoding Standard",
        "The texts of the indexes that encodings are read and written by, which the programs and libraries of Jillapun load.",
    ),
    "libjillapun0": (
        "amd64",
        "libs",
        "Depends: libc6 (>= 2.{glibc})\nRecommends: jillapun-data\n",
        "text encodings by the Encoding Standard",
        "The library decodes and encodes text in the 40 encodings of the Encoding Standard, and converts between them. Its "
        "functions are proved to meet contracts made after the standard.",
    ),
    "libjillapun-dev": (
        "amd64",
        "libdevel",
        "Depends: libjillapun0 (= {version}), jillapun-data (= {version})\n",
        "text encodings by the Encoding Standard, development files",
        "The header, the archive, the manual and the file for pkg-config of libjillapun, a library that decodes and encodes "
        "text in the 40 encodings of the Encoding Standard.",
    ),
    "python3-jillapun": (
        "all",
        "python",
        "Depends: python3 (>= 3.9), libjillapun0 (>= {version})\n",
        "text encodings by the Encoding Standard, for Python",
        "The package decodes, encodes and converts text in the 40 encodings of the Encoding Standard, with exactly what is "
        "lost, and has codecs for Python's own functions under names that begin with web-.",
    ),
}

COMMAND = """#!/usr/bin/python3
import sys

from jillapun.__main__ import program

sys.exit(program())
"""

# Python compiles the modules when it loads them, beside them, which no list of the package has: so this is done when they are
# installed, and undone before they are removed.
SCRIPTS = {
    "postinst": """#!/bin/sh
set -e
if [ "$1" = configure ] && command -v py3compile > /dev/null; then py3compile -p python3-jillapun; fi
""",
    "prerm": """#!/bin/sh
set -e
if command -v py3clean > /dev/null; then py3clean -p python3-jillapun; fi
""",
}

# What pip and other packages see of the Python package.
METADATA = """Metadata-Version: 2.1
Name: {name}
Version: {version}
Summary: {description}
License: {license[text]}
Requires-Python: {requires-python}
"""

COPYRIGHT = """Format: https://www.debian.org/doc/packaging-manuals/copyright-format/1.0/
Upstream-Name: Jillapun

Files: *
Copyright: The Jillapun developers, Mozilla Foundation, WHATWG (Apple, Google, Mozilla, Microsoft)
License: (Apache-2.0 or Expat) and BSD-3-clause and CC-BY-4.0
{copyright}

License: Apache-2.0
 The text is in /usr/share/common-licenses/Apache-2.0.

License: Expat
{mit}

License: BSD-3-clause
{whatwg}

License: CC-BY-4.0
 The text is at https://creativecommons.org/licenses/by/4.0/legalcode.
"""

CHANGELOG = """jillapun ({version}) unstable; urgency=medium

  * Packed from the sources by make deb.

 -- {maintainer}  {date}
"""


def version():
    return c_library.version() + "-1"


def squeezed(source, target):
    """A file, compressed as Debian wants texts."""
    with open(source, "rb") as file:
        data = file.read()
    os.makedirs(os.path.dirname(target), exist_ok=True)
    with open(target, "wb") as file, gzip.GzipFile("", "wb", 9, file, mtime=0) as stream:
        stream.write(data)
    os.chmod(target, 0o644)


def stripped(path, *flags):
    """Takes what only debuggers read out of a program or a library."""
    tool = shutil.which("strip") or c_library.kit("toolchain", "bin", "llvm-strip")
    subprocess.run([tool, "--remove-section=.comment", *flags, path], check=True)


def indented(name):
    """A text of the repository as a field of Debian's has it."""
    with open(os.path.join(TOP, name), encoding="utf-8") as file:
        return "\n".join(" " + (line.rstrip() or ".") for line in file.read().strip().split("\n"))


def move(top, folders, source, package, target):
    """Moves a file of what is installed in `top` to its place in a package."""
    path = os.path.join(folders[package], target)
    os.makedirs(os.path.dirname(path), exist_ok=True)
    shutil.move(os.path.join(top, source), path)


def spread(top, folders):
    """Spreads what `make install` installs over the packages."""
    shared, soname, link = install.library_names()
    for path in install.targets():
        name = os.path.basename(path)
        if path.startswith(install.DOCUMENTS):
            continue  # each package has its own, of `add_documents`
        if path.startswith("share/man"):
            package = "libjillapun-dev" if path.endswith(".3") else "jillapun"
            squeezed(os.path.join(top, path), os.path.join(folders[package], "usr", path + ".gz"))
        elif path.startswith(install.INDEXES):
            move(top, folders, path, "jillapun-data", "usr/" + path)
        elif name in (shared, soname):
            move(top, folders, path, "libjillapun0", LIBRARIES + "/" + name)
        elif path.startswith("lib/"):
            move(top, folders, path, "libjillapun-dev", LIBRARIES + path.removeprefix("lib"))
        else:
            move(top, folders, path, "libjillapun-dev" if name == "jillapun.h" else "jillapun", "usr/" + path)
    for program in ("recode", "recode-places"):
        stripped(os.path.join(folders["jillapun"], "usr/libexec/jillapun", program), "--strip-all")
    library = os.path.join(folders["libjillapun0"], LIBRARIES, shared)
    stripped(library, "--strip-unneeded")
    os.chmod(library, 0o644)
    stripped(os.path.join(folders["libjillapun-dev"], LIBRARIES, "libjillapun.a"), "--strip-debug")


def add_python(folder):
    """The Python package with its metadata, and its command, which has a man page and which bash completes."""
    with tempfile.TemporaryDirectory() as copy:
        install.python_module(copy)
        shutil.copytree(os.path.join(copy, "python", "jillapun"), os.path.join(folder, PYTHON))
    with open(os.path.join(TOP, "python/pyproject.toml"), "rb") as file:
        about = {"version": c_library.version(), **tomllib.load(file)["project"]}
    install.written(METADATA.format(**about), os.path.join(folder, "%s-%s.dist-info" % (PYTHON, about["version"]), "METADATA"))
    for name, text in SCRIPTS.items():
        install.written(text, os.path.join(folder, "DEBIAN", name), 0o755)
    install.written(COMMAND, os.path.join(folder, "usr/bin/jillapun"), 0o755)
    squeezed(os.path.join(TOP, "man/jillapun.1"), os.path.join(folder, "usr/share/man/man1/jillapun.1.gz"))
    completion = os.path.join(folder, "usr/share/bash-completion/completions/jillapun")
    install.copied("completions/jillapun.bash", completion, 0o644)


def add_documents(name, folder):
    """The licences, and the list of changes."""
    documents = os.path.join(folder, "usr/share/doc", name)
    licences = {"copyright": "COPYRIGHT", "mit": "LICENSE-MIT", "whatwg": "LICENSE-WHATWG"}
    text = COPYRIGHT.format(**{key: indented(file) for key, file in licences.items()})
    install.written(text, os.path.join(documents, "copyright"))
    if name in ("jillapun", "libjillapun0", "libjillapun-dev"):
        install.written(install.linked_licences(), os.path.join(documents, os.path.basename(install.LINKED)))
    date = time.strftime("%a, %d %b %Y %H:%M:%S +0000", time.gmtime(install.commit_time()))
    changes = os.path.join(documents, "changelog.Debian")
    install.written(CHANGELOG.format(version=version(), maintainer=MAINTAINER, date=date), changes)
    squeezed(changes, changes + ".gz")
    os.remove(changes)


def add_control(name, folder):
    architecture, section, relations, title, text = PACKAGES[name]
    control = os.path.join(folder, "DEBIAN")
    places = [place for place in os.walk(folder) if place[0] != control]
    files = [os.path.join(place, file) for place, _, names in places for file in names]
    binaries = [path for path in files if "/libexec/" in path or not os.path.islink(path) and ".so." in path]
    glibc = max(map(install.glibc, binaries), default=0)
    words = {
        "name": name,
        "version": version(),
        "architecture": architecture,
        "maintainer": MAINTAINER,
        "size": sum(os.lstat(path).st_size for path in files) // 1024 + 1,
        "section": section,
        "relations": relations.format(version=version(), glibc=glibc),
        "title": title,
        "text": textwrap.fill(text, 78, initial_indent=" ", subsequent_indent=" "),
    }
    sums = subprocess.run(
        ["md5sum", *sorted(os.path.relpath(path, folder) for path in files if not os.path.islink(path))],
        cwd=folder, capture_output=True, text=True, check=True,
    )  # fmt: skip
    install.written(CONTROL.format(**words), os.path.join(control, "control"))
    install.written(sums.stdout, os.path.join(control, "md5sums"))
    if name == "libjillapun0":
        install.written("libjillapun 0 libjillapun0 (>= %s)\n" % c_library.version(), os.path.join(control, "shlibs"))
        install.written("activate-noawait ldconfig\n", os.path.join(control, "triggers"))


def pack(out=OUT):
    """Packs all, and returns the paths."""
    os.makedirs(out, exist_ok=True)
    paths = []
    with tempfile.TemporaryDirectory() as whole:
        folders = {name: os.path.join(whole, name) for name in PACKAGES}
        top = os.path.join(whole, "top")
        install.install(top, "/usr")
        for target, text in install.PKG_CONFIG.items():
            text = text.format(prefix="/usr", version=c_library.version())
            pc = text.replace("${prefix}/lib", "${prefix}/" + LIBRARIES.removeprefix("usr/"))
            install.written(pc, os.path.join(top, target))
        spread(top, folders)
        add_python(folders["python3-jillapun"])
        for name, folder in folders.items():
            add_documents(name, folder)
            add_control(name, folder)
            for place, _, _ in os.walk(folder):
                os.chmod(place, 0o755)
            path = os.path.join(out, "%s_%s_%s.deb" % (name, version(), PACKAGES[name][0]))
            environment = {**os.environ, "SOURCE_DATE_EPOCH": str(install.commit_time())}
            words = ["dpkg-deb", "--root-owner-group", "-Zxz", "--build", folder, path]
            subprocess.run(words, env=environment, stdout=subprocess.DEVNULL, check=True)
            paths.append(path)
    return paths


def main():
    for path in pack():
        print("packed", os.path.relpath(path, TOP))
    return 0


if __name__ == "__main__":
    sys.exit(main())
