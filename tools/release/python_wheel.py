#!/usr/bin/env python3
"""Packs the Python package with the shared library, which has the index texts, into a wheel: `make wheel`.

    python3 tools/release/python_wheel.py

It writes `out/jillapun-VERSION-py3-none-manylinux_2_17_x86_64.whl` from what `make c` has built. The tag names the oldest
glibc that the library runs on, as the versions of the symbols that it takes from there say. It needs setuptools and
Debian's or PyPI's wheel, of this Python or of the system's, and no network.

The gate installs the wheel in an empty virtual environment without a network, and uses it there without a variable.
"""

import os
import signal
import subprocess
import sys
import tempfile
import time

import c_library
import install

TOP = c_library.TOP
SHARED = os.path.join(TOP, install.SHARED)
OUT = os.path.join(TOP, "out")

# The oldest glibc that a tag names: 2.17 is that of manylinux2014.
OLDEST = 17
# No wait for the program takes longer, in seconds.
PATIENCE = 60

BUILD = "import sys, wheel\nfrom setuptools import build_meta\nbuild_meta.build_wheel(sys.argv[1], {'--build-option': sys.argv[2:]})"

# The wheel is for one machine, and for each Python: by itself setuptools takes one without an extension for pure Python.
SETUP = """
import setuptools
from wheel.bdist_wheel import bdist_wheel

class Distribution(setuptools.Distribution):
    def has_ext_modules(self):
        return True

class Wheel(bdist_wheel):
    def get_tag(self):
        return "py3", "none", super().get_tag()[2]

setuptools.setup(distclass=Distribution, cmdclass={"bdist_wheel": Wheel})
"""

# What is tried in the environment: the package, its indexes, its types, codecs, metadata.
TRIED = """
import importlib.metadata, importlib.resources, sys, jillapun
assert jillapun.decode(b"A\\x83\\x6e", "shift_jis").text == "A\u30cf"
assert jillapun._library.library._name.startswith(sys.prefix) and jillapun.__file__.startswith(sys.prefix)
assert (importlib.resources.files("jillapun") / "py.typed").is_file()
about = importlib.metadata.metadata("jillapun")
assert all(about[name] for name in ("Summary", "License", "Author", "Description-Content-Type")) and about.get_payload()
assert "Root-Is-Purelib: false" in importlib.metadata.distribution("jillapun").read_text("WHEEL")
jillapun.register()
assert open(sys.argv[1], encoding="web-gb18030").read() == "\u4e2d"
"""


class NotPacked(Exception):
    """Why there is no wheel."""


def tag(shared):
    """The tag of the systems that a shared library runs on."""
    return "manylinux_2_%d_x86_64" % max(OLDEST, install.glibc(shared))


def builder():
    """A Python that has setuptools and wheel."""
    for python in (sys.executable, "/usr/bin/python3"):
        words = [python, "-c", "import wheel, setuptools; assert int(setuptools.__version__.split('.')[0]) >= 61"]
        if os.path.exists(python) and not subprocess.run(words, capture_output=True, check=False).returncode:
            return python
    raise NotPacked("no Python here has setuptools and wheel (Debian: python3-setuptools, python3-wheel)")


def stage(folder, shared):
    """What is packed, as `python/pyproject.toml` wants it."""
    install.python_module(folder)
    folder = os.path.join(folder, "python")
    for path in ("python/pyproject.toml", "docs/PYTHON.md", *install.LICENCES):
        install.copied(path, os.path.join(folder, os.path.basename(path)), 0o644)
    install.copied(shared, os.path.join(folder, "jillapun", c_library.SHARED), 0o755)
    install.written(c_library.version() + "\n", os.path.join(folder, "VERSION"))
    install.written(SETUP, os.path.join(folder, "setup.py"))
    return folder


def pack(shared=SHARED, out=OUT):
    """Packs the wheel, and returns its path. It is the same, byte by byte, for the same files."""
    if not os.path.isfile(shared):
        raise NotPacked("%s is not built (make c)" % install.SHARED)
    python, name = builder(), tag(shared)
    with tempfile.TemporaryDirectory() as folder:
        words = [python, "-c", BUILD, out, "--plat-name", name]
        environment = {**os.environ, "SOURCE_DATE_EPOCH": str(install.commit_time())}
        os.makedirs(out, exist_ok=True)
        # The modes of what is packed are the same under any mask.
        ran = subprocess.run(
            words, cwd=stage(folder, shared), env=environment, umask=0o022, capture_output=True, text=True, check=False
        )
    path = os.path.join(out, "jillapun-%s-py3-none-%s.whl" % (c_library.version(), name))
    if ran.returncode or not os.path.isfile(path):
        raise NotPacked("setuptools: status %d\n%s" % (ran.returncode, ran.stderr[-2000:]))
    return path


def environment(folder, wheel):
    """An empty virtual environment with the wheel, installed by pip without a network; its folder of programs."""
    subprocess.run([sys.executable, "-m", "venv", "--without-pip", folder], check=True)
    programs = os.path.join(folder, "bin")
    words = [sys.executable, "-m", "pip", "--python", os.path.join(programs, "python"), "install", wheel]
    ran = subprocess.run(
        [*words, "--isolated", "--no-index", "--no-cache-dir"], capture_output=True, text=True, check=False
    )
    if ran.returncode:
        raise NotPacked("pip install: status %d\n%s" % (ran.returncode, ran.stderr[-2000:]))
    return programs


def uses(programs, folder):
    """What is wrong with the package and its program, in an environment that names nothing of this repository."""
    plain = {"PATH": programs, "HOME": folder}
    given = os.path.join(folder, "given.txt")
    install.written("", given)
    with open(given, "wb") as file:
        file.write("\u4e2d".encode("gb18030"))
    rows = [
        (["python", "-I", "-c", TRIED, given], 0),
        (["jillapun", "--from", "gb18030", "--to", "utf-8", given], 0),
        (["jillapun", "--from", "utf-8", "--to", "windows-1252", given], 1),
        (["jillapun", "--from", "none", "--to", "utf-8", given], 2),
    ]
    for (program, *words), status in rows:
        command = [os.path.join(programs, program), *words]
        ran = subprocess.run(command, cwd=folder, env=plain, capture_output=True, text=True, check=False)
        if ran.returncode != status:
            yield "wheel: %s: status %d and not %d: %s" % (program, ran.returncode, status, ran.stderr[-2000:])
    yield from ends(os.path.join(programs, "jillapun"), folder, plain)


def ends(program, folder, plain):
    """What the program leaves that a signal meets while it waits for more input."""
    into = tempfile.mkdtemp(dir=folder)
    command = [program, "--from", "utf-8", "--to", "utf-8", "--into", into, "/dev/stdin"]
    with subprocess.Popen(command, env=plain, stdin=subprocess.PIPE, stderr=subprocess.DEVNULL) as process:
        end = time.monotonic() + PATIENCE
        while not os.listdir(into) and time.monotonic() < end:
            time.sleep(0.01)
        # Python sees a signal that comes just before it waits only after that, so it may take a second one.
        while process.poll() is None and time.monotonic() < end:
            process.terminate()
            time.sleep(0.5)
        status = process.wait(PATIENCE)
    if status != 128 + signal.SIGTERM or os.listdir(into):
        yield "wheel: jillapun, after SIGTERM: status %d, and it leaves %s" % (status, os.listdir(into))


def faults(shared):
    """What is wrong with a wheel of this shared library."""
    try:
        builder()
        subprocess.run([sys.executable, "-m", "pip", "--version"], capture_output=True, check=True)
    except (NotPacked, subprocess.CalledProcessError) as missing:
        print("left out: the wheel, since there is no setuptools, wheel or pip here (%s)" % missing)
        return
    with tempfile.TemporaryDirectory() as folder:
        try:
            path = pack(shared, folder)
            programs = environment(os.path.join(folder, "environment"), path)
        except NotPacked as fault:
            yield "wheel: %s" % fault
            return
        yield from uses(programs, folder)
        print("installed in an empty virtual environment: %s" % os.path.basename(path))


def main():
    try:
        path = pack()
    except NotPacked as fault:
        sys.exit(str(fault))
    print("packed", os.path.relpath(path, TOP))


if __name__ == "__main__":
    main()
