"""How the library is found and loaded, and the first call that needs indexes."""

import ctypes
import os
import shutil
import subprocess
import sys
import tempfile
import unittest
from pathlib import Path
from unittest import mock

import cases
import jillapun
from jillapun import _indexes, _library

sys.path.append(os.path.join(cases.TOP, "tools", "release"))

import c_library  # noqa: E402

PACKAGE = os.path.join(cases.TOP, "python", "jillapun")
# No wait for a process takes longer, in seconds.
PATIENCE = 60

# Prints what is executed while the package is imported, and where the library was found.
IMPORT = """
import sys
runs = ("os.exec", "os.fork", "os.forkpty", "os.posix_spawn", "os.spawn", "os.system", "subprocess.Popen")
sys.addaudithook(lambda event, words: event in runs and print("executed", words))
try:
    import jillapun
    print(jillapun._library.library._name, jillapun.decode(b"\\x83\\x6e", "shift_jis").losses)
except ImportError as fault:
    print("ImportError:", fault)
"""

# A processor of 2006.
OLD = "processor\t: 0\nflags\t\t: fpu cx8 cmov sse sse2 pni ssse3 cx16 lahf_lm\nbugs\t\t:\n"
# Imports the package on a machine that says of itself what FAKE is.
FAKE = """
import builtins, io
opened = builtins.open
builtins.open = lambda path, *words, **more: io.StringIO(FAKE) if path == "/proc/cpuinfo" else opened(path, *words, **more)
"""

# A call in the middle of the first one, by a handler of a signal.
SIGNAL = """
import signal, jillapun
from jillapun import _indexes
load, told = _indexes._loaded, []
def handle(*_):
    signal.signal(signal.SIGUSR1, signal.SIG_IGN)
    told.append(jillapun.decode(b"\\x83\\x6e", "shift_jis").text)
def loaded(texts):
    signal.raise_signal(signal.SIGUSR1)
    return load(texts)
signal.signal(signal.SIGUSR1, handle)
_indexes._loaded = loaded
print(ascii(jillapun.decode(b"\\x83\\x6e", "shift_jis").text + told[0]))
"""
# A child that is forked in the middle of another thread's first call.
FORK = """
import os, signal, threading, jillapun
from jillapun import _indexes
load, is_inside, goes_on = _indexes._loaded, threading.Event(), threading.Event()
def loaded(texts):
    if threading.current_thread() is not threading.main_thread():
        is_inside.set()
        goes_on.wait()
    return load(texts)
_indexes._loaded = loaded
made = []
thread = threading.Thread(target=lambda: made.append(jillapun.decode(b"\\x83\\x6e", "shift_jis").text))
thread.start()
is_inside.wait()
child = os.fork()
if not child:
    signal.alarm(20)
    os._exit(jillapun.decode(b"\\x83\\x6e", "shift_jis").text != "\\u30cf")
status = os.waitpid(child, 0)[1]
goes_on.set()
thread.join()
print(status, ascii(made[0]))
"""


def ran(lines: str, folder: str = os.path.join(cases.TOP, "python"), **variables: str) -> str:
    """What a process prints that has the package of a folder, and no variables but these of its own."""
    others = {name: value for name, value in os.environ.items() if not name.startswith("JILLAPUN_")}
    words = [sys.executable, "-c", lines]
    environment = {**others, "PYTHONPATH": folder, **variables}
    done = subprocess.run(words, env=environment, cwd="/", capture_output=True, text=True, timeout=PATIENCE, check=False)
    return done.stdout + done.stderr


class Places(unittest.TestCase):
    """Where the library is looked for, with a copy of the package."""

    def setUp(self) -> None:
        folder = tempfile.TemporaryDirectory()
        self.addCleanup(folder.cleanup)
        self.top = os.path.realpath(folder.name)
        self.python = os.path.join(self.top, "a", "b", "python")
        shutil.copytree(PACKAGE, os.path.join(self.python, "jillapun"), ignore=shutil.ignore_patterns("*.so", "__pycache__"))

    def place(self, *names: str) -> str:
        """Puts the library there."""
        path = os.path.join(self.top, *names)
        os.makedirs(os.path.dirname(path), exist_ok=True)
        shutil.copyfile(_library.library._name, path)
        return path

    def test_order(self) -> None:
        """The last of these is first. Nothing is executed."""
        system = os.path.dirname(self.place("system", _library.SONAME))
        self.assertEqual(ran(IMPORT, self.python, LD_LIBRARY_PATH=system), "%s []\n" % _library.SONAME)
        for names in (("a", "b", "lib"), ("a", "b", "out", "c")):
            path = self.place(*names, "libjillapun.so")
            self.assertEqual(ran(IMPORT, self.python, LD_LIBRARY_PATH=system), "%s []\n" % path)
        named = self.place("named.so")
        self.assertEqual(ran(IMPORT, self.python, JILLAPUN_LIBRARY=named), "%s []\n" % named)
        own = self.place("a", "b", "python", "jillapun", "libjillapun.so")
        self.assertEqual(ran(IMPORT, self.python, JILLAPUN_LIBRARY=named), "%s []\n" % own)

    def test_not_there(self) -> None:
        """Folders further up are not looked into."""
        for names in (("lib",), ("a", "lib"), ("out", "c"), ("a", "out", "c"), ("a", "b", "python", "lib")):
            self.place(*names, "libjillapun.so")
        said = ran(IMPORT, self.python)
        if said.startswith(_library.SONAME):
            self.skipTest("the library is installed here")
        self.assertRegex(said, r"^ImportError: libjillapun\.so\.0: .*; JILLAPUN_LIBRARY can name another")
        said = ran(IMPORT, self.python, JILLAPUN_LIBRARY="/none/such.so")
        self.assertRegex(said, r"^ImportError: /none/such\.so: .*; JILLAPUN_LIBRARY can name another")

    def test_soname(self) -> None:
        self.assertEqual(_library.SONAME, c_library.soname())


class Processors(unittest.TestCase):
    def test_old(self) -> None:
        """What the library would end by an illegal instruction is an error of the import."""
        said = ran(FAKE.replace("FAKE", repr(OLD)) + IMPORT, JILLAPUN_LIBRARY=_library.library._name)
        wanted = "ImportError: jillapun needs a processor of x86-64-v2, and this one lacks popcnt sse4_1 sse4_2\n"
        self.assertEqual(said, wanted)

    def test_others(self) -> None:
        """A new one, one that is not listed, and a system without a list."""
        for said in (OLD.replace("ssse3", "ssse3 sse4_1 sse4_2 popcnt avx"), "Features\t: fp asimd\n", ""):
            with tempfile.NamedTemporaryFile("w") as file, mock.patch.object(_library, "CPUINFO", file.name):
                file.write(said)
                file.flush()
                self.assertEqual(_library._missing(), "")
        with mock.patch.object(_library, "CPUINFO", "/none"):
            self.assertEqual(_library._missing(), "")


class FirstCall(unittest.TestCase):
    """The indexes are loaded by the first call that needs them, which nothing waits for."""

    def test_in_a_handler(self) -> None:
        self.assertEqual(ran(SIGNAL, JILLAPUN_LIBRARY=_library.library._name), "'\\u30cf\\u30cf'\n")

    def test_in_a_child(self) -> None:
        self.assertEqual(ran(FORK, JILLAPUN_LIBRARY=_library.library._name), "0 '\\u30cf'\n")

    def test_twice(self) -> None:
        """Of two that were loaded at once all have the first."""
        first = _indexes.Indexes()
        load = mock.Mock(side_effect=lambda: _indexes._defaults.update(default=first) or jillapun.Indexes())
        with mock.patch.object(_indexes, "_defaults", {}), mock.patch.object(_indexes, "Indexes", load):
            self.assertIs(_indexes.indexes_of(None), first)

    def test_folder(self) -> None:
        """JILLAPUN_INDEXES names another folder, and each file of it is read; the library has all texts."""
        lines = "import jillapun; print(jillapun.default_folder()); jillapun.decode(b'', 'big5')"
        library = {"JILLAPUN_LIBRARY": _library.library._name}
        self.assertEqual(ran(lines, **library), "None\n")
        with tempfile.TemporaryDirectory() as folder:
            Path(folder, "index-ibm866.txt").write_text("0\t0x0410\n", encoding="ascii")
            said = ran(lines, JILLAPUN_INDEXES=folder, **library)
            self.assertRegex(said, r"(?s)^%s\n.*IndexesMissing" % folder)

    def test_without_texts(self) -> None:
        """A library of before has none; the folder is then to be named."""
        with mock.patch.object(_library, "library", ctypes.CDLL(None)):
            self.assertEqual(_library.index_texts(), {})


if __name__ == "__main__":
    unittest.main()
