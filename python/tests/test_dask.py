"""The example on Dask's workers, beside one conversion of the whole: output, losses and status are the same."""

import contextlib
import io
import os
import runpy
import shutil
import signal
import sys
import threading
import time
import unittest
from pathlib import Path
from typing import Any, Callable, List, Optional, Tuple
from unittest import mock

import cases
import installed
import jillapun
from test_files import Folder

EXAMPLE = Path(cases.TOP, "docs/examples/python/convert_on_dask.py")

# Lines with a malformed byte, a character that windows-1252 lacks and one that it has.
LOSSY = "é 日 🙂\n".encode() + b"\xff\n"


def whole(data: bytes, source: str, target: str) -> Tuple[bytes, List[str], int]:
    """Output, lines of losses and status of one conversion."""
    done = jillapun.convert(data, source, target)
    return done.output, [str(loss) for loss in done.losses], int(not done.faithful)


class OnDask(Folder):
    cluster: Any

    @classmethod
    def setUpClass(cls) -> None:
        super().setUpClass()
        distributed = installed.package("dask.distributed")
        # Dask imports more as it goes, here and in the workers.
        folders = [installed.DEBIAN] if distributed.__file__.startswith(installed.DEBIAN) else []
        sys.path += folders
        cls.addClassCleanup(lambda: [sys.path.remove(folder) for folder in folders])
        paths = os.pathsep.join([os.path.join(cases.TOP, "python"), os.environ.get("PYTHONPATH", ""), *folders])
        with mock.patch.dict(os.environ, {"PYTHONPATH": paths}):
            cls.cluster = distributed.LocalCluster(
                n_workers=2, threads_per_worker=1, host="127.0.0.1", dashboard_address=None, silence_logs=50
            )

    @classmethod
    def tearDownClass(cls) -> None:
        cls.cluster.close()
        super().tearDownClass()

    def program(self, *words: str, block: int = 100) -> Tuple[int, str, str]:
        """Status, standard output and standard error of the example."""
        said, error = io.StringIO(), io.StringIO()
        with mock.patch.dict(os.environ, {"BLOCK": str(block)}):
            with contextlib.redirect_stdout(said), contextlib.redirect_stderr(error):
                status = runpy.run_path(os.fspath(EXAMPLE))["program"](*words)
        return status, said.getvalue(), error.getvalue()

    def ran(self, data: bytes, *words: str, block: int = 100) -> Tuple[bytes, List[str], int]:
        """What the example leaves: the files of its folder in a row, what it prints, and its status."""
        self.put("a", data)
        address = self.cluster.scheduler_address
        status, said, error = self.program(*words, self.path, self.at("parts"), address, block=block)
        self.assertIn(status, (0, 1), error)
        made = sorted(Path(self.at("parts")).iterdir())
        self.assertTrue(made)
        output = b"".join(path.read_bytes() for path in made if not path.name.startswith("."))
        shutil.rmtree(self.at("parts"))
        return output, said.splitlines(), status

    def refused(self, status: int, reason: str, *words: str) -> None:
        """Nothing is printed but the reason."""
        found, said, error = self.program(*words)
        self.assertEqual((found, said), (status, ""))
        self.assertIn(reason, error)

    def test_inputs(self) -> None:
        rows = [
            (LOSSY * 50, "utf-8", "windows-1252"),
            ("日本語 テスト\n".encode("cp932") * 100, "shift_jis", "utf-8"),
            (b"\xef\xbb\xbf" + LOSSY * 50, "shift_jis", "koi8-r"),
            (b"\x90\x30\x81\x30\n" * 60, "gb18030", "big5"),
            ("é日".encode() * 500 + b"\n" + LOSSY * 9, "utf-8", "euc-jp"),
            (b"a", "utf-8", "utf-8"),
            (b"", "utf-8", "utf-8"),
        ]
        for data, source, target in rows:
            self.assertEqual(self.ran(data, source, target), whole(data, source, target), (source, target, data[:9]))

    def test_what_is_not_cut(self) -> None:
        for data, source, target in [
            (b"\xff\xfe\n\0", "utf-8", "utf-8"),
            (b"a\n", "utf-16be", "utf-8"),
            (b"a\n", "utf-8", "iso-2022-jp"),
        ]:
            self.refused(2, "can't be cut", source, target, self.put("a", data), self.at("parts"))
        for size in (1 << 17, 1 << 20):
            self.refused(2, "no line feed in the first", "utf-8", "utf-8", self.put("a", b"a" * size), self.at("parts"))
        self.assertEqual(os.listdir(self.folder), ["a"])

    def test_a_long_first_line(self) -> None:
        """Of many times four bytes, by which Dask would look for its end."""
        data = b"a" * 1_500_000 + b"\n" + LOSSY * 9
        start = time.monotonic()
        found = self.ran(data, "utf-8", "windows-1252", block=1 << 21)
        self.assertEqual(found, whole(data, "utf-8", "windows-1252"))
        self.assertLess(time.monotonic() - start, 60)

    def test_a_folder_that_is_there(self) -> None:
        """Blocks of another run would be taken for those of this one."""
        self.put("a", LOSSY * 50)
        os.mkdir(self.at("parts"))
        self.put("parts/00000099", b"old")
        self.refused(2, "is there already", "utf-8", "windows-1252", self.path, self.at("parts"))
        self.assertEqual(os.listdir(self.at("parts")), ["00000099"])

    def test_statuses(self) -> None:
        """None is 1, which says that all was converted, and something was lost."""
        self.put("a", LOSSY)
        self.refused(2, "none", "none", "utf-8", self.path, self.at("parts"))
        self.refused(2, "none", "utf-8", "none", self.path, self.at("parts"))
        self.refused(2, "FROM TO INPUT FOLDER", "utf-8", "utf-8", self.path)
        self.refused(4, "FileNotFoundError", "utf-8", "utf-8", self.at("b"), self.at("parts"))
        self.refused(4, "Error", "utf-8", "utf-8", self.path, self.at("a/b"), self.cluster.scheduler_address)
        self.refused(4, "Error", "utf-8", "utf-8", self.path, self.at("parts"), "nowhere://1")

    def killed(self, when: Callable[[], bool]) -> Optional[int]:
        """Kills a worker once it is time to; its number, if there was one."""
        end = time.monotonic() + 60
        while time.monotonic() < end:
            if when():
                process = next(iter(self.cluster.workers.values())).process.pid
                os.kill(process, signal.SIGKILL)
                return process
            time.sleep(0.001)
        return None

    def test_a_worker_that_is_killed(self) -> None:
        """Once some blocks are written and others are not."""
        data = LOSSY * 40_000
        made: List[Optional[int]] = []
        folder = Path(self.at("parts"))

        def some() -> bool:
            return folder.is_dir() and 3 <= len(os.listdir(folder)) <= 100

        killer = threading.Thread(target=lambda: made.append(self.killed(some)))
        killer.start()
        result = self.ran(data, "utf-8", "windows-1252", block=4000)
        killer.join()
        self.assertNotIn(None, made)
        self.assertEqual(result, whole(data, "utf-8", "windows-1252"))


if __name__ == "__main__":
    unittest.main()
