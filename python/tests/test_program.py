"""The program: what it does with files, what it says, and what it leaves when it is cut short."""

import contextlib
import errno
import io
import os
import resource
import signal
import subprocess
import sys
import time
import unittest
from pathlib import Path
from typing import Sequence, Tuple
from unittest import mock

import cases
import jillapun
from jillapun import __main__ as program
from jillapun._names import shown
from test_files import BAD, BAD_MADE, GOOD, GOOD_MADE, Folder

sys.path.append(os.path.join(cases.TOP, "tools", "gate"))

import places  # noqa: E402

WORDS = ["--from", "utf-8", "--to", "windows-1252"]
IN_PLACE = "--in-place"
ENVIRONMENT = {**os.environ, "PYTHONPATH": os.path.join(cases.TOP, "python")}
COMMAND = [sys.executable, "-m", "jillapun", *WORDS]

# No wait for the program takes longer, in seconds.
PATIENCE = 60


class Programs(Folder):
    def run_it(self, *words: str) -> Tuple[int, str, str]:
        """Status, standard output and standard error."""
        out, error = io.StringIO(), io.StringIO()
        with contextlib.redirect_stdout(out), contextlib.redirect_stderr(error):
            try:
                status = program.main([*WORDS, *words])
            except SystemExit as end:
                status = end.code
        return status, out.getvalue(), error.getvalue()

    def refused(self, status: int, *words: str) -> str:
        """What is said of files that are refused, with nothing written."""
        before = self.all_files()
        found, out, error = self.run_it(*words)
        self.assertEqual((found, out, self.all_files()), (status, "", before))
        return error

    def all_files(self) -> dict:
        """What is there, with the contents of files."""
        paths = sorted(Path(self.folder).rglob("*"))
        return {str(path): path.read_bytes() if path.is_file() else os.path.islink(path) for path in paths}

    def folders(self, *names: str) -> None:
        for name in names:
            os.mkdir(self.at(name))


class Outputs(Programs):
    """Which files may be written."""

    def test_two_inputs_for_one_output(self) -> None:
        self.folders("a", "b", "o")
        one, other, into = self.put("a/x.txt", GOOD), self.put("b/x.txt", GOOD), self.at("o")
        for target in (into, into + "/", os.path.join(self.folder, "a/../o")):
            error = self.refused(2, "--into", target, one, self.put("a/y.txt", GOOD), other)
            self.assertIn("%s and %s would both become %s" % (one, other, os.path.join(target, "x.txt")), error)
        for again in (one, self.at("a/../a/x.txt"), self.at("a//x.txt")):
            self.refused(2, "--into", into, one, again)
        os.symlink(one, self.at("b/link"))
        self.assertEqual(self.run_it("--into", into, one, self.at("b/link"))[0], 0)
        self.assertEqual(sorted(os.listdir(into)), ["link", "x.txt"])

    def test_outputs_that_are_one_file(self) -> None:
        """Links in the folder of the outputs, to a file that is there and to one that is not."""
        self.folders("a", "o")
        one, other = self.put("a/x", GOOD), self.put("a/y", GOOD)
        os.symlink("x", self.at("o/y"))
        self.refused(2, "--into", self.at("o"), one, other)
        self.put("o/x", b"old")
        self.refused(2, "--into", self.at("o"), one, other)

    def test_one_file_twice(self) -> None:
        """In its own place, by any path: it would be converted twice."""
        self.put("a", GOOD)
        os.symlink("a", self.at("link"))
        os.link(self.path, self.at("hard"))
        for name in ("a", "link", "hard", "./a"):
            for words in ([IN_PLACE], ["--backup", "~"]):
                error = self.refused(2, *words, self.path, self.at(name))
                self.assertEqual(error, "%s and %s are one file\n" % (self.path, self.at(name)))

    def test_an_output_that_is_an_input(self) -> None:
        self.folders("a", "b")
        one, other = self.put("a/x", GOOD), self.put("b/x", BAD)
        os.symlink(one, self.at("b/link"))
        for files in ((other, self.at("b/link")), (self.at("b/link"), other)):
            error = self.refused(2, "--into", self.at("a"), *files)
            said = "%s would replace %s, which is to be converted too\n"
            self.assertEqual(error, said % (other, self.at("b/link")))

    def test_the_folder_of_the_inputs(self) -> None:
        """By whatever path, and whatever else is asked for."""
        self.put("a", GOOD)
        os.symlink(self.folder, self.folder + "-link")
        self.addCleanup(os.unlink, self.folder + "-link")
        os.mkdir(self.at("o"))
        os.symlink("../a", self.at("o/a"))
        for into in (self.folder, self.folder + "-link", self.at("o")):
            for words in ([], ["--lossy"], ["--backup", "~"], ["--force"]):
                error = self.refused(2, "--into", into, *words, self.path)
                said = "%s would replace %s itself: --in-place, without --into, asks for that\n"
                self.assertEqual(error, said % (os.path.join(into, "a"), self.path))

    def test_several_files_and_one_output(self) -> None:
        one, other = self.put("a", GOOD), self.put("b", GOOD)
        for words in ([], ["--lossy"], ["--force"], ["--threads", "2"]):
            self.assertIn("2 files and one standard output: --into FOLDER", self.refused(2, *words, one, other))

    def test_two_places(self) -> None:
        self.put("a", GOOD)
        self.assertIn("not allowed with", self.refused(2, IN_PLACE, "--into", self.at("o"), self.path))

    def test_where_case_does_not_matter(self) -> None:
        """Two names become one when the first is there. (The names are taken for one here, as some file systems do.)"""
        self.folders("a", "b", "o")
        one, other = self.put("a/x", GOOD), self.put("b/X", BAD)
        identity = program.identity

        def folded(path: str) -> object:
            low = os.path.join(os.path.dirname(path), "x")
            return identity(low if path.endswith("o/X") and os.path.exists(low) else path)

        with mock.patch.object(program, "identity", folded):
            status, _, error = self.run_it("--into", self.at("o"), one, other)
        self.assertEqual(status, 4)
        self.assertEqual(error, "%s: it would replace %s, which %s has become\n" % (other, self.at("o/X"), one))
        self.assertEqual(os.listdir(self.at("o")), ["x"])
        self.assertEqual(Path(self.at("o/x")).read_bytes(), GOOD_MADE)

    def test_a_folder_that_is_made(self) -> None:
        """Also by a relative path; nothing is made if the command line is refused."""
        self.put("a", GOOD)
        self.refused(2, "--into", self.at("o"), "--from", "none", self.path)
        self.refused(2, "--into", self.at("o"), self.path, self.path)
        self.assertEqual(self.run_it("--into", self.at("o"), self.path), (0, "", ""))
        self.assertEqual(Path(self.at("o/a")).read_bytes(), GOOD_MADE)

    def test_no_folder(self) -> None:
        self.put("a", GOOD)
        for into, said in ("none/o", "No such file or directory"), ("a", "File exists"), ("a/b", "Not a directory"):
            error = self.refused(4, "--into", self.at(into), self.path)
            self.assertEqual(error, "%s: the folder can't be made: %s\n" % (self.at(into), said))

    def test_empty_words(self) -> None:
        """A variable of the shell that is not set."""
        self.put("a", GOOD)
        self.assertIn("--into: no folder is named", self.refused(2, "--into", "", self.path))
        for suffix in ("", "/", "a/b", "/etc/x"):
            self.assertIn("is no suffix of a name", self.refused(2, "--backup", suffix, self.path))

    def test_outputs_that_are_there(self) -> None:
        """A file is replaced, and a folder or a device is not."""
        self.folders("a", "o", "o/y")
        one, other = self.put("a/x", BAD), self.put("a/y", GOOD)
        self.put("o/x", b"old")
        status, _, error = self.run_it("--into", self.at("o"), "--backup", ".old", one, other)
        self.assertEqual((status, error), (4, "%s: %s: Is a directory\n" % (other, self.at("o/y"))))
        self.assertEqual(Path(self.at("o/x")).read_bytes(), BAD_MADE)
        self.assertEqual(Path(self.at("o/x.old")).read_bytes(), b"old")
        os.symlink("/dev/null", self.at("o/z"))
        self.assertEqual(self.run_it("--into", self.at("o"), self.put("a/z", GOOD))[0], 4)
        self.assertFalse(os.path.isfile("/dev/null"))


class InPlace(Programs):
    def test_something_would_be_lost(self) -> None:
        """Of two files one is replaced, and the message says what to do with the other."""
        good, bad = self.put("good", GOOD), self.put("bad", BAD)
        status, out, error = self.run_it(IN_PLACE, bad, good)
        self.assertEqual((status, out), (1, "%s: bad 3 1\n%s: lost 3 65533\n" % (bad, bad)))
        counts = "malformed sequences: 1, characters without bytes: 1"
        remedy = "--lossy replaces it all the same, and --backup SUFFIX keeps the original"
        self.assertEqual(error, "%s: left as it was (%s): %s\n" % (bad, counts, remedy))
        self.holds(good=GOOD_MADE, bad=BAD)
        self.assertEqual(self.run_it(IN_PLACE, "--lossy", bad)[::2], (1, ""))
        self.holds(good=GOOD_MADE, bad=BAD_MADE)

    def test_backup(self) -> None:
        self.put("a", BAD)
        self.assertEqual(self.run_it("--backup", ".orig", self.path)[::2], (1, ""))
        self.holds(**{"a": BAD_MADE, "a.orig": BAD})
        status, _, error = self.run_it("--backup", ".orig", "--lossy", self.path)
        self.assertEqual((status, error), (4, "%s: %s.orig: File exists\n" % (self.path, self.path)))
        self.holds(**{"a": BAD_MADE, "a.orig": BAD})

    def test_characters_that_do_not_read_back(self) -> None:
        self.put("a", "¥".encode())
        words = [IN_PLACE, "--to", "shift_jis", self.path]
        status, out, error = self.run_it(*words)
        self.assertEqual((status, out), (1, ""))
        self.assertIn("left as it was (some characters do not read back)", error)
        self.holds(a="¥".encode())
        self.assertEqual(self.run_it("--lossy", *words), (1, "%s: some characters do not read back\n" % self.path, ""))
        self.holds(a=b"\\")

    def test_stop(self) -> None:
        self.put("a", "日".encode())
        for words in ([IN_PLACE], [IN_PLACE, "--lossy"], ["--backup", "~"]):
            status, out, error = self.run_it("--unmappable", "stop", *words, self.path)
            self.assertEqual((status, out), (4, "%s: lost 0 26085\n" % self.path))
            self.assertIn("no bytes for U+65E5", error)
        self.holds(a="日".encode())

    def test_no_file(self) -> None:
        self.folders("in")
        os.mkfifo(self.at("pipe"))
        os.symlink("loop", self.at("loop"))
        for name, said in (
            ("in", "Is a directory"),
            ("pipe", "Not a regular file"),
            ("none", "No such file"),
            ("loop", "Is a symbolic link: name the file that it leads to"),
        ):
            self.assertIn("%s: %s" % (self.at(name), said), self.refused(4, IN_PLACE, self.at(name)))
        self.assertIn("Not a regular file", self.refused(4, IN_PLACE, "/dev/null"))

    def test_a_batch_that_is_started_again(self) -> None:
        """What is UTF-8 already stays, and the rest is converted."""
        done, left, plain = self.put("a", "é".encode()), self.put("b", b"\xe9"), self.put("c", b"e")
        words = ["--from", "windows-1252", "--to", "utf-8"]
        status, out, error = self.run_it(*words, IN_PLACE, done, left, plain)
        said = "%s: left as it was (it is UTF-8 already, and would be encoded twice): --force converts it\n"
        self.assertEqual((status, out, error), (1, "", said % done))
        self.holds(a="é".encode(), b="é".encode(), c=b"e")
        for again in ([IN_PLACE, "--lossy"], ["--backup", "~"]):
            self.assertEqual(self.run_it(*words, *again, done), (1, "", said % done))
        self.assertEqual(self.run_it(*words, IN_PLACE, "--force", done), (0, "", ""))
        self.holds(a="Ã©".encode(), b="é".encode(), c=b"e")


class Names(Programs):
    def test_shown(self) -> None:
        """Each character as `recode-places` shows it, by the plain program that the gate compares it with."""
        for point in (*range(0xD800), *range(0xE000, 0x110000)):
            if shown(chr(point)) != places.shown(point):
                self.fail("U+%04X is shown as %r" % (point, shown(chr(point))))
        self.assertEqual(shown(os.fsdecode(b"a\xff\xe6\x97")), "a<FF><E6><97>")
        self.assertEqual(shown("\ud800"), "<U+D800>")

    def test_names(self) -> None:
        """Of losses, refusals and failures, also where a name is not UTF-8."""
        names = {"a\x1b[2J\n\tb": "a<U+001B>[2J<U+000A> b", "\u202ec": "<U+202E>c", os.fsdecode(b"d\xff"): "d<FF>"}
        for name, told in names.items():
            path, told = self.put(name, BAD), self.at(told)
            status, out, error = self.run_it(IN_PLACE, path)
            self.assertEqual((status, out), (1, "%s: bad 3 1\n%s: lost 3 65533\n" % (told, told)))
            self.assertTrue(error.startswith("%s: left as it was" % told), error)
            self.assertEqual(self.run_it(IN_PLACE, path + "0")[2], "%s0: No such file or directory\n" % told)
            self.assertEqual(self.refused(2, IN_PLACE, path, path), "%s and %s are one file\n" % (told, told))
            for words in (["--into", path, path], ["--from", name, path], ["--mark", name, path], ["--\x1b", path]):
                error = self.run_it(*words)[2]
                self.assertFalse(set("\x1b\t\u202e\udcff") & set(error), error)

    def test_names_of_options(self) -> None:
        """Files whose names begin as options do."""
        self.addCleanup(os.chdir, os.getcwd())
        os.chdir(self.folder)
        self.put("-x", GOOD), self.put("--lossy", BAD), self.put("-", GOOD)
        self.assertEqual(self.run_it(IN_PLACE, "--", "-x", "--lossy", "-")[0], 1)
        self.holds(**{"-x": GOOD_MADE, "--lossy": BAD, "-": GOOD_MADE})

    def test_a_terminal(self) -> None:
        """The line of progress shows names as well."""
        with mock.patch.object(sys, "stderr", io.StringIO()) as error, mock.patch.object(error, "isatty", lambda: True):
            terminal = program.Terminal(1)
            terminal.show("\x1b]0;x\x07", 0.5)
            terminal.clear()
        self.assertEqual(error.getvalue(), "\r\x1b[K1 of 1: <U+001B>]0;x<U+0007> (50%)\r\x1b[K")


class Streams(Programs):
    """Standard output and standard error, as the system hands them to a process."""

    def test_standard_output_fails(self) -> None:
        """What cannot be printed is not lost."""
        self.put("a", BAD), self.put("b", GOOD)
        command = [*COMMAND, IN_PLACE, "--lossy", self.path, self.at("b")]
        with open("/dev/full", "wb") as full:
            ran = subprocess.run(command, env=ENVIRONMENT, stdout=full, stderr=subprocess.PIPE, check=False)
        self.assertEqual((ran.returncode, ran.stderr), (4, b"standard output: No space left on device\n"))
        self.holds(a=BAD, b=GOOD)
        reading, writing = os.pipe()
        os.close(reading)
        with open(writing, "wb") as closed:
            ran = subprocess.run(command, env=ENVIRONMENT, stdout=closed, stderr=subprocess.PIPE, check=False)
        self.assertEqual((ran.returncode, ran.stderr), (4, b"standard output: Broken pipe\n"))
        self.holds(a=BAD, b=GOOD)
        ran = subprocess.run(
            ["sh", "-c", 'exec "$@" >&-', "sh", *command], env=ENVIRONMENT, stderr=subprocess.PIPE, check=False
        )
        self.assertEqual(ran.returncode, 4)
        self.assertIn(b"standard output is closed", ran.stderr)
        self.holds(a=BAD, b=GOOD)

    def test_standard_output_fails_at_the_end(self) -> None:
        """What no line of a loss says is printed before the file is replaced, too."""
        self.put("a", "¥".encode())
        with open("/dev/full", "wb") as full:
            command = [*COMMAND, "--to", "shift_jis", IN_PLACE, "--lossy", self.path]
            ran = subprocess.run(command, env=ENVIRONMENT, stdout=full, stderr=subprocess.PIPE, check=False)
        self.assertEqual((ran.returncode, ran.stderr), (4, b"standard output: No space left on device\n"))
        self.holds(a="¥".encode())

    def test_standard_error_fails(self) -> None:
        """The files that follow are converted, the status is as ever, and no complaint is among the losses."""
        self.put("a", "日".encode())
        for redirected in (">/dev/full", ">&-"):
            self.put("b", GOOD)
            words = ["sh", "-c", 'exec "$@" 2%s' % redirected, "sh", *COMMAND, IN_PLACE, self.path, self.at("b")]
            ran = subprocess.run(words, env=ENVIRONMENT, stdout=subprocess.PIPE, check=False)
            self.assertEqual((ran.returncode, ran.stdout), (1, b"%s: lost 0 26085\n" % self.path.encode()))
            self.holds(a="日".encode(), b=GOOD_MADE)
            ran = subprocess.run([*words, "--to", "none"], env=ENVIRONMENT, stdout=subprocess.PIPE, check=False)
            self.assertEqual((ran.returncode, ran.stdout), (2, b""))

    def test_names_beyond_the_locale(self) -> None:
        """A terminal that has not all characters."""
        path = self.put("日", BAD)
        environment = {**ENVIRONMENT, "PYTHONIOENCODING": "ascii"}
        command = [*COMMAND, IN_PLACE, "--lossy", path]
        ran = subprocess.run(command, env=environment, capture_output=True, check=False)
        self.assertEqual((ran.returncode, ran.stderr), (1, b""))
        self.assertTrue(ran.stdout.endswith(b"/\\u65e5: lost 3 65533\n"), ran.stdout)

    def test_standard_input(self) -> None:
        """A pipe is read by its name; it has no place of its own."""
        command = [*COMMAND, "--into", self.folder, "/dev/stdin"]
        ran = subprocess.run(command, env=ENVIRONMENT, input=GOOD, capture_output=True, check=False)
        self.assertEqual((ran.returncode, ran.stderr), (0, b""))
        self.holds(stdin=GOOD_MADE)
        command = [*COMMAND, "/dev/stdin"]
        ran = subprocess.run(command, env=ENVIRONMENT, input=GOOD, capture_output=True, check=False)
        self.assertEqual((ran.returncode, ran.stdout, ran.stderr), (0, GOOD_MADE, b""))
        command = [*COMMAND, IN_PLACE, "/dev/stdin"]
        ran = subprocess.run(command, env=ENVIRONMENT, input=GOOD, capture_output=True, check=False)
        said = b"/dev/stdin: Is a symbolic link: name the file that it leads to\n"
        self.assertEqual((ran.returncode, ran.stdout, ran.stderr), (4, b"", said))

    def ran(self, *words: str, **streams: object) -> Tuple[int, bytes, bytes]:
        pipes = {"stdout": subprocess.PIPE, "stderr": subprocess.PIPE, **streams}
        ran = subprocess.run([*COMMAND, *words], env=ENVIRONMENT, check=False, **pipes)
        return ran.returncode, ran.stdout, ran.stderr

    def test_standard_output(self) -> None:
        """It takes the conversion of one file, and standard error the losses; the file stays as it is."""
        data, made, count = BAD + GOOD, BAD_MADE + GOOD_MADE, 20_000
        self.put("a", data * count)
        line = "%s: bad %%d 1\n%s: lost %%d 65533\n" % (self.path, self.path)
        lines = "".join(line % (number * len(data) + 3, number * 13 + 3) for number in range(count)).encode()
        for threads in ("1", "3"):
            status, out, error = self.ran("--threads", threads, self.path)
            self.assertTrue((status, out, error) == (1, made * count, lines), (status, out[:99], error[:99]))
        self.assertEqual(self.ran("--lossy", "--force", self.put("b", GOOD)), (0, GOOD_MADE, b""))
        self.assertEqual(self.ran(self.put("c", b"")), (0, b"", b""))
        error = b"%s: some characters do not read back\n" % self.put("d", "¥".encode()).encode()
        self.assertEqual(self.ran("--to", "shift_jis", self.at("d")), (1, b"\\", error))
        status, out, error = self.ran("--unmappable", "stop", self.put("e", "é日".encode()))
        self.assertEqual((status, out, error.count(b"\n")), (4, b"", 2))
        self.assertEqual(self.ran(self.at("none"))[:2], (4, b""))
        self.assertEqual(self.ran(self.folder)[:2], (4, b""))
        self.holds(a=data * count, b=GOOD, c=b"", d="¥".encode(), e="é日".encode())

    def test_standard_output_that_is_the_input(self) -> None:
        """It would never end."""
        self.put("a", GOOD)
        for mode in ("ab", "r+b"):
            with open(self.path, mode) as output:
                found = self.ran(self.path, stdout=output)
            self.assertEqual(found, (2, None, b"%s is standard output, too\n" % self.path.encode()))
        self.holds(a=GOOD)

    def test_standard_output_fails_in_a_conversion(self) -> None:
        self.put("a", BAD)
        with open("/dev/full", "wb") as full:
            status, _, error = self.ran(self.path, stdout=full)
            self.assertEqual((status, error.splitlines()[-1]), (4, b"standard output: No space left on device"))
            self.assertEqual(self.ran(self.path, stderr=full)[0], 4)
        for closed in (">&-", "2>&-"):
            words = ["sh", "-c", 'exec "$@" %s' % closed, "sh", *COMMAND, self.path]
            ran = subprocess.run(words, env=ENVIRONMENT, capture_output=True, check=False)
            self.assertEqual((ran.returncode, ran.stdout), (4, b""))

    def in_the_middle(self, number: int, before: Sequence[str] = (), after: Sequence[str] = ()) -> Tuple[int, bytes]:
        """The status of the program that a signal meets while it waits to print more, of a file between others, and what
        it leaves to standard error."""

        def heed() -> None:
            # What starts the tests may ignore them, as nohup does, and so would the program.
            for ignored in (signal.SIGINT, signal.SIGTERM, signal.SIGHUP):
                signal.signal(ignored, signal.SIG_DFL)

        pipes = {"stdout": subprocess.PIPE, "stderr": subprocess.PIPE, "preexec_fn": heed}
        command = [*COMMAND, IN_PLACE, "--lossy", *before, self.path, *after]
        with subprocess.Popen(command, env=ENVIRONMENT, **pipes) as process:
            end = time.monotonic() + PATIENCE
            while not self.is_begun(process.pid) and time.monotonic() < end:
                time.sleep(0.01)
            time.sleep(0.2)
            self.assertEqual(Path(self.path).read_bytes(), b"\xff" * 100000)
            process.send_signal(number)
            error = process.communicate(timeout=PATIENCE)[1]
        return process.returncode, error

    def test_signals(self) -> None:
        """The file is as it was, and nothing stands beside it."""
        self.put("a", b"\xff" * 100000)
        for number in (signal.SIGINT, signal.SIGTERM, signal.SIGHUP):
            said = b"interrupted: 0 of 1 files are converted, the others are as they were\n"
            self.assertEqual(self.in_the_middle(number), (128 + number, said))
            self.holds(a=b"\xff" * 100000)
        self.assertEqual(self.in_the_middle(signal.SIGKILL), (-signal.SIGKILL, b""))
        self.assertEqual(Path(self.path).read_bytes(), b"\xff" * 100000)

    def is_begun(self, process: int) -> bool:
        """Whether the program writes a file beside the one that it waits at."""
        folder = "/proc/%d/fd" % process
        for name in os.listdir(folder):
            # It may be closed meanwhile.
            with contextlib.suppress(FileNotFoundError):
                if ".jillapun-" in os.readlink(os.path.join(folder, name)):
                    return True
        return False

    def test_a_batch_that_is_interrupted(self) -> None:
        """Those that are done are listed; those that stay as they are do not count as done."""
        self.put("a", b"\xff" * 100000)
        before, after = [self.put("b\x1b", GOOD), self.put("c", GOOD), self.at("none")], [self.put("d", GOOD)]
        status, error = self.in_the_middle(signal.SIGTERM, before, after)
        lines = ["%s: No such file or directory" % self.at("none")]
        lines += ["interrupted: 2 of 5 files are converted, the others are as they were"]
        lines += ["converted: %s" % self.at("b<U+001B>"), "converted: %s" % self.at("c")]
        self.assertEqual((status, error.decode().splitlines()), (128 + signal.SIGTERM, lines))
        self.holds(**{"a": b"\xff" * 100000, "b\x1b": GOOD_MADE, "c": GOOD_MADE, "d": GOOD})

    def test_an_interruption_at_the_last_moment(self) -> None:
        """A file that is replaced counts as done, also if the call that did it does not return."""
        self.put("a", GOOD)
        replace = os.replace

        def interrupted(*words: str, **folders: int) -> None:
            replace(*words, **folders)
            raise KeyboardInterrupt

        for words in ([IN_PLACE], ["--backup", "~"], ["--into", self.at("o")]):
            self.put("a", GOOD)
            error = io.StringIO()
            with mock.patch("os.replace", interrupted), contextlib.redirect_stderr(error):
                self.assertRaises(KeyboardInterrupt, program.main, [*WORDS, *words, self.path])
            self.assertIn("interrupted: 1 of 1 files are converted", error.getvalue())
            self.assertIn("converted: %s\n" % self.path, error.getvalue())
        self.assertEqual(Path(self.at("a~")).read_bytes(), GOOD)

    def test_a_disk_that_is_full(self) -> None:
        self.put("a", "日".encode() * 30000)

        def limit() -> None:
            resource.setrlimit(resource.RLIMIT_FSIZE, (100000, 100000))

        command = [*COMMAND, IN_PLACE, "--lossy", self.path]
        ran = subprocess.run(command, env=ENVIRONMENT, preexec_fn=limit, capture_output=True, check=False)
        self.assertEqual((ran.returncode, ran.stderr), (4, b"%s: File too large\n" % os.fsencode(self.path)))
        self.holds(a="日".encode() * 30000)


class Memory(Folder):
    """Whatever is lost takes no memory that stays."""

    PARTS = {
        "the program": "program.main(['--from', 'utf-8', '--to', 'utf-8', '--in-place', '--lossy', path])",
        "a file": "jillapun.convert_file(path, path + '.made', 'shift_jis', 'utf-8', on_loss=id, keep_losses=9)",
        "which": "jillapun.which(path)",
        "places": "program.main(['places', '--from', 'utf-8', '--to', 'big5', path])",
        "a reader": "file = jillapun.open(path, encoding='utf-8', on_loss=id)\nwhile file.read(1 << 16): pass",
        "a decoder": "code = jillapun.Decoder('utf-8')\nfor _ in range(size >> 10): code.decode(b'\\xff' * 1024)",
        "an encoder": "code = jillapun.Encoder('big5')\nfor _ in range(size >> 10): code.encode('é' * 1024)",
        "a converter": "code = jillapun.Converter('utf-8', 'big5')\n"
        "for _ in range(size >> 10): code.convert(b'\\xff' * 1024)",
    }

    def test_memory(self) -> None:
        """The greatest use after a million losses is that after some thousands."""
        for name, code in self.PARTS.items():
            lines = ["import jillapun, resource, sys", "from jillapun import __main__ as program", "path = sys.argv[1]"]
            for size in (1 << 16, 1 << 20):
                lines += ["size = %d" % size, "with open(path, 'wb') as file: file.write(b'\\xff' * size)", code]
                lines.append("print(resource.getrusage(resource.RUSAGE_SELF).ru_maxrss, file=sys.stderr)")
            command = [sys.executable, "-c", "\n".join(lines), self.path]
            pipes = {"stdout": subprocess.DEVNULL, "stderr": subprocess.PIPE}
            ran = subprocess.run(command, env=ENVIRONMENT, text=True, check=True, **pipes)
            before, after = map(int, ran.stderr.split())
            # In KiB: the file itself is 1 MiB, and objects of a million losses are 100.
            self.assertLess(after - before, 8192, name)


class Documents(Folder):
    EXAMPLES = os.path.join(cases.TOP, "docs/examples/python")

    def ran(self, name: str, *words: str) -> Tuple[int, str, str]:
        """Status, standard output and standard error of an example."""
        command = [sys.executable, os.path.join(self.EXAMPLES, name), *words]
        ran = subprocess.run(command, env=ENVIRONMENT, capture_output=True, text=True, check=False)
        return ran.returncode, ran.stdout, ran.stderr

    def test_a_folder(self) -> None:
        """With the folders in it; the outputs may be put in one of them, and are no inputs of the next run."""
        os.makedirs(self.at("given/in/deep"))
        for name in ("0", "in/1", "in/deep/0"):
            self.put("given/" + name, "日".encode("cp932") + b"\xff" * (name == "in/1"))
        lines = ["0: nothing was lost", "in/1: malformed sequences: 1, characters without bytes: 0", "  bad 2 1"]
        lines += ["in/deep/0: nothing was lost"]
        for into in ("into", "given/in/out", "given/in/out"):
            status, out, error = self.ran("convert_folder.py", "sjis", "utf-8", self.at("given"), self.at(into))
            self.assertEqual((status, out.splitlines(), error), (1, lines, ""))
            made = {str(path.relative_to(self.at(into))) for path in Path(self.at(into)).rglob("*") if path.is_file()}
            self.assertEqual(made, {"0", "in/1", "in/deep/0"})
        self.assertEqual(Path(self.at("into/in/1")).read_bytes(), "日\ufffd".encode())

    def test_a_folder_that_fails(self) -> None:
        """No file at all, one that can't be written, an unknown label, and the files in their own place."""
        os.makedirs(self.at("given/in"))
        words = "sjis", "utf-8", self.at("given"), self.at("into")
        status, out, error = self.ran("convert_folder.py", *words)
        self.assertEqual((status, out, error), (4, "", "%s: there is no file to convert\n" % self.at("given")))
        self.put("given/a", b"a"), self.put("given/b", b"b")
        os.makedirs(self.at("into/a"))
        status, out, error = self.ran("convert_folder.py", *words)
        self.assertEqual((status, out), (4, "b: nothing was lost\n"))
        self.assertIn("a: [Errno %d]" % errno.EISDIR, error)
        self.assertEqual(self.ran("convert_folder.py", "none", *words[1:])[0], 4)
        status, out, error = self.ran("convert_folder.py", *words[:3], self.at("given/../given"))
        self.assertEqual((status, out), (4, ""))

    def test_a_session(self) -> None:
        """The commands of docs/PYTHON.md on files in unknown encodings print what stands there."""
        text = Path(cases.TOP, "docs/PYTHON.md").read_text(encoding="utf-8")
        lines = text.split("## Files in unknown encodings")[1].split("\n## ")[0].splitlines()
        shown = [line[4:] for line in lines if line.startswith("    ")]
        prices = "name;price\nCafé;3 €\n"
        self.put("april.csv", b"\xff\xfe" + prices.encode("utf-16-le")), self.put("march.csv", b"name;price\nTea;3\n")
        self.put("february.csv", prices.encode("cp1252")), self.put("january.csv", prices.encode())
        self.put("may.csv", "品名;価格\nりんご;3".encode("cp932") + b"\xff\n" + "みかん;4\nぶどう;5\n".encode("cp932"))
        os.mkdir(self.at("bin"))
        self.put("bin/jillapun", b'#!/bin/sh\nexec "%s" -m jillapun "$@"\n' % os.fsencode(sys.executable))
        os.chmod(self.at("bin/jillapun"), 0o755)
        environment = {**ENVIRONMENT, "PATH": self.at("bin") + os.pathsep + os.environ["PATH"]}
        said = []
        for line in shown:
            if line.startswith("$ "):
                streams = {"stdout": subprocess.PIPE, "stderr": subprocess.STDOUT, "text": True, "cwd": self.folder}
                ran = subprocess.run(["bash", "-c", line[2:]], env=environment, check=False, **streams)
                said += [line, *ran.stdout.splitlines()]
        self.assertEqual(said, shown)
        self.assertEqual(Path(self.at("new/february.csv")).read_bytes(), prices.encode())
        self.assertEqual(Path(self.at("february.csv")).read_bytes(), prices.encode())

    def test_a_verdict(self) -> None:
        self.put("a", "日".encode("cp932") + b"\xff")
        counts = "malformed sequences: 1, characters without bytes: 0"
        self.assertEqual(self.ran("verdict.py", "sjis", "utf-8", self.path, self.at("b")), (0, counts + "\n", ""))
        self.assertEqual(Path(self.at("b")).read_bytes(), "日\ufffd".encode())


class Files(Programs):
    def test_files(self) -> None:
        self.folders("into")
        good, bad, into = self.put("good", "日".encode("cp932")), self.put("bad", b"a\xffb"), self.at("into")
        words = ["--from", "sjis", "--to", "utf-8"]
        self.assertEqual(self.run_it(*words, "--into", into, good, bad), (1, "%s: bad 1 1\n" % bad, ""))
        self.assertEqual(Path(into, "good").read_bytes(), "日".encode())
        self.assertEqual(Path(into, "bad").read_bytes(), "a\ufffdb".encode())
        self.assertEqual(self.run_it("--from", "none", good)[0], 2)
        self.assertEqual(self.run_it(self.at("none"))[0], 4)
        self.assertEqual(self.run_it(*words, "--indexes", self.folder, "--into", into, good)[0], 3)

    def test_labels(self) -> None:
        """The message names the option, the label and where labels are listed."""
        path = self.put("a", GOOD)
        for option in ("--from", "--to"):
            error = self.refused(2, option, "no\x1bne", path)
            self.assertEqual(error, '%s: unknown label no<U+001B>ne; "jillapun labels" lists all\n' % option)

    def test_indexes(self) -> None:
        """The message names the folder and the option."""
        self.folders("o")
        path = self.put("a", GOOD)
        error = self.refused(3, "--from", "sjis", "--indexes", self.at("o"), "--into", self.at("o"), path)
        self.assertIn("--indexes names the folder of the index texts, now %s\n" % self.at("o"), error)

    def test_version(self) -> None:
        """That of the programs, which stands beside them."""
        status, out, error = self.run_it("--version")
        self.assertEqual((status, out, error), (0, "jillapun %s\n" % jillapun.__version__, ""))
        source = Path(cases.TOP, "crates/recode_words/src/command.rt")
        if source.exists():
            self.assertIn('const VERSION: &str = "%s"' % jillapun.__version__, source.read_text(encoding="utf-8"))


if __name__ == "__main__":
    unittest.main()
