"""Files that are converted into others or in their own place: after whatever happens no original is lost unsaid."""

import contextlib
import ctypes
import errno
import os
import stat
import struct
import subprocess
import sys
import tempfile
import time
import unittest
from pathlib import Path
from typing import Iterator, List, Optional
from unittest import mock

import cases
import jillapun

# Bytes of UTF-8, and the same text in windows-1252; and bytes that are no UTF-8, and what they become there.
GOOD, GOOD_MADE = "déjà vu\n".encode(), "déjà vu\n".encode("cp1252")
BAD, BAD_MADE = b"caf\xe9\n", b"caf&#65533;\n"

# The number of the system call on x86-64, whose flag 2 exchanges two names.
RENAMEAT2 = 316

# A user whom permissions bind.
NOBODY = 65534


def twice(data: bytes) -> bytes:
    """The bytes, read in windows-1252 as the standard has it, in UTF-8."""
    return b"".join(bytes([byte]).decode("cp1252", "ignore").encode() or chr(byte).encode() for byte in data)


@contextlib.contextmanager
def somebody() -> Iterator[None]:
    """Not as root."""
    if os.geteuid():
        yield
        return
    os.seteuid(NOBODY)
    try:
        yield
    finally:
        os.seteuid(0)


class Folder(unittest.TestCase):
    """Tests in a folder of their own."""

    def setUp(self) -> None:
        folder = tempfile.TemporaryDirectory()
        self.addCleanup(folder.cleanup)
        self.folder = os.path.realpath(folder.name)
        os.chmod(self.folder, 0o777)
        self.path = self.at("a")

    def at(self, name: str) -> str:
        return os.path.join(self.folder, name)

    def put(self, name: str, data: bytes) -> str:
        Path(self.at(name)).write_bytes(data)
        return self.at(name)

    def holds(self, **files: bytes) -> None:
        """These files are there, with what they hold, and no others."""
        found = {name: Path(self.at(name)).read_bytes() for name in os.listdir(self.folder)}
        self.assertEqual(found, files)

    def convert(self, *paths: str, **options: object) -> jillapun.ConvertedFile:
        """From UTF-8 to windows-1252, in its own place if there is one path."""
        options.setdefault("in_place", len(paths) == 1)
        return jillapun.convert_file(paths[0], paths[-1], "utf-8", "windows-1252", **options)


class InPlace(Folder):
    def test_nothing_is_lost(self) -> None:
        self.put("a", GOOD)
        self.assertEqual(self.convert(self.path), (len(GOOD), 0, 0, True, [], 8))
        self.holds(a=GOOD_MADE)

    def test_something_would_be_lost(self) -> None:
        """The file stays, and what is lost was reported."""
        self.put("a", BAD + GOOD)
        told = []
        with self.assertRaisesRegex(jillapun.NotReplaced, "malformed sequences: 1, characters without bytes: 1") as it:
            self.convert(self.path, on_loss=told.append)
        self.assertEqual(it.exception.done, (len(BAD + GOOD), 1, 1, False, [], 13))
        self.assertEqual(told, [jillapun.Bad(3, 1), jillapun.Lost(3, "\ufffd")])
        self.holds(a=BAD + GOOD)

    def test_characters_that_do_not_read_back(self) -> None:
        """No loss is reported of them, and still the file stays."""
        self.put("a", "1¥".encode())
        with self.assertRaisesRegex(jillapun.NotReplaced, "some characters do not read back"):
            jillapun.convert_file(self.path, self.path, "utf-8", "shift_jis", in_place=True)
        self.holds(a="1¥".encode())
        done = jillapun.convert_file(self.path, self.path, "utf-8", "shift_jis", in_place=True, lossy=True)
        self.assertEqual(done[1:4], (0, 0, False))
        self.holds(a=b"1\\")

    def test_lossy(self) -> None:
        self.put("a", BAD)
        self.assertEqual(self.convert(self.path, lossy=True, keep_losses=1), (len(BAD), 1, 1, False, [(3, 1)], 5))
        self.holds(a=BAD_MADE)

    def test_backup(self) -> None:
        """Nothing is lost where the original is kept."""
        for data, made in ((GOOD, GOOD_MADE), (BAD, BAD_MADE)):
            self.put("a", data)
            os.utime(self.path, ns=(1, 2))
            os.chmod(self.path, 0o640)
            self.convert(self.path, backup="~")
            self.holds(**{"a": made, "a~": data})
            status = os.stat(self.at("a~"))
            self.assertEqual((status.st_mtime_ns, stat.S_IMODE(status.st_mode)), (2, 0o640))
            os.unlink(self.at("a~"))

    def test_backup_that_is_there(self) -> None:
        self.put("a", BAD), self.put("a.old", GOOD)
        for lossy in (False, True):
            with self.assertRaises(FileExistsError) as it:
                self.convert(self.path, backup=".old", lossy=lossy)
            self.assertEqual(it.exception.filename, self.at("a.old"))
        self.holds(**{"a": BAD, "a.old": GOOD})

    def test_backup_that_comes_to_be(self) -> None:
        """Another program makes a file of its name in the meantime."""
        self.put("a", BAD)
        with self.assertRaises(FileExistsError) as it:
            self.convert(self.path, backup="~", progress=lambda _: self.put("a~", b"theirs"))
        self.assertEqual(str(it.exception), "[Errno %d] File exists: %r" % (errno.EEXIST, self.at("a~")))
        self.holds(**{"a": BAD, "a~": b"theirs"})

    def test_backup_without_links(self) -> None:
        """Where the file system has no hard links, the original is copied, with its times and permissions."""
        self.put("a", BAD)
        os.utime(self.path, ns=(1, 2))
        os.chmod(self.path, 0o640)
        with mock.patch("os.link", side_effect=OSError(errno.EPERM, "no links")):
            self.convert(self.path, backup="~")
            self.holds(**{"a": BAD_MADE, "a~": BAD})
            status = os.stat(self.at("a~"))
            self.assertEqual((status.st_mtime_ns, stat.S_IMODE(status.st_mode)), (2, 0o640))
            self.put("a", GOOD)
            self.assertRaises(FileExistsError, self.convert, self.path, backup="~")
        self.holds(**{"a": GOOD, "a~": BAD})

    def test_backup_of_what_is_not_replaced(self) -> None:
        """Where the last move fails, the file is as it was, and there is no backup."""
        self.put("a", BAD)
        with mock.patch("os.replace", side_effect=OSError(errno.EBUSY, "busy")):
            self.assertRaises(OSError, self.convert, self.path, backup="~")
        self.holds(a=BAD)

    def test_suffix(self) -> None:
        self.put("a", BAD)
        for suffix in ("", "/", "x/y", "/etc/passwd"):
            self.assertRaises(ValueError, self.convert, self.path, backup=suffix)
        self.assertRaises(OSError, self.convert, self.path, backup="x" * 300)
        self.holds(a=BAD)

    def test_it_has_to_be_asked_for(self) -> None:
        """By `in_place` or `backup`; what else is given does not matter."""
        self.put("a", GOOD)
        for options in ({}, {"lossy": True}, {"force": True}):
            with self.assertRaisesRegex(jillapun.JillapunError, "in_place=True"):
                self.convert(self.path, self.path, **options)
        self.put("b", GOOD)
        self.assertRaises(ValueError, self.convert, self.path, self.at("b"), in_place=True)
        self.assertRaises(ValueError, self.convert, self.path, self.at("c"), in_place=True)
        self.holds(a=GOOD, b=GOOD)

    def test_other_paths_to_the_file(self) -> None:
        """By a hard link, another spelling or a link to the source it is the same file."""
        self.put("a", BAD)
        os.symlink("a", self.at("link"))
        os.link(self.path, self.at("hard"))
        names = ("a", "hard", "../%s/a" % os.path.basename(self.folder))
        for one in (*names, "link"):
            for other in names:
                words = self.at(one), self.at(other)
                self.assertRaisesRegex(jillapun.JillapunError, "in_place=True", self.convert, *words)
                self.assertRaises(jillapun.NotReplaced, self.convert, *words, in_place=True)
        self.holds(a=BAD, link=BAD, hard=BAD)
        self.assertTrue(os.path.samefile(self.path, self.at("hard")))

    def test_a_link_is_refused(self) -> None:
        """What it leads to stays as it is. Links to folders on the way to the file are followed."""
        os.mkdir(self.at("in"))
        self.put("in/a", GOOD)
        os.symlink("in/a", self.path)
        os.symlink("in", self.at("folder"))
        for options in ({}, {"lossy": True}, {"backup": "~"}):
            with self.assertRaisesRegex(OSError, "Is a symbolic link: name the file") as it:
                self.convert(self.path, **options)
            self.assertEqual((it.exception.errno, it.exception.filename), (errno.ELOOP, self.path))
        os.link(self.at("in/a"), self.at("hard"))
        self.convert(self.at("folder/a"), backup="~")
        self.assertEqual((os.readlink(self.path), os.readlink(self.at("folder"))), ("in/a", "in"))
        self.assertEqual(sorted(os.listdir(self.at("in"))), ["a", "a~"])
        found = [Path(self.at(name)).read_bytes() for name in ("in/a", "in/a~", "hard")]
        self.assertEqual(found, [GOOD_MADE, GOOD, GOOD])

    def test_utf_8_is_not_encoded_twice(self) -> None:
        """Not from an encoding in which any bytes are text, nor from one in which these bytes happen to be."""
        data = "é 日本\n".encode()
        for source in ("windows-1252", "koi8-r", "ibm866", "x-user-defined", "gbk", "shift_jis", "utf-16le"):
            for target in ("utf-8", "utf-16le"):
                for options in ({"in_place": True}, {"in_place": True, "lossy": True}, {"backup": "~"}, {"threads": 3}):
                    self.put("a", data)
                    words = self.path, self.path, source, target
                    with self.assertRaisesRegex(jillapun.AlreadyUtf8, "force=True"):
                        jillapun.convert_file(*words, **{"in_place": True, **options})
                    self.holds(a=data)
        jillapun.convert_file(self.path, self.path, "windows-1252", "utf-8", in_place=True, force=True)
        self.holds(a=twice(data))

    def test_ascii_is_not_read_in_pairs(self) -> None:
        """ASCII is UTF-8 already where UTF-16 would be read; an empty file, or one with NUL bytes, is not."""
        for data, made in ((b"price", None), (b"", b""), (b"a\0b\0", b"ab")):
            self.put("a", data)
            words = self.path, self.path, "utf-16le", "utf-8"
            if made is None:
                self.assertRaises(jillapun.AlreadyUtf8, jillapun.convert_file, *words, in_place=True)
            else:
                jillapun.convert_file(*words, in_place=True)
            self.holds(a=data if made is None else made)

    def test_what_is_no_utf_8_yet(self) -> None:
        """ASCII, other bytes, a sequence that ends too early, also in a second chunk; a mark, which names UTF-8; and
        other outputs and other places."""
        chunk = b"x" * 65535
        for data in (b"", b"abc", b"caf\xe9", b"\xc3", chunk + b"\xc3", chunk + b"\xc3\xa9\xff"):
            self.put("a", data)
            jillapun.convert_file(self.path, self.path, "windows-1252", "utf-8", in_place=True)
            self.holds(a=twice(data))
        self.put("a", chunk + "é".encode())
        words = self.path, self.path, "windows-1252", "utf-8"
        self.assertRaises(jillapun.AlreadyUtf8, jillapun.convert_file, *words, in_place=True)
        self.put("a", b"\xef\xbb\xbf" + "é".encode())
        self.assertRaises(jillapun.AlreadyUtf8, jillapun.convert_file, *words, in_place=True, mark="keep")
        jillapun.convert_file(*words, in_place=True)
        self.holds(a="é".encode())
        jillapun.convert_file(self.path, self.path, "utf-8", "utf-8", in_place=True)
        jillapun.convert_file(self.path, self.at("b"), "windows-1252", "utf-8")
        self.holds(a="é".encode(), b=twice("é".encode()))
        jillapun.convert_file(self.path, self.path, "windows-1252", "iso-8859-15", in_place=True)

    def test_a_name_that_is_swapped(self) -> None:
        """Somebody exchanges the file again and again with a link to a secret: it stays as it is, whatever is asked
        for, and each call converts the file or raises an error."""
        secret, ends, folder = self.put("secret", BAD), [], self.at("in")
        os.mkdir(folder)
        before, words = os.stat(secret), (os.path.join(folder, "a"), os.path.join(folder, "b"))
        code = "import ctypes; call = ctypes.CDLL(None).syscall\nwhile True: call(%d, -100, b'a', -100, b'b', 2)"
        with subprocess.Popen([sys.executable, "-c", code % RENAMEAT2], cwd=folder) as swaps:
            try:
                end = time.monotonic() + 60
                while len(ends) < 40 or not any(ends) and time.monotonic() < end:
                    for path in words:
                        Path(path).unlink(missing_ok=True)
                    Path(words[0]).write_bytes(BAD)
                    os.symlink("../secret", words[1])
                    options = {"in_place": True} if len(ends) % 2 else {"backup": "~%d" % len(ends)}
                    try:
                        jillapun.convert_file(words[0], words[0], "koi8-r", "windows-1251", **options)
                        ends.append(None)
                    except (OSError, jillapun.JillapunError) as fault:
                        ends.append(type(fault))
                    after = os.stat(secret)
                    self.assertEqual((after.st_mtime_ns, after.st_uid), (before.st_mtime_ns, before.st_uid))
            finally:
                swaps.kill()
        self.assertEqual(Path(secret).read_bytes(), BAD)
        self.assertLessEqual(set(ends), {None, OSError, jillapun.JillapunError})
        self.assertTrue(any(ends))
        self.assertFalse(any(name.startswith(".jillapun-") for name in os.listdir(folder)))

    def test_a_name_that_is_swapped_at_each_moment(self) -> None:
        """The same, once, before each call that could be misled; first the name is that of the file, or of the link."""
        for call in ("os.open", "os.stat", "os.fstat", "os.fsync", "os.link", "os.replace"):
            for moment in range(5):
                for backup, is_link in ((None, False), ("~", False), (None, True)):
                    self.swapped_at(call, moment, backup, is_link)

    def swapped_at(self, call: str, moment: int, backup: Optional[str], is_link: bool) -> None:
        with tempfile.TemporaryDirectory(dir=self.folder) as folder:
            path, other, secret = (os.path.join(folder, name) for name in ("a", "b", "secret"))
            Path(path).write_bytes(GOOD)
            Path(secret).write_bytes(b"secret")
            os.symlink("secret", other)
            real, left = eval(call), [moment]

            def exchange() -> None:
                self.assertEqual(ctypes.CDLL(None).syscall(RENAMEAT2, -100, path.encode(), -100, other.encode(), 2), 0)

            def swap(*words: object, **options: object) -> object:
                if not left[0]:
                    exchange()
                left[0] -= 1
                return real(*words, **options)

            if is_link:
                exchange()
            with mock.patch(call, swap), contextlib.suppress(OSError, jillapun.JillapunError):
                self.convert(path, backup=backup)
            files = {name: Path(folder, name) for name in os.listdir(folder)}
            found = {name: file.read_bytes() for name, file in files.items() if not file.is_symlink()}
            # The secret is where it was, and neither written nor read: there is no other file with what it holds.
            self.assertEqual([name for name in found if b"secret" in found[name]], ["secret"], (call, moment, backup))
            self.assertEqual(found.pop("secret"), b"secret")
            self.assertLessEqual(set(found), {"a", "b", "a~"})
            self.assertIn(GOOD if GOOD in found.values() else GOOD_MADE, found.values())

    def test_a_link_that_comes_to_be(self) -> None:
        """There was no file of the name at first: what the link leads to is not read."""
        self.put("secret", GOOD)
        stat_of = os.stat

        def found(*words: object, **options: object) -> os.stat_result:
            try:
                return stat_of(*words, **options)
            except FileNotFoundError:
                os.symlink("secret", self.path)
                raise

        for options in ({"in_place": True}, {"backup": "~"}):
            with mock.patch("os.stat", found):
                self.assertRaises(FileNotFoundError, self.convert, self.path, **options)
            os.unlink(self.path)
        self.holds(secret=GOOD)

    def test_attributes(self) -> None:
        """Permissions and extended attributes stay, and the time is that of the change."""
        self.put("a", GOOD)
        os.utime(self.path, ns=(1, 2))
        for mode in (0o600, 0o644, 0o4751, 0o2664):
            self.put("a", GOOD)
            os.chmod(self.path, mode)
            has_attributes = True
            try:
                os.setxattr(self.path, "user.test", b"kept")
            except OSError:
                has_attributes = False
            before = os.stat(self.path)
            os.utime(self.path, ns=(1, 2))
            self.convert(self.path)
            after = os.stat(self.path)
            self.assertEqual(
                (after.st_mode, after.st_uid, after.st_gid), (before.st_mode, before.st_uid, before.st_gid)
            )
            self.assertGreaterEqual(after.st_mtime_ns, before.st_mtime_ns)
            if has_attributes:
                self.assertEqual(os.getxattr(self.path, "user.test"), b"kept")

    @unittest.skipIf(os.geteuid(), "only root may give files away")
    def test_owner(self) -> None:
        self.put("a", GOOD)
        os.chown(self.path, NOBODY, 12345)
        os.chmod(self.path, 0o4660)
        self.convert(self.path)
        status = os.stat(self.path)
        self.assertEqual((status.st_uid, status.st_gid, stat.S_IMODE(status.st_mode)), (NOBODY, 12345, 0o4660))

    @unittest.skipIf(os.geteuid(), "only root may give files away")
    def test_owner_that_cannot_be_kept(self) -> None:
        """The file of another: the group may then do what all may, and no program runs as the wrong user."""
        for mode, kept in ((0o660, 0o600), (0o6664, 0o644), (0o642, 0o622)):
            self.put("a", GOOD)
            os.chown(self.path, 12345, 12345)
            os.chmod(self.path, mode | 0o006)
            with somebody():
                self.convert(self.path)
            status = os.stat(self.path)
            self.assertEqual((status.st_uid, oct(stat.S_IMODE(status.st_mode))), (NOBODY, oct(kept | 0o066)))
            os.unlink(self.path)

    def test_no_one_else_reads_what_is_not_done(self) -> None:
        self.put("a", GOOD)
        modes = []

        def look(_: int) -> None:
            modes.extend(
                stat.S_IMODE(os.stat(self.at(name)).st_mode) for name in os.listdir(self.folder) if name != "a"
            )

        self.convert(self.path, progress=look)
        self.assertEqual(set(modes), {0o600})

    def test_what_is_moved_is_on_the_disk(self) -> None:
        """It is synced before it is moved, and the folder after; so is a new file."""
        for target in ("a", "b"):
            self.put("a", GOOD)
            synced: List[object] = []
            sync, replace = os.fsync, os.replace

            def note_sync(descriptor: int) -> None:
                synced.append(stat.S_IFMT(os.fstat(descriptor).st_mode))
                sync(descriptor)

            def note_move(*words: str, **folders: int) -> None:
                synced.append("moved")
                replace(*words, **folders)

            with mock.patch("os.fsync", note_sync), mock.patch("os.replace", note_move):
                self.convert(self.path, self.at(target), in_place=target == "a")
            self.assertEqual(synced, [stat.S_IFREG, "moved", stat.S_IFDIR])
        self.holds(a=GOOD, b=GOOD_MADE)

    def test_a_folder_that_is_not_synced(self) -> None:
        """The error says that the output is in its place. Where a file system can't sync folders, there is none."""
        sync = os.fsync
        for number in (errno.EIO, errno.ENOSPC, errno.EINVAL):
            for target in ("a", "b"):
                self.put("a", GOOD)

                def fail(descriptor: int) -> None:
                    if stat.S_ISDIR(os.fstat(descriptor).st_mode):
                        raise OSError(number, os.strerror(number))
                    sync(descriptor)

                with mock.patch("os.fsync", fail):
                    if number == errno.EINVAL:
                        self.convert(self.path, self.at(target), in_place=target == "a")
                    else:
                        with self.assertRaisesRegex(OSError, "is in its place") as it:
                            self.convert(self.path, self.at(target), in_place=target == "a")
                        self.assertEqual((it.exception.errno, it.exception.filename), (number, self.folder))
                self.assertEqual(Path(self.at(target)).read_bytes(), GOOD_MADE)

    def test_no_file(self) -> None:
        """A folder, a pipe, a device, a loop of links, and nothing."""
        os.mkdir(self.at("in"))
        os.mkfifo(self.at("pipe"))
        os.symlink("loop", self.at("loop"))
        os.symlink("none", self.at("dangling"))
        for name in ("in", "in/", ".", "..", "in/..", "pipe", "loop", "dangling", "none", "none/", "none/.", ""):
            with self.subTest(name=name):
                self.assertRaises(OSError, self.convert, self.at(name))
        for device in ("/dev/null", "/dev/full", "/dev/tty"):
            self.assertRaises(OSError, self.convert, device)
        self.assertEqual(sorted(os.listdir(self.folder)), ["dangling", "in", "loop", "pipe"])

    def test_a_protected_file(self) -> None:
        self.put("a", GOOD)
        os.chmod(self.path, 0o444)
        with somebody():
            self.assertRaises(PermissionError, self.convert, self.path, lossy=True)
        self.holds(a=GOOD)

    def test_a_protected_folder(self) -> None:
        os.mkdir(self.at("in"))
        self.put("in/a", GOOD)
        os.chmod(self.at("in/a"), 0o666)
        os.chmod(self.at("in"), 0o555)
        with somebody(), self.assertRaises(PermissionError) as it:
            self.convert(self.at("in/a"))
        self.assertEqual(it.exception.filename, self.at("in"))
        self.assertEqual(Path(self.at("in/a")).read_bytes(), GOOD)

    def test_a_file_that_changes(self) -> None:
        """What another program writes in the meantime is not thrown away."""
        for moment in (1, 2):
            self.put("a", GOOD)
            calls = []

            def add(read: int) -> None:
                calls.append(read)
                if len(calls) == moment:
                    with open(self.path, "ab") as file:
                        file.write(b"more")

            self.assertRaisesRegex(jillapun.JillapunError, "changed", self.convert, self.path, progress=add)
            self.holds(a=GOOD + b"more")
        with self.assertRaisesRegex(jillapun.JillapunError, "replaced the file in the meantime"):
            self.convert(self.path, progress=lambda _: os.replace(self.put("b", BAD), self.path))
        self.holds(a=BAD)

    def test_a_file_that_vanishes(self) -> None:
        self.put("a", GOOD)
        with self.assertRaisesRegex(jillapun.JillapunError, "in the meantime"):
            self.convert(self.path, progress=lambda _: Path(self.path).unlink(missing_ok=True))
        self.holds()

    def test_a_folder_that_hands_down_readers(self) -> None:
        """Its default access control list would let user 1234 read and write what is made in it."""
        self.put("a", GOOD)
        os.chmod(self.path, 0o660)
        rows = (1, 7, -1), (2, 7, 1234), (4, 7, -1), (0x10, 7, -1), (0x20, 0, -1)
        words = struct.pack("<I", 2) + b"".join(struct.pack("<HHi", *row) for row in rows)
        try:
            os.setxattr(self.folder, "system.posix_acl_default", words)
        except OSError:
            self.skipTest("the file system has no access control lists")
        self.convert(self.path, backup="~")
        self.holds(**{"a": GOOD_MADE, "a~": GOOD})
        self.assertEqual((os.listxattr(self.path), stat.S_IMODE(os.stat(self.path).st_mode)), ([], 0o660))

    def attribute_calls(self) -> list:
        """The call that gives a file the extended attributes of another, where it is made."""
        try:
            os.setxattr(self.path, "user.test", b"kept")
        except OSError:
            return []
        return ["os.setxattr"]

    def test_a_disk_that_fails(self) -> None:
        """What is not known to be on the disk, or what may not be made like the file, does not replace it."""
        self.put("a", GOOD)
        for call in ("os.fsync", "os.fchmod", "os.replace", *self.attribute_calls()):
            with mock.patch(call, side_effect=OSError(errno.EIO, "the disk fails")), self.assertRaises(OSError) as it:
                self.convert(self.path, backup="~")
            self.assertEqual(it.exception.errno, errno.EIO)
            self.holds(a=GOOD)

    def test_a_folder_that_takes_no_file(self) -> None:
        """The file is as it was, and the error names the folder."""
        self.put("a", GOOD)
        opened = os.open

        def refused(path: str, flags: int, mode: int = 0o777, **folder: int) -> int:
            if flags & os.O_CREAT:
                raise OSError(errno.EIO, "the disk fails", path)
            return opened(path, flags, mode, **folder)

        with mock.patch("os.open", refused), self.assertRaises(OSError) as it:
            self.convert(self.path, backup="~")
        self.assertEqual((it.exception.errno, it.exception.filename), (errno.EIO, os.path.realpath(self.folder)))
        self.holds(a=GOOD)

    def test_the_folder_of_another(self) -> None:
        """Who may write a file, and may not take its name away, as in /tmp."""
        os.mkdir(self.at("in"))
        os.chmod(self.at("in"), 0o1777)
        os.chmod(self.put("in/a", GOOD), 0o666)
        with somebody():
            if not os.geteuid() or os.stat(self.at("in/a")).st_uid == os.geteuid():
                self.skipTest("there is no other user")
            for backup in (None, "~"):
                self.assertRaises(PermissionError, self.convert, self.at("in/a"), backup=backup)
        self.assertEqual(Path(self.at("in/a")).read_bytes(), GOOD)
        self.assertLessEqual(set(os.listdir(self.at("in"))), {"a", "a~"})

    def test_what_callbacks_raise(self) -> None:
        """It ends the conversion, be it an interruption."""
        self.put("a", BAD)
        for fault in (KeyboardInterrupt, SystemExit, RuntimeError):
            for name in ("progress", "on_loss"):
                with self.assertRaises(fault):
                    self.convert(self.path, lossy=True, **{name: mock.Mock(side_effect=fault)})
        self.holds(a=BAD)

    def test_stop(self) -> None:
        self.put("a", "é日".encode())
        for options in ({}, {"lossy": True}, {"backup": "~"}):
            with self.assertRaises(jillapun.Stopped) as it:
                self.convert(self.path, unmappable="stop", **options)
            self.assertEqual((it.exception.lost, it.exception.losses), ((1, "日"), [(1, "日")]))
            self.assertEqual(it.exception.output, b"")
        self.holds(a="é日".encode())

    def test_a_disk_that_is_full(self) -> None:
        """The output is longer than a file may be."""
        self.put("a", "日".encode() * 30000)
        code = (
            "import jillapun, resource, sys; resource.setrlimit(resource.RLIMIT_FSIZE, (100000, 100000)); "
            "jillapun.convert_file(sys.argv[1], sys.argv[1], 'utf-8', 'windows-1252', in_place=True, lossy=True)"
        )
        environment = {**os.environ, "PYTHONPATH": os.path.join(cases.TOP, "python")}
        command = [sys.executable, "-c", code, self.path]
        ran = subprocess.run(command, env=environment, capture_output=True, text=True, check=False)
        self.assertIn("File too large", ran.stderr)
        self.holds(a="日".encode() * 30000)

    def test_sizes(self) -> None:
        """Files that end beside, at and after the end of a chunk or of a step, also within a character."""
        for size in (0, 1, 16383, 16384, 16385, 65535, 65536, 65537, 131072):
            for head in ("", "é", "日"):
                text = head + "é" * ((size - len(head.encode())) // 2)
                data = text.encode() + b"x" * (size - len(text.encode()))
                self.put("a", data)
                done = self.convert(self.path, lossy=True)
                self.assertEqual((done.read, done.lost), (len(data), text.count("日")))
                made = data.decode().encode("cp1252", "xmlcharrefreplace")
                self.holds(a=made)
                self.put("a", data[:-1])
                is_whole = data[:-1].decode("utf-8", "ignore").encode() == data[:-1] and "日" not in text
                if is_whole:
                    self.convert(self.path)
                else:
                    self.assertRaises(jillapun.NotReplaced, self.convert, self.path)
                    self.holds(a=data[:-1])


class Into(Folder):
    """Another file as the output."""

    def test_a_new_file(self) -> None:
        """With losses too; with the permissions of the source."""
        self.put("a", BAD)
        os.chmod(self.path, 0o604)
        self.assertFalse(self.convert(self.path, self.at("b"), backup="~").faithful)
        self.holds(a=BAD, b=BAD_MADE)
        self.assertEqual(stat.S_IMODE(os.stat(self.at("b")).st_mode), 0o604)

    def test_a_file_that_is_there(self) -> None:
        """It is replaced, keeps its permissions, and is kept if that is asked for."""
        self.put("a", BAD), self.put("b", b"old")
        os.chmod(self.at("b"), 0o640)
        self.convert(self.path, self.at("b"))
        self.holds(a=BAD, b=BAD_MADE)
        self.put("b", b"old")
        self.convert(self.path, self.at("b"), backup="~")
        self.holds(**{"a": BAD, "b": BAD_MADE, "b~": b"old"})
        self.assertEqual([stat.S_IMODE(os.stat(self.at(name)).st_mode) for name in ("b", "b~")], [0o640, 0o640])

    def test_a_link_is_refused(self) -> None:
        """Also one that leads nowhere, since it would choose where a new file is made. As the source it is followed."""
        self.put("a", GOOD), self.put("real", b"old")
        for leads_to in ("real", "none"):
            os.symlink(leads_to, self.at("b"))
            self.assertRaisesRegex(OSError, "Is a symbolic link", self.convert, self.path, self.at("b"))
            os.unlink(self.at("b"))
        os.symlink("a", self.at("b"))
        self.convert(self.at("b"), self.at("c"))
        self.holds(a=GOOD, b=GOOD, c=GOOD_MADE, real=b"old")

    def test_a_source_that_changes(self) -> None:
        """It is an error, and there is no output."""
        for threads in (1, 3):
            self.put("b", b"old")

            def add(read: int) -> None:
                if read == len(GOOD):
                    with open(self.path, "ab") as file:
                        file.write(b"more")

            for target in ("b", "c"):
                self.put("a", GOOD)
                with self.assertRaisesRegex(jillapun.JillapunError, "changed while it was converted"):
                    self.convert(self.path, self.at(target), threads=threads, progress=add)
            self.assertEqual(sorted(os.listdir(self.folder)), ["a", "b"])
            self.assertEqual(Path(self.at("b")).read_bytes(), b"old")
        self.assertGreater(self.convert("/proc/self/status", self.at("c")).read, 0)

    def test_a_target_that_comes_or_goes(self) -> None:
        """What another program puts in the place in the meantime is not thrown away."""
        self.put("a", GOOD)
        for old, new in ((None, b"new"), (b"old", b"new"), (b"old", None)):
            if old:
                self.put("b", old)

            def change(_: int) -> None:
                Path(self.at("b")).unlink(missing_ok=True)
                if new:
                    os.replace(self.put("c", new), self.at("b"))

            with self.assertRaisesRegex(jillapun.JillapunError, "in the meantime"):
                self.convert(self.path, self.at("b"), progress=change)
            self.holds(a=GOOD, **({"b": new} if new else {}))
            Path(self.at("b")).unlink(missing_ok=True)

    def test_no_file(self) -> None:
        """A folder, a device, a pipe, a loop and a folder that is not there stay as they are."""
        self.put("a", GOOD)
        os.mkdir(self.at("in"))
        os.mkfifo(self.at("pipe"))
        os.symlink("loop", self.at("loop"))
        names = "in", "in/", "in/.", "pipe", "loop", "none/b", "none/", "none/.", "none/..", "a/b", "a/", "", ".", ".."
        for name in (*names, "/dev/null", "/dev/full", "/dev/stdin"):
            with self.subTest(name=name):
                self.assertRaises(OSError, self.convert, self.path, self.at(name))
        for name in ("", ".", ".."):
            self.assertRaises(OSError, self.convert, self.path, name)
        self.assertEqual(sorted(os.listdir(self.folder)), ["a", "in", "loop", "pipe"])
        self.assertTrue(stat.S_ISCHR(os.stat("/dev/null").st_mode))

    def test_a_pipe_as_the_source(self) -> None:
        os.mkfifo(self.at("pipe"))
        os.chmod(self.at("pipe"), 0o666)
        writer = subprocess.Popen(["sh", "-c", 'printf "caf\\303\\251" > "$0"', self.at("pipe")])
        self.convert(self.at("pipe"), self.at("b"))
        writer.wait()
        self.assertEqual(Path(self.at("b")).read_bytes(), b"caf\xe9")
        self.assertEqual(stat.S_IMODE(os.stat(self.at("b")).st_mode), 0o600)

    @unittest.skipUnless(os.path.isdir("/dev/shm"), "there is no other file system")
    def test_another_file_system(self) -> None:
        self.put("a", GOOD)
        with tempfile.TemporaryDirectory(dir="/dev/shm") as folder:
            there = os.path.join(folder, "a")
            self.convert(self.path, there)
            self.assertEqual(Path(there).read_bytes(), GOOD_MADE)
            os.symlink(folder, self.at("link"))
            Path(there).write_bytes(GOOD)
            self.convert(self.at("link/a"))
            self.assertEqual(Path(there).read_bytes(), GOOD_MADE)
            self.assertEqual(os.listdir(folder), ["a"])
        self.assertEqual(sorted(os.listdir(self.folder)), ["a", "link"])

    def test_unknown_words(self) -> None:
        """Nothing is made, and nothing is emptied."""
        self.put("a", GOOD), self.put("b", b"old")
        with self.assertRaises(jillapun.UnknownLabel):
            jillapun.convert_file(self.path, self.at("b"), "none", "utf-8")
        self.assertRaises(ValueError, self.convert, self.path, self.at("b"), mark="none")
        self.assertRaises(jillapun.TooLong, self.convert, self.path, self.at("b"), limit=3)
        self.holds(a=GOOD, b=b"old")


if __name__ == "__main__":
    unittest.main()
