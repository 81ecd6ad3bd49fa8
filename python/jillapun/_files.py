"""Whole files, converted by steps: a chunk of the input and of the output is in memory at a time."""

import codecs
import contextlib
import errno
import os
import secrets
import shutil
import stat
from typing import BinaryIO, Callable, Iterator, List, Optional, Tuple, cast

from . import _library as c
from ._indexes import Indexes, PathLike, name, output_name
from ._parts import Job, put_parts
from ._results import ConvertedFile, JillapunError, Loss, Losses, NotReplaced, Report, Stopped
from ._steps import Conversion, chunk_of

_UTF_8, _MARK = "UTF-8", b"\xef\xbb\xbf"


class AlreadyUtf8(JillapunError):
    """The file is well-formed UTF-8 already and would be encoded twice. It stays as it was."""


def _refused(number: int, path: str, words: Optional[str] = None) -> OSError:
    return OSError(number, words or os.strerror(number), path)


@contextlib.contextmanager
def _naming(path: str) -> Iterator[None]:
    """Names the path in an error of a call that is given only a name in an open folder."""
    try:
        yield
    except OSError as fault:
        raise OSError(fault.errno, fault.strerror, path) from fault


def _attributes_of(descriptor: int) -> List[str]:
    """The names of the extended attributes of a file; none where the system has none."""
    try:
        return os.listxattr(descriptor)
    except (AttributeError, OSError):
        return []


@contextlib.contextmanager
def _if_permitted() -> Iterator[None]:
    """Goes on if an attribute cannot be set, as many of the system cannot. A disk that is full or fails is an error."""
    try:
        yield
    except OSError as fault:
        if fault.errno in (errno.ENOSPC, errno.EDQUOT, errno.EIO):
            raise


def _dress(descriptor: int, model: int) -> None:
    """Gives a file the owner, the extended attributes and the permissions of another, as far as it can. Nobody who
    could not read that one can read this one."""
    old = os.fstat(model)
    mode = stat.S_IMODE(old.st_mode)
    try:
        os.fchown(descriptor, old.st_uid, old.st_gid)
    except OSError:
        mode &= 0o777
        try:
            os.fchown(descriptor, -1, old.st_gid)
        except OSError:
            # The group is another: it gets the permissions of all others.
            mode = mode & 0o707 | (mode & 0o007) << 3
    names = _attributes_of(model)
    for attribute in names:
        with _if_permitted():
            os.setxattr(descriptor, attribute, os.getxattr(model, attribute))
    # A folder can hand down who else may read a new file.
    for attribute in set(_attributes_of(descriptor)) - set(names):
        with _if_permitted():
            os.removexattr(descriptor, attribute)
    os.fchmod(descriptor, mode)


def _replaced_meanwhile() -> JillapunError:
    return JillapunError("another program replaced the file in the meantime: nothing is written, convert it again")


class _Place:
    """The place of an output: a name in a folder, and the regular file that has this name, if there is one.

    Folder and file are opened once, and all that follows goes through their descriptors. So somebody who swaps names in
    that folder can't choose which file is read, replaced or asked for its owner. A symbolic link is refused."""

    def __init__(self, path: str, suffix: Optional[str], flags: int):
        """The file of this path, if there is one, is opened with the flags."""
        if suffix is not None and (not suffix or os.path.basename(suffix) != suffix):
            raise ValueError("%r is no suffix of a name" % suffix)
        head, self.name = os.path.split(path)
        if self.name in ("", os.curdir, os.pardir):
            raise _refused(errno.EISDIR, path)
        self.path, self.folder_path, self.backup = path, head or os.curdir, ""
        self.old: Optional[os.stat_result] = None
        self.descriptor = -1
        self.folder = os.open(self.folder_path, os.O_RDONLY | os.O_DIRECTORY)
        try:
            self._open(suffix, flags)
        except BaseException:
            self.close()
            raise

    def close(self) -> None:
        for descriptor in (self.descriptor, self.folder):
            if descriptor >= 0:
                os.close(descriptor)

    def _open(self, suffix: Optional[str], flags: int) -> None:
        found = self._found(self.name)
        if not found:
            return
        # To open a device may have effects, so it is refused before.
        self._check(found)
        with _naming(self.path):
            flags |= os.O_NOFOLLOW | os.O_NONBLOCK
            self.descriptor = os.open(self.name, flags, dir_fd=self.folder)
        self.old = os.fstat(self.descriptor)
        self._check(self.old)
        self.backup = self.name + suffix if suffix else ""
        if self.backup and self._found(self.backup):
            raise _refused(errno.EEXIST, self.path_of(self.backup))

    def _check(self, found: os.stat_result) -> None:
        """Refuses what no output can replace, as a folder, a device or a link."""
        if stat.S_ISLNK(found.st_mode):
            raise _refused(errno.ELOOP, self.path, "Is a symbolic link: name the file that it leads to")
        if stat.S_ISDIR(found.st_mode):
            raise _refused(errno.EISDIR, self.path)
        if not stat.S_ISREG(found.st_mode):
            raise _refused(errno.EINVAL, self.path, "Not a regular file")

    def path_of(self, name: str) -> str:
        return os.path.join(os.path.dirname(self.path), name)

    def _found(self, name: str) -> Optional[os.stat_result]:
        """What has this name in the folder now."""
        with _naming(self.path_of(name)):
            try:
                return os.stat(name, dir_fd=self.folder, follow_symlinks=False)
            except FileNotFoundError:
                return None

    def _has(self, name: str) -> bool:
        """Whether the name is that of what stood in the place at the start: of the same file, or of none."""
        found = self._found(name)
        return os.path.samestat(found, self.old) if found and self.old else found is self.old

    @contextlib.contextmanager
    def beside(self) -> Iterator[Tuple[str, BinaryIO]]:
        """A new file in the folder of the place, which no one else can read, and its name. At the end it is removed,
        unless it was moved."""
        # Its name is known before it is there, so a signal that ends the program at once leaves no file behind.
        name = ".jillapun-" + secrets.token_hex(8)
        is_there = True
        try:
            try:
                flags = os.O_WRONLY | os.O_CREAT | os.O_EXCL | os.O_NOFOLLOW
                descriptor = os.open(name, flags, 0o600, dir_fd=self.folder)
            except OSError as fault:
                is_there = False
                fault.filename = self.folder_path
                raise
            with open(descriptor, "wb") as made:
                yield name, cast(BinaryIO, made)
        finally:
            if is_there:
                with contextlib.suppress(FileNotFoundError):
                    os.unlink(name, dir_fd=self.folder)

    def finish(self, made: BinaryIO, mode: int) -> None:
        """Ends the file beside the place, and syncs it to disk. It gets what `_dress` takes of the file that it
        replaces, or, if it replaces none, this mode."""
        made.flush()
        if self.old:
            _dress(made.fileno(), self.descriptor)
        else:
            os.fchmod(made.fileno(), mode)
        os.fsync(made.fileno())
        made.close()

    def put(self, name: str) -> None:
        """Moves the file of this name to its place, and syncs the folder. What stood there is kept, if that was asked
        for."""
        # Between this and the move another file can still get the name. It would be replaced, but what is written is the
        # conversion of the file that was read, with its owner and permissions.
        if not self._has(self.name):
            raise _replaced_meanwhile()
        if self.backup:
            self._keep()
        try:
            with _naming(self.path):
                os.replace(name, self.name, src_dir_fd=self.folder, dst_dir_fd=self.folder)
        except BaseException:
            # Only while the file itself is in its place the backup is no more than a copy.
            if self.backup and self._has(self.name):
                with contextlib.suppress(OSError):
                    os.unlink(self.backup, dir_fd=self.folder)
            raise
        self._sync_folder()

    def _keep(self) -> None:
        """Gives the file that is in the place the name of the backup, too."""
        with _naming(self.path_of(self.backup)):
            try:
                folder = self.folder
                os.link(self.name, self.backup, src_dir_fd=folder, dst_dir_fd=folder, follow_symlinks=False)
            except FileExistsError:
                raise
            except OSError:
                # Not every file system has links.
                self._copy()
                return
        if not self._has(self.backup):
            os.unlink(self.backup, dir_fd=self.folder)
            raise _replaced_meanwhile()

    def _copy(self) -> None:
        """Copies the file that is in the place, with its times, to the name of the backup."""
        flags = os.O_WRONLY | os.O_CREAT | os.O_EXCL | os.O_NOFOLLOW
        descriptor = os.open(self.backup, flags, 0o600, dir_fd=self.folder)
        try:
            with open(descriptor, "wb") as made, open(self.descriptor, "rb", closefd=False) as given:
                given.seek(0)
                shutil.copyfileobj(given, made)
                made.flush()
                _dress(made.fileno(), self.descriptor)
                old = os.fstat(self.descriptor)
                os.utime(made.fileno(), ns=(old.st_atime_ns, old.st_mtime_ns))
                os.fsync(made.fileno())
        except BaseException:
            os.unlink(self.backup, dir_fd=self.folder)
            raise

    def _sync_folder(self) -> None:
        """Sees to it that what was moved stays moved after a crash."""
        try:
            os.fsync(self.folder)
        except OSError as fault:
            # Some file systems can't sync a folder, and say so.
            if fault.errno != errno.EINVAL:
                words = "The output is in its place, but the folder could not be synced to disk: %s"
                raise _refused(fault.errno or errno.EIO, self.folder_path, words % fault.strerror) from fault


def _put_all(
    conversion: Conversion, losses: Losses, given: BinaryIO, made: BinaryIO, progress: Optional[Callable[[int], object]]
) -> Report:
    """Converts a file to its end, and returns the report on it."""
    read = 0
    while not conversion.report:
        data = chunk_of(given)
        try:
            made.write(conversion.put(data, not data, losses))
        except Stopped as stop:
            # It is a part, and of no use without what is thrown away.
            stop.output = b""
            raise
        read += len(data)
        if progress:
            progress(read)
    return conversion.report


def _is_utf_8(given: BinaryIO, from_utf_16: bool) -> bool:
    """Whether a file is well-formed UTF-8, and not all ASCII, unless it would be read as UTF-16: then it is enough that some
    byte is there, and none is NUL. The file is at its start, and stays there."""
    decoder, is_ascii, data = codecs.getincrementaldecoder("utf-8")(), True, b"\0"
    is_text = False
    try:
        while data:
            data = chunk_of(given)
            decoder.decode(data, not data)
            is_ascii = is_ascii and data.isascii()
            from_utf_16, is_text = from_utf_16 and b"\0" not in data, is_text or bool(data)
    except UnicodeDecodeError:
        return False
    finally:
        given.seek(0)
    return not is_ascii or (from_utf_16 and is_text)


class _Work:
    """What is done with a file, wherever its output goes."""

    def __init__(self, job: Job, losses: Losses, threads: int, progress: Optional[Callable[[int], object]]):
        if threads < 1:
            raise ValueError("threads=%d: at least one is needed" % threads)
        self.job, self.losses, self.threads, self.progress = job, losses, threads, progress
        self.conversion = Conversion(*job)

    def encodes_twice(self, given: BinaryIO) -> bool:
        """Whether the file, which is at its start, is UTF-8 already, and would be encoded as UTF-8 once more."""
        job = self.job
        if name(job.source) == _UTF_8 or output_name(job.target) != _UTF_8:
            return False
        is_marked = job.mark == "sniff" and given.read(len(_MARK)) == _MARK
        given.seek(0)
        return not is_marked and _is_utf_8(given, name(job.source).startswith("UTF-16"))

    def put(self, given: BinaryIO, before: os.stat_result, made: BinaryIO) -> ConvertedFile:
        """Converts a file to its end. Raises an error if it is no longer what it was before."""
        later = self.job.later(given) if self.threads > 1 else None
        if later:
            report = put_parts((self.job, later), self.losses, given, made, self.threads, self.progress)
        else:
            report = _put_all(self.conversion, self.losses, given, made, self.progress)
        check_unchanged(given, before)
        return ConvertedFile(*report[:4], self.losses.kept, report.characters)


def check_unchanged(given: BinaryIO, before: os.stat_result) -> None:
    """Raises an error if a regular file is no longer what it was before."""
    now = os.fstat(given.fileno())
    if stat.S_ISREG(now.st_mode) and (now.st_size, now.st_mtime_ns) != (before.st_size, before.st_mtime_ns):
        raise JillapunError("the file changed while it was converted: convert it again")


def write_with(
    losses: Losses,
    source_path: PathLike,
    made: BinaryIO,
    job: Job,
    *,
    threads: int = 1,
    progress: Optional[Callable[[int], object]] = None,
) -> ConvertedFile:
    """Converts a file, and writes the output to another as it comes. What is lost is handed to `losses`."""
    work = _Work(job, losses, threads, progress)
    with open(source_path, "rb") as given:
        done = work.put(given, os.fstat(given.fileno()), made)
    losses.end(done)
    return done


def convert_with(
    losses: Losses,
    source_path: PathLike,
    target_path: PathLike,
    job: Job,
    *,
    in_place: bool = False,
    lossy: bool = False,
    force: bool = False,
    backup: Optional[str] = None,
    threads: int = 1,
    progress: Optional[Callable[[int], object]] = None,
) -> ConvertedFile:
    """`convert_file`, with what is lost handed to `losses`."""
    work = _Work(job, losses, threads, progress)
    is_one_path = os.fspath(source_path) == os.fspath(target_path)
    place = _Place(os.fspath(target_path), backup, os.O_RDWR if is_one_path or backup else os.O_WRONLY)
    with contextlib.closing(place), contextlib.ExitStack() as stack:
        if is_one_path and place.old is None:
            # A name that comes to be from now on could be a link to any file.
            raise _refused(errno.ENOENT, place.path)
        opened = place.descriptor if is_one_path else source_path
        given = stack.enter_context(open(opened, "rb", closefd=not is_one_path))
        before = os.fstat(given.fileno())
        is_in_place = place.old is not None and os.path.samestat(place.old, before)
        if in_place and not is_in_place:
            raise ValueError("in_place=True, but %r and %r are two files" % (source_path, target_path))
        if is_in_place and not (in_place or backup):
            raise JillapunError("it would replace itself: in_place=True or backup=SUFFIX asks for that")
        if is_in_place and not force and work.encodes_twice(given):
            raise AlreadyUtf8(
                "left as it was (it is well-formed UTF-8 already, and would be encoded twice): force=True converts it"
            )
        name, made = stack.enter_context(place.beside())
        done = work.put(given, before, made)
        if is_in_place and not (done.faithful or lossy or backup):
            raise NotReplaced(done)
        losses.end(done)
        # The permissions of a pipe or a device, as /dev/null, say nothing of who may read what came from it.
        place.finish(made, before.st_mode & (0o777 if stat.S_ISREG(before.st_mode) else 0o600))
        if is_in_place:
            check_unchanged(given, before)
        place.put(name)
    return done


def convert_file(
    source_path: PathLike,
    target_path: PathLike,
    source: str,
    target: str,
    *,
    mark: c.Mark = "sniff",
    unmappable: c.Unmappable = "decimal",
    limit: Optional[int] = None,
    indexes: Optional[Indexes] = None,
    in_place: bool = False,
    lossy: bool = False,
    force: bool = False,
    backup: Optional[str] = None,
    on_loss: Optional[Callable[[Loss], object]] = None,
    keep_losses: int = 0,
    threads: int = 1,
    progress: Optional[Callable[[int], object]] = None,
) -> ConvertedFile:
    """Converts a file into another, chunk by chunk. The target appears whole or not at all: the output is written to a
    temporary file in its folder, synced to disk and then renamed.

    A new file gets the permissions of the source; if that is a pipe or a device, only the owner can read it. A file at
    `target_path` is replaced. The new one keeps its owner (if that can be set), permissions and extended attributes.
    With `backup`, a suffix, the replaced file is kept under its name with that suffix, which must not exist yet. A
    symbolic link at `target_path` is refused.

    To convert a file in place, pass its path twice, and `in_place=True` or `backup`. It is replaced only if nothing is
    lost, or with `lossy` or `backup`. Otherwise it stays as it was, and `NotReplaced` is raised, which has the counts. A
    file that is well-formed UTF-8 already is not converted from another encoding to UTF-8, which would encode it twice:
    `AlreadyUtf8` is raised, unless `force` is given. One that is all ASCII is converted, except from UTF-16. Other hard
    links keep the old content.

    Each loss, a `Bad` or a `Lost`, is counted and passed to `on_loss` in the order of the text; the first `keep_losses`
    are kept. `progress` is called after each chunk with the number of bytes read so far.

    With `threads`, several threads convert parts of 2 MiB or a little more. The output, the losses and the result are
    the same; the losses of a part are passed to `on_loss` together, so if writing fails, it may have seen a few more. An
    input is one part if it is not a regular file, if it is in UTF-16, ISO-2022-JP or replacement, or if the output is in
    ISO-2022-JP.

    Raises what `convert` raises, `OSError`, what `on_loss` or `progress` raise, and `JillapunError` if source or target
    change in the meantime. After an exception the target is as it was, unless an `OSError` says that the output is in
    its place. A `Stopped` has no output."""
    job = Job(source, target, mark, unmappable, c.limit_of(limit), indexes)
    return convert_with(
        Losses(keep_losses, on_loss), source_path, target_path, job, in_place=in_place, lossy=lossy, force=force,
        backup=backup, threads=threads, progress=progress,
    )  # fmt: skip
