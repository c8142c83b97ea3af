"""How the library and each verb write a file: it is the old one until it is the whole new one.

A regular file is written without a name in its folder, synced, and renamed over the old one. A descriptor, as standard
output, gets the bytes once they are all there. All else is written straight.
"""

from __future__ import annotations

import contextlib
import errno
import os
import re
import secrets
import select
import shutil
import signal
import stat
import tempfile
from typing import IO, Iterator, Optional, Union

from ..explaining.explain import why_full

#: The status of the program where OUT could not be written, and its line.
WRITE, WRITE_LINE = 4, "formula: write fault"
#: So many links may lead from a name to a file.
MOST_LINKS = 40
#: Bytes that are copied at once.
PIECE = 1 << 16
#: Signals that a user sends, and that are kept waiting while a file has a name for a moment.
SIGNALS = (signal.SIGINT, signal.SIGTERM, signal.SIGHUP, signal.SIGQUIT)


def descriptor_of(name: str, standard: int = 1) -> Optional[int]:
    """The descriptor that a name means, as `-` and /dev/stdout mean 1, through whatever links; None for a file."""
    if name == "-":
        return standard
    for _ in range(MOST_LINKS):
        folder, last = os.path.split(name)
        folder = os.path.realpath(folder or os.curdir)
        if re.fullmatch(rf"/proc/{os.getpid()}(/task/[0-9]+)?/fd", folder) and re.fullmatch("[0-9]{1,9}", last):
            return int(last)
        try:
            name = os.path.join(folder, os.readlink(os.path.join(folder, last)))
        except OSError:
            return None
    return None


class Straight:
    """OUT as it is named: a FIFO, a device, or what cannot be written, as the program will say."""

    files: tuple[int, ...] = ()

    def __init__(self, name: str):
        self.name = name

    def keep(self) -> None:
        """Nothing is left to do."""

    def drop(self) -> None:
        """Nothing is left to do."""


class Refusal:
    """OUT that may not be written, for a reason. The program gets no name: it says first what is wrong with IN."""

    files: tuple[int, ...] = ()
    name = ""

    def __init__(self, why: OSError):
        self.why = why

    def keep(self) -> None:
        """Raises the reason."""
        raise self.why

    def drop(self) -> None:
        """Nothing is left to do."""


class Descriptor:
    """An open descriptor, as standard output: the program writes a file without a name, which is then copied."""

    def __init__(self, number: int):
        self.number, self.file, self.folder = number, tempfile.TemporaryFile(), tempfile.gettempdir()
        self.files = (self.file.fileno(),)
        self.name = name_of(self.file)

    def keep(self) -> None:
        """Copies what was written, and syncs a file."""
        self.file.seek(0)
        while piece := memoryview(self.file.read(PIECE)):
            while piece:
                try:
                    piece = piece[os.write(self.number, piece):]
                except BlockingIOError:
                    select.select([], [self.number], [])
        if stat.S_ISREG(os.fstat(self.number).st_mode):
            os.fsync(self.number)

    def drop(self) -> None:
        """Closes the file, and so takes it away."""
        self.file.close()


class Beside:
    """A regular file: the new one is written in its folder, and renamed over the old one when all of it is synced.

    Where the file system can, the new one has no name until then. Mode, owner, attributes and links stay.
    """

    def __init__(self, path: str, old: Optional[os.stat_result]):
        self.path, self.old, self.folder = path, old, os.path.dirname(path)
        self.beside: Optional[str] = None
        if old and not os.access(path, os.W_OK, effective_ids=os.access in os.supports_effective_ids):
            raise PermissionError(errno.EACCES, os.strerror(errno.EACCES))
        os.stat(self.folder)
        if not os.access(self.folder, os.W_OK | os.X_OK, effective_ids=os.access in os.supports_effective_ids):
            raise PermissionError(errno.EACCES, f"the new file is made in the folder {self.folder!r}, which may not be "
                                  "written to")
        self.mode = 0o600 if old else 0o666
        file = file_without_a_name(self.folder, self.mode)
        self.files: tuple[int, ...] = ()
        if file is None:
            self.file = self._named()
            self.name = self.beside or ""
        else:
            self.name, self.file, self.files = f"/proc/self/fd/{file}", file, (file,)
        try:
            self._take_owner()
        except OSError:
            self.drop()
            raise

    def _new_name(self) -> str:
        return os.path.join(self.folder, f".formula-{secrets.token_hex(8)}")

    def _named(self) -> int:
        """A descriptor of a new file that has a name."""
        beside = self._new_name()
        file = os.open(beside, os.O_CREAT | os.O_EXCL | os.O_RDWR, self.mode)
        self.beside = beside
        return file

    def _take_owner(self) -> None:
        facts = os.fstat(self.file)
        if self.old and (facts.st_uid, facts.st_gid) != (self.old.st_uid, self.old.st_gid):
            try:
                os.fchown(self.file, self.old.st_uid, self.old.st_gid)
            except OSError as error:
                raise PermissionError(error.errno, "it belongs to another user or group, and a new file in its place "
                                      "would not") from error

    def _sync(self) -> None:
        if self.old:
            _copy_attributes(self.path, self.file)
            os.fchmod(self.file, stat.S_IMODE(self.old.st_mode))
        os.fsync(self.file)

    def _give_a_name(self) -> None:
        """Gives the new file a name, or makes a copy that has one, where there are no hard links."""
        beside = self._new_name()
        try:
            # with a folder's descriptor, which is not used, the link is one to what this name means
            os.link(self.name, beside, src_dir_fd=self.file)
            self.beside = beside
        except OSError as error:
            if error.errno not in (errno.EPERM, errno.EOPNOTSUPP):
                raise
            with os.fdopen(self.file, "rb") as before:
                self.file = self._named()
                before.seek(0)
                with os.fdopen(os.dup(self.file), "wb") as copy:
                    shutil.copyfileobj(before, copy)
            self._take_owner()
            self._sync()

    def keep(self) -> None:
        """Syncs the new file, closes it and gives it the name."""
        self._sync()
        waiting = signal.pthread_sigmask(signal.SIG_BLOCK, SIGNALS)
        try:
            if self.beside is None:
                self._give_a_name()
            number, self.file = self.file, -1
            os.close(number)
            os.rename(self.beside or "", self.path)
            self.beside = None
        finally:
            self.drop()
            signal.pthread_sigmask(signal.SIG_SETMASK, waiting)

    def drop(self) -> None:
        """Takes the new file away, where it is not the one in place of the old."""
        number, beside = self.file, self.beside
        self.file, self.beside = -1, None
        with contextlib.suppress(OSError):
            if number >= 0:
                os.close(number)
        with contextlib.suppress(OSError):
            if beside:
                os.unlink(beside)


def file_without_a_name(folder: str, mode: int) -> Optional[int]:
    """A descriptor of a new file in a folder; None where the file system, or the host, has no such files."""
    if not os.path.exists("/proc/self/fd"):
        return None
    try:
        return os.open(folder, os.O_TMPFILE | os.O_RDWR, mode)
    except OSError as error:
        if error.errno not in (errno.EOPNOTSUPP, errno.EISDIR, errno.EINVAL):
            raise
        return None


def _copy_attributes(path: str, file: int) -> None:
    with contextlib.suppress(OSError):
        for name in os.listxattr(path):
            with contextlib.suppress(OSError):
                os.setxattr(file, name, os.getxattr(path, name))


def nameless(data: bytes = b"") -> IO[bytes]:
    """A file without a name that holds these bytes, in memory where the host has such files."""
    if hasattr(os, "memfd_create"):
        file: IO[bytes] = os.fdopen(os.memfd_create("formula"), "w+b")
    else:
        file = tempfile.TemporaryFile()
    file.write(data)
    file.flush()
    return file


def name_of(file: IO[bytes]) -> str:
    """The name by which a program to which the file is handed opens it anew."""
    return f"/proc/self/fd/{file.fileno()}"


Out = Union[Straight, Refusal, Descriptor, Beside]


def out_of(name: str) -> Out:
    """Where a run puts OUT of this name."""
    try:
        number = descriptor_of(name)
        if number is not None:
            os.fstat(number)
            return Descriptor(number)
        if not name or name.endswith("/"):
            return Straight(name)
        path = os.path.realpath(name)
        try:
            old = os.stat(name)
        except FileNotFoundError:
            return Straight(name) if os.path.isdir(path) else Beside(path, None)
        except OSError:
            return Straight(name)
        is_file = stat.S_ISREG(old.st_mode) and os.path.exists(path) and os.path.samefile(name, path)
        return Beside(path, old) if is_file else Straight(name)
    except OSError as error:
        return Refusal(error)


def settled(out: Out, status: int) -> str:
    """Lets OUT be what a run wrote that ended with this status; why it could not be written, where that is known."""
    if status == WRITE and isinstance(out, (Descriptor, Beside)):
        return why_full(out.folder)
    try:
        if status in (0, WRITE):
            out.keep()
    except OSError as error:
        return error.strerror or "the host does not say why"
    return ""


@contextlib.contextmanager
def writing(name: str) -> Iterator[str]:
    """The name of what is written in place of a file, or of what a name means; an `OSError` where it is not."""
    out = out_of(name)
    try:
        if isinstance(out, Refusal):
            out.keep()
        yield out.name
        out.keep()
    except OSError as error:
        raise OSError(error.errno, error.strerror, name) from error
    finally:
        out.drop()


def put(name: str, data: bytes) -> None:
    """Writes a file, or what a name means; an `OSError` where it is not written."""
    with writing(name) as beside, open(beside, "wb") as file:
        file.write(data)
