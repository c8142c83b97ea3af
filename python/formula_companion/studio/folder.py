"""The scores that the studio may read and write: those under one folder, or one file alone.

A name is followed from the folder's descriptor, part by part, and no part may be a link: so nothing leads out of the
folder, whatever is renamed meanwhile.
"""

from __future__ import annotations

import errno
import hashlib
import os
import secrets
import stat
import threading
from typing import Iterator, NamedTuple, Optional

ENDING = ".score"
#: Of a Python file that makes a score, where the studio was started with --python.
PYTHON = ".py"
#: The longest file that is opened, in bytes: a score has at most a sixteenth of it.
MOST_BYTES = 16 * 1_048_576
#: How many scores are listed.
MOST_NAMES = 2000
_DEEPEST = 16

_FOLDER = os.O_RDONLY | os.O_DIRECTORY | os.O_NOFOLLOW | os.O_CLOEXEC
# a pipe that nobody writes to would else be waited for
_FILE = os.O_NOFOLLOW | os.O_CLOEXEC | os.O_NONBLOCK


class Denied(Exception):
    """Why a file is not read or written, with the status of HTTP."""

    def __init__(self, status: int, why: str):
        super().__init__(why)
        self.status, self.why = status, why


class Conflict(Denied):
    """A save that would overwrite what the writer has not seen: `found` is what the file has now, if it is there."""

    def __init__(self, found: Optional[bytes]):
        super().__init__(409, "the file has changed since it was read" if found is not None
                         else "the file is no longer there")
        self.found = found


def version_of(data: bytes) -> str:
    """What tells one text of a file from another."""
    return hashlib.sha256(data).hexdigest()


class _Entry(NamedTuple):
    """A file by the descriptor of its folder and its last name."""

    folder: int
    name: str


class Folder:
    """The files under a folder; with `only`, one of them."""

    def __init__(self, path: str, only: Optional[str] = None, read_only: bool = False, with_python: bool = False):
        self.endings = (ENDING, PYTHON) if with_python else (ENDING,)
        self.path, self.only, self.read_only = os.path.realpath(path), only, read_only
        self._root = os.open(self.path, os.O_RDONLY | os.O_DIRECTORY | os.O_CLOEXEC)
        self._saving = threading.Lock()

    def close(self) -> None:
        """Gives the folder's descriptor back."""
        os.close(self._root)

    def names(self) -> list[str]:
        """The scores that may be opened."""
        if self.only is not None:
            return [self.only]
        return sorted(self._found())

    def _found(self) -> Iterator[str]:
        count = 0
        for place, folders, files, descriptor in os.fwalk(".", dir_fd=self._root, follow_symlinks=False):
            folders[:] = sorted(name for name in folders if not name.startswith("."))
            if place.count("/") >= _DEEPEST:
                folders.clear()
            for file in sorted(files):
                name = os.path.normpath(os.path.join(place, file))
                if file.endswith(self.endings) and not file.startswith(".") and _is_text(name) and _is_plain(file, descriptor):
                    count += 1
                    yield name
            if count >= MOST_NAMES:
                return

    def read(self, name: str) -> bytes:
        """The bytes of a score."""
        entry = self._entry(name)
        try:
            return _bytes_of(entry)
        finally:
            os.close(entry.folder)

    def save(self, name: str, data: bytes, version: Optional[str]) -> str:
        """Writes a score beside the old one and renames it; gives its version.

        `version` is that of the bytes that the writer has read, None where there was no file. A `Conflict` where the
        file has others now.
        """
        if self.read_only:
            raise Denied(403, "the studio was started with --read-only")
        if len(data) > MOST_BYTES:
            raise Denied(413, "the text is too long")
        entry = self._entry(name)
        try:
            with self._saving:
                _replace(entry, data, version)
        except OSError as error:
            raise Denied(403, f"{name!r} cannot be written: {error.strerror}") from error
        finally:
            os.close(entry.folder)
        return version_of(data)

    def _entry(self, name: str) -> _Entry:
        """Where a file is. The caller closes the descriptor."""
        parts = name.split("/")
        if not _is_text(name) or "\0" in name or any(part in ("", ".", "..") or part.startswith(".") for part in parts):
            raise Denied(403, f"{name!r} is no file under the folder")
        if not parts[-1].endswith(self.endings):
            raise Denied(403, f"{name!r} is no score: its name does not end in {' or '.join(self.endings)}")
        if self.only is not None and name != self.only:
            raise Denied(403, f"the studio was started for {self.only!r} alone: start it with the folder")
        at = os.dup(self._root)
        for part in parts[:-1]:
            try:
                inner = os.open(part, _FOLDER, dir_fd=at)
            except OSError as error:
                raise Denied(404, f"{name!r}: {part!r} is no folder, or a link") from error
            finally:
                os.close(at)
            at = inner
        return _Entry(at, parts[-1])


def _is_text(name: str) -> bool:
    try:
        name.encode("utf-8")
    except UnicodeEncodeError:
        return False
    return True


def _is_plain(name: str, folder: int) -> bool:
    return stat.S_ISREG(os.stat(name, dir_fd=folder, follow_symlinks=False).st_mode)


def _bytes_of(entry: _Entry) -> bytes:
    try:
        descriptor = os.open(entry.name, os.O_RDONLY | _FILE, dir_fd=entry.folder)
    except OSError as error:
        raise Denied(404, f"{entry.name!r} cannot be read: it is not there, a link, or may not be read") from error
    found = os.fstat(descriptor)
    if not stat.S_ISREG(found.st_mode):
        os.close(descriptor)
        raise Denied(403, f"{entry.name!r} is no plain file")
    with open(descriptor, "rb") as file:
        if found.st_size > MOST_BYTES:
            raise Denied(413, f"{entry.name!r} is longer than {MOST_BYTES:,} bytes")
        return file.read(MOST_BYTES)


def _replace(entry: _Entry, data: bytes, version: Optional[str]) -> None:
    mode = _check(entry, version)
    beside = f".{entry.name}.{secrets.token_hex(8)}"
    descriptor = os.open(beside, os.O_WRONLY | os.O_CREAT | os.O_EXCL | _FILE, 0o666, dir_fd=entry.folder)
    try:
        with open(descriptor, "wb") as file:
            if mode is not None:
                os.fchmod(descriptor, mode)
            file.write(data)
            file.flush()
            os.fsync(descriptor)
        if version is None:
            _take_name(entry, beside)
        else:
            _check(entry, version)
            os.rename(beside, entry.name, src_dir_fd=entry.folder, dst_dir_fd=entry.folder)
    except BaseException as error:
        os.unlink(beside, dir_fd=entry.folder)
        if isinstance(error, FileExistsError):
            raise Conflict(_bytes_of(entry)) from error
        raise
    os.fsync(entry.folder)


def _take_name(entry: _Entry, beside: str) -> None:
    """Gives a new file its name, where no file of that name has come meanwhile."""
    try:
        os.link(beside, entry.name, src_dir_fd=entry.folder, dst_dir_fd=entry.folder, follow_symlinks=False)
        os.unlink(beside, dir_fd=entry.folder)
    except OSError as error:
        if error.errno not in (errno.EPERM, errno.EOPNOTSUPP):
            raise
        # there are no hard links here: an empty file takes the name
        os.close(os.open(entry.name, os.O_WRONLY | os.O_CREAT | os.O_EXCL | _FILE, 0o666, dir_fd=entry.folder))
        os.rename(beside, entry.name, src_dir_fd=entry.folder, dst_dir_fd=entry.folder)


def _check(entry: _Entry, version: Optional[str]) -> Optional[int]:
    """The mode of the old file, where it may be written over; else a `Conflict`."""
    try:
        old = os.stat(entry.name, dir_fd=entry.folder, follow_symlinks=False)
    except FileNotFoundError:
        if version is not None:
            raise Conflict(None) from None
        return None
    if not stat.S_ISREG(old.st_mode):
        raise Denied(403, f"{entry.name!r} is a link, or no plain file")
    found = _bytes_of(entry)
    if version is None or version_of(found) != version:
        raise Conflict(found)
    if not old.st_mode & 0o222:
        raise Denied(403, f"{entry.name!r} may not be written")
    return stat.S_IMODE(old.st_mode)
