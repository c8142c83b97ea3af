"""A folder of scores, what each is played as, and where its file goes."""

from __future__ import annotations

import bisect
import contextlib
import errno
import os
import re
from typing import Iterator, Optional

from formula_score.running.outs import file_without_a_name
from formula_score.running.pieces import ENDING, Asked, Runner

#: Bytes as the program prints them, where they are no text.
RAW = "surrogateescape"
#: What stands before the seed of a text: blanks and comments, the version and the division.
_BLANK = rb"(?:[ \t\r\n]|#[^\n]*(?:\n|$))*"
_HEAD = re.compile(_BLANK.join((rb"", rb"formula", rb"[0-9]+", rb";(?:" + _BLANK.join(
    (rb"", rb"division", rb"[0-9]+", rb";")) + rb")?")))
_SEED = re.compile(_BLANK.join((rb"", rb"seed", rb"[0-9]+", rb";")))
#: Why nothing more can be written, whatever its name is.
FULL = errno.ENOSPC, errno.EDQUOT, errno.EROFS, errno.EIO


class Failed(Exception):
    """This cannot begin, or cannot go on."""


class Batch:
    """A folder of scores, the seeds that each is played under, and where the files go.

    A piece is a score, under one of the seeds where there are some, and has a number. `name` is that of its file.
    """

    def __init__(self, folder: str, out: str, program: str, is_audited: bool, seeds: Optional[range] = None,
                 with_python: bool = False):
        self.program, self.is_audited, self.seeds = program, is_audited, seeds
        self.folder, self.out = os.path.realpath(folder), os.path.realpath(out)
        #: the names of Python files that make scores, where they are taken too
        self.made = set(found(self.folder, ENDING)) if with_python else set[str]()
        scores = list(found(self.folder, ".score"))
        for name in self.made.intersection(scores):
            raise Failed(f"{name}.score and {name}{ENDING} would both become {name}.mid: rename the one or the other")
        self.names = sorted([*scores, *self.made])
        if not self.names:
            raise Failed(f"there is no score in {folder}")
        for name in self.names if seeds else ():
            other = self.number(name)
            if other is not None:
                raise Failed(f"{self.score(other)} under one of the seeds has the name of {name}.score: rename the one or the "
                             "other")

    def __len__(self) -> int:
        return len(self.names) * len(self.seeds or [0])

    def name(self, number: int) -> str:
        """The name of a piece."""
        if self.seeds is None:
            return self.names[number]
        place, seed = divmod(number, len(self.seeds))
        return f"{self.names[place]}-{self.seeds[seed]}"

    def number(self, name: str) -> Optional[int]:
        """The piece of a name, if there is one."""
        seed: Optional[int] = 0
        if self.seeds is not None:
            name, _, word = name.rpartition("-")
            seed = self.seeds.index(int(word)) if re.fullmatch("0|[1-9][0-9]{0,8}", word) and int(word) in self.seeds else None
        place = bisect.bisect_left(self.names, name)
        if seed is None or place == len(self.names) or self.names[place] != name:
            return None
        return place * len(self.seeds or [0]) + seed

    def score(self, number: int) -> str:
        """The name of the score of a piece."""
        name = self.names[number // len(self.seeds or [0])]
        return name + (ENDING if name in self.made else ".score")

    def path(self, number: int) -> str:
        """The file of the score of a piece."""
        return f"{self.folder}/{self.score(number)}"

    def text(self, number: int) -> tuple[bytes, int]:
        """The text of a piece, and when its score was changed; `Unmade` where a Python file makes none."""
        with open(self.path(number), "rb") as file:
            text, time = file.read(), os.fstat(file.fileno()).st_mtime_ns
        if self.path(number).endswith(ENDING):
            text = Runner().run(self.path(number), text, Asked.limits, Asked.arguments).text
        return text if self.seeds is None else seeded(text, self.seeds[number % len(self.seeds)]), time

    def make_folders(self) -> None:
        """Makes the folders for the files. Where one cannot be made, each of its files says so."""
        os.makedirs(self.out, exist_ok=True)
        for home in {os.path.dirname(name) for name in self.names}:
            with contextlib.suppress(OSError):
                os.makedirs(os.path.join(self.out, home), exist_ok=True)

    def target(self, name: str) -> str:
        """The file that a piece of this name becomes."""
        return f"{self.out}/{name}.mid"


def seeded(text: bytes, seed: int) -> bytes:
    """A text under a seed. One that does not begin as a score stays as it is, and is refused."""
    head = _HEAD.match(text)
    if head is None:
        return text
    old = _SEED.match(text, head.end())
    return text[:head.end()] + b" seed %d;" % seed + text[old.end() if old else head.end():]


def found(folder: str, ending: str) -> Iterator[str]:
    """The files below the folder with this ending, each by its name without it."""
    folders = [""]
    while folders:
        home = folders.pop()
        with contextlib.suppress(OSError), os.scandir(os.path.join(folder, home)) as entries:
            for entry in entries:
                if entry.is_dir(follow_symlinks=False):
                    folders.append(f"{home}{entry.name}/")
                elif entry.name.endswith(ending) and entry.is_file(follow_symlinks=False):
                    yield home + entry.name[:-len(ending)]


def remove(path: str) -> None:
    """Removes a file, if it is there."""
    with contextlib.suppress(FileNotFoundError):
        os.unlink(path)


def write(path: str, data: bytes) -> None:
    """Writes a file, which is the old one until it is the whole new one. To sync it would take longer than to play it."""
    beside = f"{path}.part"
    file = file_without_a_name(os.path.dirname(path), 0o666)
    has_name = file is None
    if file is None:
        file = os.open(beside, os.O_CREAT | os.O_TRUNC | os.O_WRONLY | os.O_CLOEXEC, 0o666)
    try:
        rest = memoryview(data)
        while rest:
            rest = rest[os.write(file, rest):]
        if has_name:
            os.replace(beside, path)
        else:
            _link(file, path, beside)
    except BaseException:
        remove(beside)
        raise
    finally:
        os.close(file)


def _link(file: int, path: str, beside: str) -> None:
    source = f"/proc/self/fd/{file}"
    try:
        # with a folder's descriptor, which is not used, the link is one to what this name means
        os.link(source, path, src_dir_fd=file)
    except FileExistsError:
        remove(beside)
        os.link(source, beside, src_dir_fd=file)
        os.replace(beside, path)
