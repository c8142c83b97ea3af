"""What became of each piece of a batch: the file that says so, and where each line of it stands."""

from __future__ import annotations

import array
import contextlib
import errno
import json
import os
from typing import Any, Iterator, NamedTuple, Optional

from .folder import Batch, Failed

#: How a result came to be: by a run of the program on this machine, by a record that was audited here, or by what
#: another machine said.
PLAYED, AUDITED, BELIEVED = "played", "audited", "believed"


class Result(NamedTuple):
    """How a run on a score ended, of which times of change the score and the program were, and how it came to be.

    What an older batch wrote does not say how it came to be, and may have been believed.
    """

    status: str
    said: str
    score: int
    program: int
    how: str = BELIEVED


class Results:
    """The file of the results: a line of JSON for each; the last line of a name counts. Memory has their places alone."""

    def __init__(self, batch: Batch):
        self.batch, self.path = batch, os.path.join(batch.out, "batch.results")
        #: where the line of each piece stands, and of each name that is no piece any more
        self.places, self.gone = array.array("q", [-1]) * len(batch), dict[str, int]()
        self.file = open(self.path, "ab+", buffering=0)
        self.end = 0
        with open(self.path, "rb") as file:
            line = b"\n"
            for line in file:
                with contextlib.suppress(ValueError, TypeError):  # a line that an end of the machine cut
                    self._take(*_read(line))
                self.end += len(line)
        if not line.endswith(b"\n"):
            self._write(b"\n")

    def _take(self, name: str, _: Result) -> None:
        number = self.batch.number(name)
        if number is not None:
            self.places[number] = self.end
        else:
            self.gone[name] = self.end

    def _write(self, line: bytes) -> None:
        try:
            count = self.file.write(line)
            if count < len(line):
                raise OSError(errno.ENOSPC, os.strerror(errno.ENOSPC))
        except OSError as error:
            raise Failed(f"{self.path}: {error.strerror}") from error
        self.end += count

    def add(self, number: int, result: Result) -> None:
        """Writes a result behind the others."""
        place = self.end
        self._write(_line(self.batch.name(number), result))
        self.places[number] = place

    def forget(self, number: int) -> None:
        """Lets a piece have no result."""
        self.places[number] = -1

    def all(self) -> Iterator[tuple[int, Optional[Result]]]:
        """Each piece with its result."""
        with open(self.path, "rb") as file:
            for number, place in enumerate(self.places):
                yield number, None if place < 0 else _read(_line_at(file, place))[1]

    def keep(self) -> list[str]:
        """Lets the file have each result once. Returns the names of files whose scores are gone."""
        gone = sorted(name for name in self.gone if os.path.exists(self.batch.target(name)))
        part = self.path + ".part"
        try:
            with open(self.path, "rb") as old, open(part, "wb") as new:
                for name in gone:
                    new.write(_line_at(old, self.gone[name]))
                for number, place in enumerate(self.places):
                    if place >= 0:
                        self.places[number] = new.tell()
                        new.write(_line_at(old, place))
            os.replace(part, self.path)
        finally:
            with contextlib.suppress(OSError):
                os.unlink(part)
        return gone


def _line(name: str, result: Result) -> bytes:
    return json.dumps([name, *result]).encode("ascii") + b"\n"


def _read(line: bytes) -> tuple[str, Result]:
    name, *rest = json.loads(line)
    return str(name), Result(*rest)


def _line_at(file: Any, place: int) -> bytes:
    if file.tell() != place:
        file.seek(place)
    line: bytes = file.readline()
    return line
