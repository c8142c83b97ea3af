"""Python files in the studio: one process waits with the library, and each run has one of its own, which can be ended."""

from __future__ import annotations

import asyncio
import functools
import json
from typing import Any, Callable, Optional

from formula_score.making.origins import Place
from formula_score.reading.made import calls_at
from formula_score.running.pieces import Limits, Piece, Runner
from ..editing.places import Places, Position, Range

#: What is marked of a line of Python: all from the column on.
_END = 10_000


class Pieces:
    """The runs of Python files."""

    def __init__(self, limits: Limits):
        self.limits = limits
        self._waiting: Optional[Runner] = None

    def warm(self) -> None:
        """Lets a process wait."""
        if self._waiting is None or self._waiting.is_over:
            self._waiting = Runner()

    async def made(self, path: str, data: bytes, say: Callable[[bytes], object]) -> Piece:
        """The score of a file that has these bytes; `Unmade` where it makes none. Cancelled, it ends the run."""
        self.warm()
        runner, self._waiting = self._waiting, None
        assert runner is not None
        try:
            run = functools.partial(runner.run, path, data, self.limits, say=say)
            return await asyncio.get_running_loop().run_in_executor(None, run)
        except asyncio.CancelledError:
            await asyncio.get_running_loop().run_in_executor(None, runner.end)
            raise
        finally:
            self.warm()

    def close(self) -> None:
        """Ends the process that waits."""
        if self._waiting is not None:
            self._waiting.end()


def sent(piece: Piece) -> tuple[dict[str, Any], bytes]:
    """A piece for a worker: the length of its text, and the text with what made its statements behind it."""
    return {"made": len(piece.text)}, piece.text + json.dumps([piece.places, piece.made_by]).encode()


@functools.lru_cache(maxsize=4)
def taken(body: bytes, length: int) -> Piece:
    """The piece that was sent so."""
    places, made_by = json.loads(body[length:])
    return Piece(body[:length], [[Place(*call) for call in calls] for calls in places], made_by)


class MadePlaces(Places):
    """The lines of a score's text, which are told as the lines of Python that made them."""

    def __init__(self, piece: Piece):
        super().__init__(piece.text)
        self.piece = piece

    def position(self, byte: int) -> Position:
        """The line of Python that made the statement at a byte of the text."""
        place = super().position(byte)
        line, column = calls_at(self.piece, place.line + 1, place.character + 1)[0]
        return Position(line - 1, max(0, column - 1))

    def range(self, start: int, end: int) -> Range:
        """The line of Python from there on."""
        found = self.position(start)
        return Range(found, found._replace(character=_END))


def refused(why: str, said: str, place: Place) -> dict[str, Any]:
    """A problem that is the only one: why a file makes no score."""
    begin = Position(place.line - 1, max(0, place.column - 1))
    return {"severity": "error", "rule": "python", "what": why, "cure": "", "said": said, "changes": [],
            "range": Range(begin, begin._replace(character=_END))}


def compiled(name: str, data: bytes) -> list[dict[str, Any]]:
    """What is wrong with the words of a file. Nothing of it is run."""
    try:
        compile(data, name, "exec", dont_inherit=True)
    except (SyntaxError, ValueError, MemoryError, RecursionError) as error:
        line, column = getattr(error, "lineno", 1) or 1, getattr(error, "offset", 1) or 1
        why = f"{type(error).__name__}: {getattr(error, 'msg', None) or error}"
        return [refused(why, "", Place(line, column))]
    return []
