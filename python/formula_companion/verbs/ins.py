"""What a run reads: the file that is named, or a copy of what can be read once, which is played and then explained."""

from __future__ import annotations

import os
import select
import stat
from typing import IO, NamedTuple, Optional

from formula_score.explaining.words import Words
from formula_score.reading.playing import text_of
from formula_score.running.outs import PIECE, descriptor_of, name_of, nameless
from formula_score.running.pieces import named

#: The bytes of the longest input of a task, and one more: what is longer is refused too.
MOST = {"--list": 33_554_433, "--audit": 67_108_865, None: 1_048_577}


class Source(NamedTuple):
    """The name that the program reads, and the copy, where that is one."""

    name: str
    copy: Optional[IO[bytes]] = None


def source_of(asked: Words) -> Source:
    """What IN means: a name of an open descriptor, as `-`, and a pipe are read to their end; an `OSError` where that
    fails. A Python file is run, and its score is the copy. A large score reads nothing."""
    name = asked.files[0]
    if "--generate" in asked.options and asked.task not in ("--audit", "--list"):
        return Source(name if name != "-" else os.devnull)
    if named(name):
        copy = nameless(text_of(name))
        return Source(name_of(copy), copy)
    number, most = descriptor_of(name, 0), MOST.get(asked.task, MOST[None])
    if number is not None:
        return _copied(number, most)
    try:
        is_pipe = stat.S_ISFIFO(os.stat(name).st_mode)
    except (OSError, ValueError):
        return Source(name)  # the program says so
    if not is_pipe:
        return Source(name)
    with open(name, "rb", buffering=0) as pipe:
        return _copied(pipe.fileno(), most)


def _copied(number: int, most: int) -> Source:
    """What is left to read of a descriptor, in a file without a name."""
    copy, left = nameless(), most
    while left and (piece := _read(number, min(PIECE, left))):
        copy.write(piece)
        left -= len(piece)
    copy.flush()
    return Source(name_of(copy), copy)


def _read(number: int, most: int) -> bytes:
    while True:
        try:
            return os.read(number, most)
        except BlockingIOError:
            select.select([number], [], [])
