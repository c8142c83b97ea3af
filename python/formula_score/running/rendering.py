"""The files of many scores, played by threads of this process or by any other executor."""

from __future__ import annotations

import contextlib
import os
from concurrent.futures import Executor, ThreadPoolExecutor
from typing import Iterable, Iterator, Optional, Union

from ..making.errors import CommandError
from ..making.values import whole
from . import command
from .many import NoEngine, Played, Unplayed, play_all
from .score import Score


def render_all(scores: Iterable[Union[Score, str, bytes]], jobs: Optional[int] = None, program: Optional[str] = None,
               executor: Optional[Executor] = None) -> list[Union[bytes, Exception]]:
    """The files of many scores or texts, in their order; in place of one that is not played stands its exception.

    So many run at a time as `jobs` says, else as many as there are processors, each on one thread. An `executor` of
    `concurrent.futures`, also one of Dask or MPI, plays them in place of threads of this process: docs/BATCH.md.
    """
    count = whole("a number of jobs", _processors() if jobs is None else jobs, 1, 10_000)
    files: dict[int, Union[bytes, Exception]] = {}
    texts: dict[int, bytes] = {}

    def numbered() -> Iterator[tuple[int, bytes]]:
        for number, score in enumerate(scores):
            try:
                text = score.text if isinstance(score, Score) else score
                texts[number] = text.encode("utf-8") if isinstance(text, str) else bytes(memoryview(text))
            except Exception as error:  # it is a value here
                files[number] = error
            else:
                yield number, texts[number]

    asked = numbered()
    with contextlib.ExitStack() as own:
        player = executor or own.enter_context(ThreadPoolExecutor(count))
        try:
            for number, answer in play_all(asked, command.content_of(program), ["--workers", "0"], player):
                files[number] = _file_of(answer, texts.pop(number))
        except (CommandError, NoEngine) as error:
            why = error if isinstance(error, CommandError) else CommandError(127, "", f"nothing more is played: {error}")
            files.update((number, why) for number, _ in asked)
            files.update(dict.fromkeys(texts, why))
    return [files[number] for number in sorted(files)]


def _file_of(answer: Union[Played, Unplayed], text: bytes) -> Union[bytes, Exception]:
    """The file that a text became, or the exception that says why there is none."""
    if isinstance(answer, Unplayed):
        return CommandError(127, "", f"it could not be played: {answer.why}")
    if answer.data is not None:
        return answer.data
    try:
        command.complain(answer.status, answer.said, ["--", "score", "file"], text)
    except CommandError as error:
        return error
    return CommandError(answer.status, answer.said, "there is no file")


def _processors() -> int:
    return len(os.sched_getaffinity(0)) if hasattr(os, "sched_getaffinity") else os.cpu_count() or 1
