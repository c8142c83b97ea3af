"""Runs of the proved program: its files, its listings, and what it says of a text that it refuses."""

from __future__ import annotations

import contextlib
import os
import pathlib
import re
import subprocess
import sys
import tempfile
from functools import lru_cache
from typing import Iterable, Mapping, NamedTuple, Optional, Sequence

from ..explaining.explain import explanation
from ..making.errors import CommandError
from ..running import command, pieces
from ..running.command import FileEvent as Event
from ..explaining.kinds import BY_VERBS
from ..running.outs import name_of, nameless

__all__ = ["Event", "Failed", "Listing", "Run", "judge", "listed", "listing_of", "listing_of_file", "located",
           "counted", "must_differ", "must_end_in", "named", "needs", "program", "run", "text_of"]

#: The status where there is no program, as `bin/formula` has it.
NO_PROGRAM = 70

_TOP = pathlib.Path(__file__).resolve().parents[3]


class Failed(Exception):
    """Why a verb cannot go on: the status it ends with, a line for standard output, and the reason."""

    def __init__(self, status: int, why: str, said: str = ""):
        super().__init__(why)
        self.status, self.why, self.said = status, why, said


class NoScore(Failed):
    """Why a Python file makes no score, and the line and the column of it, from 1."""

    def __init__(self, unmade: pieces.Unmade):
        (self.line, self.column), self.heading = unmade.place, unmade.why
        super().__init__(3, unmade.told(), f"formula-score: no score: {self.line}:{self.column}")


class Run(NamedTuple):
    """A run of the program: its status, its line, and what the line means."""

    status: int
    said: str
    why: str


class Listing(command.Listing):
    """The events of a file."""

    __slots__ = ()

    @property
    def end(self) -> int:
        """The tick of the last End of Track."""
        return max((event.tick for event in self.events if event.message[:2] == b"\xff\x2f"), default=0)


def program() -> str:
    """The proved program; where this package stands in the repository, else one that was built without proofs, which is
    told. None is built."""
    found, script = command.find_program(), _TOP / "bin" / "formula"
    if script.exists() and (found is None or pathlib.Path(found).resolve().parent in (script.parent, _TOP / "scripts")):
        found = _of_checkout(script)
    if not found:
        raise Failed(1, "there is no program: let FORMULA name it, or put formula into PATH")
    return found


@lru_cache(maxsize=None)
def _of_checkout(script: pathlib.Path) -> str:
    """The program that bin/formula finds, which says what there is to say of it."""
    done = subprocess.run([script, "--found"], stdout=subprocess.PIPE, stderr=subprocess.PIPE, env=command.environment(),
                          text=True, errors="replace", check=False)
    if done.returncode:
        raise Failed(NO_PROGRAM, done.stderr.strip())
    print(done.stderr, end="", file=sys.stderr)
    return done.stdout.strip()


def run(source: str, target: str, *options: str, text: Optional[bytes] = None, keeps: bool = False) -> Run:
    """Runs the program on two files; nobody is told anything. `text` is what IN has, where it was read already. With
    `keeps` OUT is the old file until it is the whole new one."""
    words = [*options, "--"]
    with contextlib.ExitStack() as open_files:
        copies = [] if text is None else [open_files.enter_context(nameless(text))]
        there, files = (name_of(copies[0]) if copies else source), [copy.fileno() for copy in copies]
        try:
            if keeps:
                status, said, unwritten = command.answer_into(program(), [*words, there], target, files)
            else:
                (status, said), unwritten = command.answer(program(), [*words, there, target], files), ""
        except CommandError as error:
            raise Failed(1, error.why) from error
        if unwritten:
            return Run(status, said, f"{target!r} cannot be written: {unwritten}")
        why = explanation(status, said, [*words, source, target], there) if status else ""
    before, line = why.rpartition("\n")[::2]
    return Run(128 - status if status < 0 else status, said, f"{before}\n{BY_VERBS[line]}" if line in BY_VERBS else why)


def needs(run: Run, refused: Optional[int] = None) -> Run:
    """The run, where it ended with 0; else its status ends the verb, or `refused` in place of a refusal's."""
    if run.status == 0:
        return run
    raise Failed(refused if refused is not None and run.status == 3 else run.status, run.why, run.said)


def text_of(path: str) -> bytes:
    """The bytes of a score or a file; of a Python file the score that it makes."""
    return made_of(path, bytes_of(path))


def bytes_of(path: str) -> bytes:
    """The bytes of a file, or of the file that a word as `canon.py:NAME` means."""
    try:
        with open(pieces.file_of(path), "rb") as file:
            return file.read()
    except OSError as error:
        raise Failed(2, f"{path!r} cannot be read: {error.strerror}") from error


def made_of(path: str, data: bytes) -> bytes:
    """The bytes of a file, which are given; of a Python file the score that it makes."""
    try:
        return pieces.made_of(path, data).text if pieces.named(path) else data
    except pieces.Unmade as unmade:
        raise NoScore(unmade) from unmade


def listed(lines: Iterable[str]) -> Listing:
    """What the lines of a listing say; a `ValueError` where they are none."""
    return Listing(*command.listing_of(lines))


def listing_of_file(path: str, refused: Optional[int] = None) -> Listing:
    """The listing of a MIDI file."""
    with tempfile.TemporaryDirectory() as folder:
        out = os.path.join(folder, "out.listing")
        needs(run(path, out, "--list"), refused)
        with open(out, encoding="ascii") as file:
            return listed(file)


def listing_of(text: bytes, options: Sequence[str] = (), refused: Optional[int] = None) -> Listing:
    """The listing of what a text plays."""
    with tempfile.TemporaryDirectory() as folder:
        source, target = os.path.join(folder, "in.score"), os.path.join(folder, "out.mid")
        with open(source, "wb") as file:
            file.write(text)
        needs(run(source, target, "--workers", "0", *options), refused)
        return listing_of_file(target)


def located(text: bytes, tick: int, process: int) -> Optional[tuple[int, ...]]:
    """The positions of a tick in the levels that are open where a process starts; None where there is none."""
    try:
        return command.locate(text, tick, process, program()).positions
    except CommandError as error:
        raise Failed(error.status, error.why, error.said) from error


def counted(number: int, thing: str) -> str:
    """So many of something, as `1 note` or `2 notes`."""
    return f"{number:,} {thing}{'' if number == 1 else 'es' if thing.endswith(('ch', 'ss')) else 's'}"


def named(counts: Mapping[str, int]) -> str:
    """How many of each there are that is named in the plural, as `1 note; 2 bends`; nothing where there is none."""
    said = {what: re.sub(r"s\b", "", what, count=1) if count == 1 else what for what, count in counts.items()}
    return "; ".join(f"{count:,} {said[what]}" for what, count in sorted(counts.items()) if count)


def must_differ(source: str, target: str) -> None:
    """Refuses to write a file over what it is made of."""
    source = pieces.file_of(source)
    if os.path.exists(source) and os.path.exists(target) and os.path.samefile(source, target):
        raise Failed(2, f"{target!r} is the file that is read: give another name to what is written")


def must_end_in(path: str, suffixes: Sequence[str]) -> str:
    """The suffix of a file that is written, in small letters; refuses a name that promises another kind of file."""
    suffix = pathlib.PurePath(path).suffix
    if suffix.lower() in suffixes:
        return suffix.lower()
    said = f"{path!r} ends in {suffix!r}" if suffix else f"{path!r} has no suffix"
    raise Failed(2, f"{said}: what is written is {', '.join(suffixes[:-1])} or {suffixes[-1]}")


def judge(path: str, refused: Optional[int] = 1) -> bytes:
    """The text of a score that the program accepts; nothing is played."""
    try:
        text = text_of(path)
    except NoScore as failed:
        failed.status = refused or failed.status
        raise
    needs(run(path, os.devnull, "--locate", "0", text=text), refused)
    return text
