"""Runs the command, and turns what it says into values and exceptions.

The options that change how a score is computed, and never its file: `workers`, how many threads compute ahead, 0 to
16 (4 where it is not given); `lead`, how many ticks a process may run ahead, 0 to 1,000,000 (7680); `room`, how many
events of a process may wait, 1 to 64 (32); `rounds`, that the threads play in rounds. Those that ask for another
file, one of them at a time: `parts`, a track for each channel; `from_` and `to`, an excerpt between these ticks;
`record`, the record of the run.
"""

from __future__ import annotations

import contextlib
import os
import re
import shutil
import subprocess
from typing import IO, Iterable, Iterator, NamedTuple, Optional, Sequence, Union

from ..explaining.explain import (
    explanation, file_place_of, file_refusal, place_of, record_place_of, record_refusal, refusal,
)
from ..explaining.words import RANGES
from ..making.errors import CommandError, FileRefused, RecordRefused, Refused, ScoreError
from ..making.values import truth, whole
from .outs import WRITE, WRITE_LINE, name_of, nameless, out_of, settled

#: PREFIX/lib/formula, where the library is installed with the command.
_HOME = os.path.abspath(os.path.join(os.path.dirname(__file__), *[os.pardir] * 3))

_SETPRIV = "/usr/bin/setpriv", "--pdeathsig", "TERM", "--"

Path = Union[str, "os.PathLike[str]"]


class Located(NamedTuple):
    """Where a tick of the file lies in each deformation that is open where a `process` starts: docs/POSITIONS.md.

    `start` is the tick at which the process starts. `positions` has a position for each of its `levels`, in ticks as
    they are written in the block, the outermost first; it is None where the level `never` does not come there.
    """

    process: int
    levels: int
    start: int
    positions: Optional[tuple[int, ...]]
    never: Optional[int]


class FileEvent(NamedTuple):
    """An event of a MIDI file: its `track` from 0, its `tick` from the beginning of the file, and its bytes as
    `message`, the status byte always among them."""

    track: int
    tick: int
    message: bytes


class Listing(NamedTuple):
    """The `events` of a MIDI file, track by track; its `format`, how many `tracks` it has, and as `division` the ticks
    of a quarter note."""

    format: int
    tracks: int
    division: int
    events: list[FileEvent]


class Large(NamedTuple):
    """A large score that was played: how many `processes` and `events` it has, the tick of its End of Track as
    `last`, and the `bytes` of the file."""

    processes: int
    events: int
    last: int
    bytes: int


def find_program(program: Optional[str] = None) -> Optional[str]:
    """The program that is named here or in FORMULA, that beside which this library is installed, or `formula` in PATH;
    None where there is none."""
    named = program or os.environ.get("FORMULA")
    if named:
        return named
    beside = os.path.join(_HOME, "formula")
    return beside if os.path.basename(_HOME) == "formula" and os.access(beside, os.X_OK) else _in_path()


def _in_path() -> Optional[str]:
    """`formula` in PATH; where that is the command as it is installed, the program itself, which explains nothing."""
    found = shutil.which("formula")
    if found is None:
        return None
    inner = os.path.join(os.path.dirname(os.path.dirname(os.path.realpath(found))), "lib", "formula", "formula")
    return inner if os.access(inner, os.X_OK) else found


def play(text: Union[str, bytes], path: Path, program: Optional[str] = None, *, workers: Optional[int] = None,
         lead: Optional[int] = None, room: Optional[int] = None, rounds: bool = False, parts: bool = False,
         from_: Optional[int] = None, to: Optional[int] = None, record: bool = False) -> None:
    """Lets the command play a text into the file `path`; the options are those of this module.

    A text that has a fault raises `Refused`, with the place and the meaning; any other end above 0 a `CommandError`.
    Then the file is what it was: a new one takes its place when all of it is written and synced. Mode and owner stay;
    another hard link to the old file keeps the old one. A FIFO or a device is written straight.
    """
    options = words_of(workers, lead, room, rounds, parts, from_, to, record)
    data, name = _bytes_of(text), file_name(path)
    with nameless(data) as source:
        _run_into(program, options, name_of(source), name, data, [source])


def render(text: Union[str, bytes], program: Optional[str] = None, *, workers: Optional[int] = None,
           lead: Optional[int] = None, room: Optional[int] = None, rounds: bool = False, parts: bool = False,
           from_: Optional[int] = None, to: Optional[int] = None, record: bool = False) -> bytes:
    """Plays a text as `play` does, and gives the bytes of the file."""
    options = words_of(workers, lead, room, rounds, parts, from_, to, record)
    data = _bytes_of(text)
    with nameless(data) as source, nameless() as target:
        _run(program, options, name_of(source), name_of(target), data, [source, target])
        return target.read()


def locate(text: Union[str, bytes], tick: int, process: int = 0, program: Optional[str] = None) -> Located:
    """Where a tick of the file lies in the deformations round a process; a `CommandError` where there is none."""
    words = ["--locate", str(whole("a tick", tick, *RANGES["--locate"])),
             "--process", str(whole("a process", process, *RANGES["--process"]))]
    data = _bytes_of(text)
    with nameless(data) as source:
        said = _run(program, words, name_of(source), os.devnull, data, [source])
    found = re.fullmatch(r"process (\d+) levels (\d+) start (\d+) (positions|never)((?: \d+)*)", said)
    if not found:
        raise CommandError(0, said, f"the program said something else than where the tick lies: {said!r}")
    number, levels, start = map(int, found.group(1, 2, 3))
    numbers = tuple(map(int, found.group(5).split()))
    if found.group(4) == "never":
        return Located(number, levels, start, None, numbers[0])
    return Located(number, levels, start, numbers, None)


def listing(source: Union[Path, bytes], program: Optional[str] = None) -> Listing:
    """The events of a MIDI file of format 0 or 1, of whatever program: a path, or the bytes themselves.

    What is no such file raises `FileRefused`, with the byte.
    """
    with _stored(source) as (name, files), nameless() as target:
        _run(program, ["--list"], name, name_of(target), files=[*files, target])
        with open(name_of(target), encoding="ascii") as file:
            try:
                return listing_of(file)
            except ValueError:
                raise CommandError(0, "", "the program wrote something else than a listing") from None


def listing_of(lines: Iterable[str]) -> Listing:
    """The events that the lines of a listing tell, as the command writes them; a `ValueError` for other lines."""
    rows = iter(lines)
    head = re.fullmatch(r"format (\d+) tracks (\d+) division (\d+)\n?", next(rows, ""))
    if head is None:
        raise ValueError("the first line has no format, tracks and division")
    events = [FileEvent(int(track), int(tick), bytes.fromhex(message))
              for track, tick, message in (line.split(" ", 2) for line in rows)]
    form, tracks, division = map(int, head.groups())
    return Listing(form, tracks, division, events)


def large(number: int, path: Path, program: Optional[str] = None, *, workers: Optional[int] = None,
          lead: Optional[int] = None, room: Optional[int] = None, rounds: bool = False, parts: bool = False,
          from_: Optional[int] = None, to: Optional[int] = None, record: bool = False) -> Large:
    """Plays the large score of a number, 0 to 999,999,999, which is for measuring; the options are those of `play`."""
    words = ["--generate", str(whole("a large score", number, *RANGES["--generate"]))]
    words += words_of(workers, lead, room, rounds, parts, from_, to, record)
    said = _run_into(program, words, os.devnull, file_name(path))
    found = re.fullmatch(r"processes (\d+) events (\d+) last (\d+) bytes (\d+)", said)
    if not found:
        raise CommandError(0, said, f"the program said something else than the totals: {said!r}")
    return Large(*map(int, found.groups()))


def audit(record: Union[Path, bytes], path: Path, program: Optional[str] = None) -> None:
    """Checks the record of a run step by step, and writes the file of its score: of a path, or of the bytes.

    A record whose steps are no run raises `RecordRefused`, one whose score has a fault `Refused`.
    """
    with _stored(record) as (name, files):
        _run_into(program, ["--audit"], name, file_name(path), files=files)


def words_of(workers: Optional[int] = None, lead: Optional[int] = None, room: Optional[int] = None,
             rounds: bool = False, parts: bool = False, from_: Optional[int] = None, to: Optional[int] = None,
             record: bool = False) -> list[str]:
    """The options as words of the command line."""
    words: list[str] = []
    for name, number in (("workers", workers), ("lead", lead), ("room", room), ("from", from_), ("to", to)):
        if number is not None:
            words += [f"--{name}", str(whole(f"the option {name}", number, *RANGES[f"--{name}"]))]
    for name, is_asked in (("rounds", rounds), ("parts", parts), ("record", record)):
        if truth(f"the option {name}", is_asked):
            words.append(f"--{name}")
    asked = ("--parts" in words) + ("--record" in words) + ("--from" in words or "--to" in words)
    if asked > 1:
        raise ScoreError("parts, a record and an excerpt are asked for one at a time")
    return words


def file_name(path: Path) -> str:
    """The name of a file, as the command takes it: a text without NUL. `-` is a file too."""
    name = os.fspath(path)
    if not isinstance(name, str) or "\0" in name or name.encode("utf-8", "replace").decode() != name:
        raise ScoreError(f"the name of a file is a text in UTF-8 without NUL, and {name!r} is none")
    return os.path.join(os.curdir, name) if name == "-" else name


@contextlib.contextmanager
def _stored(source: Union[Path, bytes]) -> Iterator[tuple[str, list[IO[bytes]]]]:
    """The name of a file that has the bytes, and the file where it was made for them."""
    if isinstance(source, bytes):
        with nameless(source) as file:
            yield name_of(file), [file]
    else:
        yield file_name(source), []


def _bytes_of(text: Union[str, bytes]) -> bytes:
    return text.encode("utf-8") if isinstance(text, str) else text


def environment() -> dict[str, str]:
    """The environment without FORMULA: a program that runs `bin/formula` would be run by it again."""
    return {name: value for name, value in os.environ.items() if name != "FORMULA"}


def ends_with_this(words: Sequence[str]) -> list[str]:
    """The words of a run that ends where this process, or the thread that began it, is gone, as util-linux can do. What is
    no program is left to the host, which says so: else a shell would try it."""
    with contextlib.suppress(OSError, ValueError), open(shutil.which(words[0]) or words[0], "rb") as file:
        if os.access(_SETPRIV[0], os.X_OK) and file.read(4).startswith((b"\x7fELF", b"#!")):
            return [*_SETPRIV, *words]
    return list(words)


def _run(program: Optional[str], options: Sequence[str], source: str, target: str, text: Optional[bytes] = None,
         files: Sequence[IO[bytes]] = ()) -> str:
    """Runs the command, and gives its line; raises what its status says."""
    status, said = answer(program, [*options, "--", source, target], [file.fileno() for file in files])
    if status:
        complain(status, said, [*options, "--", source, target], text)
    return said


def _run_into(program: Optional[str], options: Sequence[str], source: str, target: str,
              text: Optional[bytes] = None, files: Sequence[IO[bytes]] = ()) -> str:
    """Runs the command so that OUT is the old file until it is the whole new one."""
    status, said, why = answer_into(program, [*options, "--", source], target, [file.fileno() for file in files])
    if why:
        raise CommandError(WRITE, WRITE_LINE, f"{target!r} cannot be written: {why}")
    if status:
        complain(status, said, [*options, "--", source, target], text)
    return said


def complain(status: int, said: str, words: Sequence[str], text: Optional[bytes] = None) -> None:
    """Raises what a status above 0 and its line say of a run with these words, of which the last two are IN and OUT."""
    if status == 3:
        _refuse(said, words[-2], text, "--audit" in words)
    raise CommandError(status, said, explanation(status, said, words))


def answer_into(program: Optional[str], words: Sequence[str], target: str,
                files: Sequence[int] = ()) -> tuple[int, str, str]:
    """Runs the command on these words and OUT, and keeps what it was until all of the new one is there. Gives its status,
    its line, and why OUT could not be written, where that is known."""
    out = out_of(target)
    try:
        status, said = answer(program, [*words, out.name], [*files, *out.files])
        why = settled(out, status)
    finally:
        out.drop()
    return (WRITE, WRITE_LINE, why) if why else (status, said, "")


def answer(program: Optional[str], words: Sequence[str], files: Sequence[int] = ()) -> tuple[int, str]:
    """Runs the command on these words, to which these open files are handed, and gives its status and its line."""
    command = needed_program(program)
    try:
        for call in (ends_with_this([command, *words]), [command, *words]):
            run = subprocess.run(call, stdin=subprocess.DEVNULL, stdout=subprocess.PIPE, stderr=subprocess.DEVNULL,
                                 check=False, env=environment(), pass_fds=files)
            if run.returncode not in (126, 127):  # else it could not be run, and the second call says why
                break
    except (OSError, ValueError) as error:  # a name that no file has is the one or the other
        raise _unusable(command, "run", error) from error
    return run.returncode, run.stdout.decode("utf-8", "replace").strip()


def content_of(program: Optional[str] = None) -> bytes:
    """The bytes of the program, as an executor is sent them."""
    command = needed_program(program)
    try:
        with open(command, "rb") as file:
            return file.read()
    except (OSError, ValueError) as error:
        raise _unusable(command, "read", error) from error


def needed_program(program: Optional[str] = None) -> str:
    """The program; a `CommandError` where there is none."""
    found = find_program(program)
    if found is None:
        raise CommandError(127, "", "there is no program: name it, or let FORMULA name it, or put formula into PATH")
    return found


def _unusable(command: str, what: str, error: Exception) -> CommandError:
    reason = error.strerror if isinstance(error, OSError) else str(error)
    return CommandError(127, "", f"{command} cannot be {what}: {reason}")


def _refuse(said: str, source: str, text: Optional[bytes], is_record: bool) -> None:
    """Raises what a line of status 3 says, where it says a place."""
    place, file_place, record_place = place_of(said), file_place_of(said), record_place_of(said)
    if place is not None and is_record:
        raise Refused(said, explanation(3, said, ["--audit", "--", source, ""]), *place)
    if place is not None:
        raise Refused(said, refusal("score", text, place), *place)
    if file_place is not None:
        raise FileRefused(said, file_refusal(source, file_place), *file_place)
    if record_place is not None:
        with open(source, "rb") as file:
            raise RecordRefused(said, record_refusal(source, file.read(), record_place), *record_place)
