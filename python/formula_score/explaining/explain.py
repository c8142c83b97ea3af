"""Why a run of the command ended as it did, in words for a person.

    python3 -m formula_score.explaining.explain STATUS LINE [WORD..]

prints them for a run on these words that ended with STATUS and said LINE. It never writes a file.
"""

from __future__ import annotations

import contextlib
import errno
import os
import re
import signal
import stat
import sys
import unicodedata
from typing import NamedTuple, Optional, Sequence

from ..making.values import escaped, plain
from ..repair import told
from .kinds import MIDI, RECORD, SCORE, not_a
from . import records
from .faults import FAULTS, FILE_FAULTS, RECORD_FAULTS
from .words import USAGE, read

MOST_BYTES = 1_048_576
MOST_RECORD = 67_108_864
#: The tasks of which OUT may be a pipe, since nothing in it is written over.
PIPED = ("--list", "--parts", "--record")
#: How many bytes of a file tell its kind.
BEGINNING = 4096
#: How many bytes of a file are shown before a place, and from it on.
BYTES_SHOWN = 12
#: The greatest part of a long line that is shown before the place, and from it on, in characters.
SHOWN = 60

_WRITE_FAILED = "a write failed, perhaps at a limit of size or a full disk"
_LEFT = "; what is there may be a beginning of the file"


class Place(NamedTuple):
    """Where the first fault of a text stands: line and column from 1, a column a byte; and its number."""

    line: int
    column: int
    number: int


def place_of(said: str) -> Optional[Place]:
    """The place and the number that the command's line tells of a refused text."""
    found = re.fullmatch(r"formula: score refused: ([0-9]+):([0-9]+) fault ([0-9]+)\n?", said)
    return Place(*map(int, found.groups())) if found else None


class FilePlace(NamedTuple):
    """Where the first fault of a file stands, a byte counted from 0; and its number."""

    byte: int
    number: int


def file_place_of(said: str) -> Optional[FilePlace]:
    """The place and the number that the command's line tells of a refused file."""
    found = re.fullmatch(r"formula: file refused: byte ([0-9]+) fault ([0-9]+)\n?", said)
    return FilePlace(*map(int, found.groups())) if found else None


def bytes_round(data: bytes, place: int) -> str:
    """Some bytes round a place as hexadecimal digits, behind the place of the first one; and a caret under it."""
    first = max(0, place - BYTES_SHOWN)
    gutter = f"{first} | "
    digits = data[first:place + BYTES_SHOWN].hex(" ").upper()
    return f"{gutter}{digits}".rstrip() + f"\n{' ' * (len(gutter) - 2)}| {' ' * 3 * (place - first)}^^"


def file_refusal(name: str, place: FilePlace, there: str = "") -> str:
    """What a refused file is told: the byte, those round it with a caret, what it means, what to do. Its bytes are
    `there`, or else where its name says."""
    fault, name, there = FILE_FAULTS.get(place.number), plain(name), there or name
    if fault is None:
        return f"{name}: byte {place.byte}: fault {place.number}"
    data = _bytes_of(there, max(place.byte + BYTES_SHOWN, BEGINNING))
    other = not_a(MIDI.what, data) if data and fault.number in (22, 35) else None
    means, do = other or (fault.means, "")
    parts = [f"{name}: byte {place.byte}: {means} (fault {fault.number})"]
    if data and fault.number != 35:
        parts.append(bytes_round(data, place.byte))
    return "\n".join([*parts, do or fault.do])


class RecordPlace(NamedTuple):
    """Where a record is refused, in bytes or in steps as its fault says; and the fault's number."""

    place: int
    number: int


def record_place_of(said: str) -> Optional[RecordPlace]:
    """The place and the number that the command's line tells of a refused record."""
    found = re.fullmatch(r"formula: record refused: ([0-9]+) fault ([0-9]+)\n?", said)
    return RecordPlace(*map(int, found.groups())) if found else None


def record_refusal(name: str, data: Optional[bytes], place: RecordPlace) -> str:
    """What a refused record is told: where, the bytes or the step there, what it means, what to do."""
    fault, name = RECORD_FAULTS.get(place.number), plain(name)
    if fault is None:
        return f"{name}: {place.place}: fault {place.number}"
    other = not_a(RECORD.what, data) if data and place == RecordPlace(0, 41) else None
    means, do = other or (fault.means, "")
    where = {44: f"{name}: step {place.place}", 45: f"{name}: behind {place.place} steps", 46: name}.get(
        place.number, f"{name}: byte {place.place}" + (" of the steps" if place.number == 43 else ""))
    said = [f"{where}: {means} (fault {fault.number})"]
    record = records.parts(data) if data else None
    if data and place.number == 41:
        said.append(bytes_round(data, place.place))
    elif record and place.number == 43:
        said.append(bytes_round(record.steps, place.place))
    elif record and place.number == 44:
        step = next((each for each in records.steps(record.steps) if each.number == place.place), None)
        if step:
            said.append(f"{step.number} {step.place} {step}")
    return "\n".join([*said, do or fault.do])


def position(text: bytes, byte: int) -> tuple[int, int]:
    """The line and the column of a byte, both from 1."""
    line = text.count(b"\n", 0, byte)
    return line + 1, byte - text.rfind(b"\n", 0, byte)


def excerpt(text: bytes, place: Place) -> str:
    """The line of the place, and a caret under it: two lines, the ends of a long one left out."""
    lines = text.split(b"\n")
    if not 1 <= place.line <= len(lines):
        return ""
    line = lines[place.line - 1].rstrip(b"\r")
    before = _shown(line[:place.column - 1].decode("utf-8", "replace"))
    behind = _shown(line[place.column - 1:].decode("utf-8", "replace"))
    if len(before) > SHOWN:
        before = "…" + before[-SHOWN:]
    if len(behind) > SHOWN:
        behind = behind[:SHOWN] + "…"
    gutter = f"{place.line} | "
    below = "".join("\t" if c == "\t" else " " * _columns(c) for c in before)
    return f"{gutter}{before}{behind}".rstrip() + f"\n{' ' * (len(gutter) - 2)}| {below}^"


def refusal(name: str, text: Optional[bytes], place: Place) -> str:
    """What a refused text is told: file, line and column, what stands there, the line with a caret, what to do.

    Where something is missing at the end of a line, that end is shown in place of what follows it.
    """
    fault, name = FAULTS.get(place.number), plain(name)
    if fault is None:
        return f"{name}:{place.line}:{place.column}: fault {place.number}"
    heading, cure = fault.means, fault.do
    other = not_a(SCORE.what, text) if text and place[:2] == (1, 1) else None
    if other:
        heading, cure = other
    elif text is not None and fault.number != 18:
        found = told(text, *place)
        if found:
            heading, cure = found.heading or heading, found.cure or cure
            place = Place(*position(text, found.place), place.number)
    parts = [f"{name}:{place.line}:{place.column}: {heading} (fault {fault.number})"]
    if text is not None and fault.number != 18:
        parts.append(excerpt(text, place))
    return "\n".join(part for part in [*parts, cure] if part)


def by_signal(number: int) -> str:
    """What is told of a run that a signal ended."""
    try:
        return f"the signal {signal.Signals(number).name} ended the program"
    except ValueError:
        return f"the signal {number} ended the program"


def explanation(status: int, said: str, words: Sequence[str], there: str = "") -> str:
    """What is known of a run on these words that ended with this status and this line; '' for nothing. What was read is
    `there`, or else where the name of IN says."""
    asked = read(words)
    source, target = (asked.files + ("", ""))[:2]
    there = there or source
    if status < 0:
        return by_signal(-status)
    if status == 1:
        return f"{asked.wrong or 'these words are refused'}\n{USAGE}"
    if status == 2:
        return f"{source!r} cannot be read: {_why_unread(there)}"
    if status == 3:
        place, file_place = place_of(said), file_place_of(said)
        record_place = record_place_of(said)
        if file_place:
            return file_refusal(source, file_place, there)
        if asked.task != "--audit":
            return refusal(source, _bytes_of(there, MOST_BYTES + 1), place) if place else ""
        data = _bytes_of(there, MOST_RECORD + 1)
        if record_place:
            return record_refusal(source, data, record_place)
        record = records.parts(data) if data else None
        return refusal(f"{source}, its score", record.text if record else None, place) if place else ""
    if status == 4:
        return f"{target!r} cannot be written: {_why_unwritten(target, asked.task in PIPED)}"
    if status == 5:
        return "the line could not be written to standard output" + (f": {said.strip()}" if said else "")
    if status == 6:
        return "there is too little memory; nothing was written"
    if status == 7:
        return (f"there is no process {asked.numbers.get('--process', 0)}: 0 is what stands before the first `par`, "
                "and each branch and what follows a `par` is one more, numbered as they stand in the text")
    return ""


def _shown(text: str) -> str:
    return "".join(c if c == "\t" or c.isprintable() else "\N{REPLACEMENT CHARACTER}" for c in text)


def _columns(c: str) -> int:
    if unicodedata.combining(c) or unicodedata.category(c) == "Mn":
        return 0
    return 2 if unicodedata.east_asian_width(c) in "WF" else 1


def _bytes_of(name: str, most: int) -> Optional[bytes]:
    """What was read once more: of a plain file alone, since a pipe has given it away."""
    try:
        if not stat.S_ISREG(os.stat(name).st_mode):
            return None
        with open(name, "rb") as file:
            return file.read(most)
    except (OSError, ValueError):
        return None


def _why_unread(name: str) -> str:
    if not name:
        return "it has no name"
    try:
        with open(name, "rb") as file:
            file.read(1)
    except OSError as error:
        return error.strerror or "the host does not say why"
    return "it could not be read to its end, though it can be opened now"


def _why_unwritten(name: str, piped: bool) -> str:
    if not name:
        return "it has no name"
    folder = os.path.dirname(os.path.realpath(name))
    try:
        mode = os.stat(name).st_mode
    except FileNotFoundError:
        return os.strerror(errno.EISDIR) if name.endswith("/") and os.path.isdir(folder) else _why_unmade(folder)
    except (OSError, ValueError) as error:
        return getattr(error, "strerror", None) or "the host does not say why"
    if stat.S_ISDIR(mode):
        return os.strerror(errno.EISDIR)
    if stat.S_ISREG(mode):
        return why_full(folder, _LEFT) if os.access(name, os.W_OK) else os.strerror(errno.EACCES)
    if piped:
        return _WRITE_FAILED + _LEFT
    return ("it is no plain file: the length of the track is written last, so OUT must be a file that can be sought in, "
            "on a device with room")


def _why_unmade(folder: str) -> str:
    """Why no new file could be made, or filled, in a folder."""
    if re.fullmatch(r"/proc/[0-9]+(/task/[0-9]+)?/fd", folder):
        return os.strerror(errno.EBADF)
    try:
        os.stat(folder)
    except OSError as error:
        return error.strerror or "the host does not say why"
    if not os.access(folder, os.W_OK | os.X_OK):
        return f"{os.strerror(errno.EACCES)}: the folder {folder!r} may not be written to"
    return why_full(folder, _LEFT)


def why_full(folder: str, left: str = "") -> str:
    """Why a write into a folder failed, and what is left behind."""
    with contextlib.suppress(OSError):
        if os.statvfs(folder).f_bavail == 0:
            return os.strerror(errno.ENOSPC)
    return _WRITE_FAILED + left


def main(words: Sequence[str]) -> int:
    text = explanation(int(words[0]), words[1], words[2:])
    if text:
        encoding = sys.stdout.encoding or "utf-8"
        print(escaped(text).encode(encoding, "replace").decode(encoding))
    return 0


if __name__ == "__main__":
    sys.exit(main(sys.argv[1:]))
