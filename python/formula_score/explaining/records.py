"""The record of a run, which `formula` writes with `--record` and checks with `--audit`: its parts, and its steps
as lines. docs/RECORDS.md has the format, docs/SCHEDULER.md says what the steps do. Nothing is checked here but the bytes."""

from __future__ import annotations

from collections import Counter
from typing import Iterator, NamedTuple, Optional

HEAD = 14
MAGIC = b"FMR1"
KINDS = ("Look", "Claim", "Start", "Record", "Recall", "Give", "Publish", "Pace", "Release")

# The fields of each kind, each with how many bytes it has.
_OF_A_PROCESS = (("seat", 1), ("process", 2))
_FIELDS = {
    "Give": (*_OF_A_PROCESS, ("taken", 1), ("computed", 2), ("clock", 6), ("ended", 1)),
    "Publish": (),
    "Pace": (("seat", 1),),
    "Release": (("events", 4),),
}


class Record(NamedTuple):
    """The parts of a record."""

    seats: int
    room: int
    lead: int
    text: bytes
    steps: bytes


class Step(NamedTuple):
    """A step: its number from 0, the byte of the steps with which it begins, its kind and its fields."""

    number: int
    place: int
    kind: str
    fields: tuple[tuple[str, int], ...]

    def __str__(self) -> str:
        """As `Give seat 0 process 2 taken 1 computed 0 clock 480 ended`."""
        return " ".join([self.kind, *self.words()])

    def words(self) -> Iterator[str]:
        """What the fields say."""
        for name, value in self.fields:
            if name == "events":
                yield f"{value} events"
            elif name != "ended":
                yield f"{name} {value}"
            elif value:
                yield name


def parts(data: bytes) -> Optional[Record]:
    """The parts of a record whose head and text are whole; None of other bytes."""
    if len(data) < HEAD or data[:4] != MAGIC:
        return None
    length = int.from_bytes(data[10:14], "big")
    if length > len(data) - HEAD:
        return None
    return Record(data[4], data[5], int.from_bytes(data[6:10], "big"), data[HEAD:HEAD + length], data[HEAD + length:])


def steps(data: bytes) -> Iterator[Step]:
    """The steps of these bytes, up to the first place where none begins."""
    place = number = 0
    while place < len(data) and 1 <= data[place] <= len(KINDS):
        kind, at, fields = KINDS[data[place] - 1], place + 1, []
        for name, width in _FIELDS.get(kind, _OF_A_PROCESS):
            fields.append((name, int.from_bytes(data[at:at + width], "big")))
            at += width
        if at > len(data) or kind == "Give" and fields[-1][1] > 1:
            return
        yield Step(number, place, kind, tuple(fields))
        place, number = at, number + 1


def length(step: Step) -> int:
    """How many bytes a step has."""
    return 1 + sum(width for _, width in _FIELDS.get(step.kind, _OF_A_PROCESS))


def lines(record: Record) -> Iterator[str]:
    """A record as text: its head, its score behind `| `, a line for each step with its number and its place, and how
    many there are of each kind."""
    yield f"seats {record.seats}  room {record.room}  lead {record.lead}  text {len(record.text)} bytes"
    for line in record.text.split(b"\n"):
        yield f"| {_plain(line)}".rstrip()
    end, kinds = 0, Counter[str]()
    for step in steps(record.steps):
        yield f"{step.number:>8} {step.place:>9}  {step.kind:<8}{' '.join(step.words())}".rstrip()
        end = step.place + length(step)
        kinds[step.kind] += 1
    yield f"{sum(kinds.values())} steps: " + (", ".join(f"{count} {kind}" for kind, count in kinds.most_common()) or "none")
    if end < len(record.steps):
        yield f"no step begins at byte {end} of the steps: {record.steps[end:end + HEAD].hex(' ').upper()}"


def _plain(line: bytes) -> str:
    """The line, with an escape in place of what a terminal might obey."""
    return "".join(sign if sign.isprintable() or sign == "\t" else ascii(sign)[1:-1]
                   for sign in line.decode("utf-8", "replace"))
