"""The events of a score in the order of the file, each with the statement that sends it."""

from __future__ import annotations

from typing import Iterator, Optional

from ..making.expected import Made, come_out
from .playing import Event, Listing
from .walk import Happening, Played, messages_of


class Sent(bytes):
    """A message that knows what sends it, and where it is in the score as written: a note-off where its note ends."""

    happening: Optional[Happening]
    written: int

    @staticmethod
    def by(message: bytes, written: int, happening: Optional[Happening] = None) -> "Sent":
        """A message of a statement; that of none is the end of the piece."""
        sent = Sent(message)
        sent.happening, sent.written = happening, written
        return sent


def _sent(of: Happening) -> Iterator[Made]:
    for tick, message in messages_of(of):
        ends = (of.end - of.begin) * of.percent // 100 if message[0] >> 4 == 8 else 0
        yield tick, Sent.by(message, of.begin + ends, of)


def sent_of(walk: Played) -> Listing:
    """The events of a walk and its end, in one track; each message is a `Sent`."""
    made: list[list[Made]] = [[] for _ in walk.begun]
    for happening in walk.happenings:
        made[happening.process] += _sent(happening)
    events = sorted((tick, process, number, message) for process, own in enumerate(made)
                    for number, (tick, message) in enumerate(come_out(own, walk.tick_of_end(process))))
    last = len(walk.begun) - 1
    end = Event(0, walk.tick_of_end(last), Sent.by(b"\xff\x2f\x00", walk.ended[last].written))
    return Listing(0, 1, walk.reading.division, [*(Event(0, tick, message) for tick, _, _, message in events), end])
