"""Looks at registers: what is set and never read, what a phrase takes from its caller; and draws."""

from __future__ import annotations

import re
from bisect import bisect_left
from typing import NamedTuple, Optional

from ..reading.tree import Expression, Phrase, Statement
from ..reading.walk import Happening, Place
from .looking import Finds, Look, Looking
from .values import expressions, parts_of_expression

_SAME_VOICES = re.compile(r"canon|same|echo|unison|imitat|repeats? the|doubl|answer", re.IGNORECASE)


class Store(NamedTuple):
    """A register as it is set: by which statement, in which phrase that is played, which one set it before, and which
    one before that phrase was played."""

    by: Statement
    phrase: Optional[Place]
    before: Optional[Statement]
    outer: Optional[Statement]


class Stores(Look):
    """What registers hold, by process."""

    def __init__(self, walk: Looking, finds: Finds):
        super().__init__(walk, finds)
        self.now: dict[tuple[int, int], Store] = {}       # by process and register
        self.seen: dict[int, tuple[Statement, Optional[Statement]]] = {}    # by it what set the register again

    def statement(self, happening: Happening) -> None:
        of = happening.statement
        if of.word != "set":
            return
        key = happening.process, of.number
        before = self.now.get(key)
        if before and (before.by is not of or before.by.first.start not in self.finds.read):
            self.seen[before.by.first.start] = before.by, of
        self.seen.setdefault(of.first.start, (of, None))
        phrase = _phrase(happening.place)
        outer = before.outer if before and before.phrase is phrase else before.by if before else None
        self.now[key] = Store(of, phrase, before.by if before else None, outer)

    def value(self, of: Expression, value: int) -> None:
        if of.of != "r":
            return
        store = self.now.get((self.walk.now.number, of.number))
        current = self.walk.current
        if store is None or current is None:
            return
        is_own = current.word == "set" and current.number == of.number
        if not is_own or current is not store.by:
            self._overwritten(store, of.number, current)
        if not is_own:
            self.finds.read.add(store.by.first.start)
            self._through(store)

    def _through(self, store: Store) -> None:
        """What is read was made of the value before, where the register counts on."""
        if store.before and any(part.of == "r" and part.number == store.by.number for each in expressions(store.by)
                                for part in parts_of_expression(each)):
            self.finds.read.add(store.before.first.start)

    def _overwritten(self, store: Store, register: int, current: Statement) -> None:
        """A phrase that sets a register for its own use, where who plays it set it, and reads it behind."""
        phrase = store.phrase
        if not phrase or not store.outer or store.outer.first.start not in self.finds.read:
            return
        if not isinstance(phrase.node, Phrase) or _is_inside(self.walk.place, phrase):
            return
        block = phrase.node.block
        sets = [each for each in self.reading.every_statement() if each.word == "set" and each.number == register
                and block.opened.start < each.first.start < block.closed.start]
        has_notes = any(each.word in ("note", "play") and block.opened.start < each.first.start < block.closed.start
                        for each in self.reading.every_statement())
        if sets and has_notes and not any(part.of == "r" for each in expressions(sets[0])
                                          for part in parts_of_expression(each)):
            self.finds.find("register-overwritten", sets[0].first,
                            f"phrase {phrase.node.name.text} sets `r{register}` for itself, and line {current.line} "
                            "reads it after the phrase: take another register here")

    def finish(self) -> None:
        for start, (of, again) in self.seen.items():
            if start not in self.finds.read:
                why = f": line {again.line} sets it again" if again and again is not of else ""
                self.finds.find("set-not-read", of.first, f"what `r{of.number}` is set to here is never read{why}")


class Draws(Look):
    """A phrase that draws, in several branches that are said to be alike."""

    def __init__(self, walk: Looking, finds: Finds):
        super().__init__(walk, finds)
        self.branches: dict[str, dict[int, Statement]] = {}     # by each phrase that draws the branches that play it
        draws = [token.start for token in self.reading.tokens if token.text == "pick"]
        self.drawing = {name for name, phrase in self.reading.phrases.items()
                        if bisect_left(draws, phrase.block.opened.start)
                        < bisect_left(draws, phrase.block.closed.start)}
        self.is_said = any(_SAME_VOICES.search(comment.text) for comment in self.reading.comments)

    def statement(self, happening: Happening) -> None:
        of = happening.statement
        if self.is_said and of.word == "do" and of.name in self.drawing:
            self.branches.setdefault(of.name, {}).setdefault(happening.process, of)

    def finish(self) -> None:
        for name, played in self.branches.items():
            if len(played) > 1:
                later = list(played.values())[1]
                self.finds.find("draws-apart", later.first,
                                f"phrase {name} draws by `pick`, and each branch draws anew: it plays other notes here "
                                f"than on line {next(iter(played.values())).line}")


def _phrase(place: Optional[Place]) -> Optional[Place]:
    """The phrase in which a place is, as it is played."""
    while place and place.kind != "phrase":
        place = place.outer
    return place


def _is_inside(place: Optional[Place], outer: Place) -> bool:
    while place:
        if place is outer:
            return True
        place = place.outer
    return False
