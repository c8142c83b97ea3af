"""Looks at what a channel is sent: pedals, bends and instruments, and notes of which nothing is heard."""

from __future__ import annotations

from typing import NamedTuple, Optional

from ..making.midi import INSTRUMENTS
from ..reading.tree import Statement
from ..reading.walk import Happening, tick_of
from .finding import Edit, replaced
from .looking import Look

#: Of more notes than these none is kept for what a channel is sent.
MOST_NOTES = 300_000
_PEDAL, _VOLUME, _EXPRESSION = 64, 7, 11
_NOTES = {"note", "play"}


class Sent(NamedTuple):
    """A message or a note of a channel, in the order of the file."""

    tick: int
    process: int
    order: int
    word: str
    number: int
    value: int
    statement: Statement
    end: int


def _sent(of: Happening, order: int) -> Sent:
    word = "note" if of.statement.word in _NOTES else of.statement.word
    return Sent(tick_of(of.levels, of.position), of.process, order, word, of.statement.number, of.values[0], of.statement,
                tick_of(of.levels, of.position + of.end - of.begin))


class Channels(Look):
    """What each channel is sent, in the order of the file."""

    def finish(self) -> None:
        channels: dict[int, list[Happening]] = {}
        for happening in self.walk.happenings:
            if happening.values:
                channels.setdefault(happening.channel, []).append(happening)
        words = {channel: [happening.statement.word for happening in own] for channel, own in channels.items()}
        notes = {channel: sum(word in _NOTES for word in each) for channel, each in words.items()}
        if sum(notes.values()) <= MOST_NOTES:
            for channel, own in channels.items():
                self._channel(channel, own, notes[channel], {*words[channel]} - _NOTES)

    def _channel(self, channel: int, own: list[Happening], notes: int, others: set[str]) -> None:
        if notes and (not others or others == {"program"} and notes == len(own) - 1):
            return  # of notes, and an instrument at most, there is nothing to say
        sent = sorted(_sent(happening, order) for order, happening in enumerate(own))
        if not notes and any(happening.statement.word in _NOTES for happening in self.walk.happenings):
            self.finds.find("channel-without-notes", sent[0].statement.first,
                            f"channel {channel} has no note: this is heard by nothing")
        if notes:
            self._held(channel, sent)
            self._silent(channel, sent)
            self._at_one_tick(sent)
            self._programs(channel, sent)

    # ---- what has an end

    def _held(self, channel: int, sent: list[Sent]) -> None:
        pedals = [each for each in sent if each.word == "control" and each.number == _PEDAL]
        if pedals and pedals[-1].value >= 64:
            self._find_held("pedal-held", pedals, f"the pedal of channel {channel} goes down here, and never up",
                            "control 64 0;")
        elif pedals and 0 < max(each.value for each in pedals) < 64:
            first = next(each for each in pedals if each.value)
            self.finds.find("pedal-below-64", first.statement.first,
                            f"the pedal is down from 64 on: {first.value} is up",
                            self._amount(first.statement, "127"))
        bends = [each for each in sent if each.word == "bend"]
        most = max((abs(each.value) for each in bends), default=0)
        if 0 < most < 128:
            first = next(each for each in bends if each.value)
            new = min(8191, 4096 * abs(first.value)) * (-1 if first.value < 0 else 1)
            self.finds.find("bend-below-128", first.statement.first,
                            f"a bend goes to 8191: {first.value} of it is not heard, and two semitones are 8191 on "
                            "most instruments", self._amount(first.statement, str(abs(new))))
            return
        if bends and bends[-1].value:
            self._find_held("bend-held", bends, f"channel {channel} stays bent by {bends[-1].value} from here on: "
                            "`bend 0;` takes it back", "bend 0;")

    def _find_held(self, rule: str, sent: list[Sent], what: str, end: str) -> None:
        """At the statement from which on nothing takes it back, with the end behind what follows in its block."""
        last = max((at for at, each in enumerate(sent)
                    if not (each.value >= 64 if rule == "pedal-held" else each.value)),
                   default=-1)
        at = sent[last + 1] if rule == "pedal-held" else sent[-1]
        self.finds.find(rule, at.statement.first, what, (self._behind(at.statement, end),))

    def _behind(self, statement: Statement, words: str) -> Edit:
        """Words at the end of the block in which a statement is."""
        depth, at = 0, self.finds.at(statement.last) + 1
        tokens = self.reading.tokens
        while at < len(tokens) - 1 and not (depth == 0 and tokens[at].text == "}"):
            depth += {"{": 1, "}": -1}.get(tokens[at].text, 0)
            at += 1
        before = tokens[at - 1]
        end = before.start + len(before.text)
        return Edit(end, end, f" {words}")

    def _amount(self, statement: Statement, new: str) -> tuple[Edit, ...]:
        number = self.finds.behind(statement.last, -1)
        return (replaced(number, new),) if number.text.isdigit() else ()

    def _silent(self, channel: int, sent: list[Sent]) -> None:
        levels: dict[int, Sent] = {}
        heard: dict[Sent, set[int]] = {}                  # by each that is low when notes begin under it
        for each in sent:
            if each.word == "control" and each.number in (_VOLUME, _EXPRESSION):
                levels[each.number] = each
            elif each.word == "note":
                for low in (level for level in levels.values() if level.value < 10):
                    ticks = heard.setdefault(low, set())
                    ticks.add(each.tick)
                    if low.value == 0 or len(ticks) > 1:
                        self.finds.find("silent-channel", low.statement.first,
                                        f"controller {low.number} of channel {channel} stays at {low.value}, and the "
                                        f"note on line {each.statement.line} is "
                                        f"{'not' if low.value == 0 else 'hardly'} heard")

    def _at_one_tick(self, sent: list[Sent]) -> None:
        """What a loop sends that takes no time."""
        for one, other in zip(sent, sent[1:]):
            if one.statement is other.statement and one.tick == other.tick and one.word in ("control", "bend") and \
                    one.value != other.value:
                self.finds.find("messages-at-one-tick", one.statement.first,
                                "these all come at one tick, since nothing "
                                "between them takes time, and only the last one is heard")

    # ---- instruments

    def _programs(self, channel: int, sent: list[Sent]) -> None:
        programs = [each for each in sent if each.word == "program"]
        if len({each.value for each in programs}) < 2:
            return
        self._unheard(channel, sent)
        self._others(channel, sent)

    def _unheard(self, channel: int, sent: list[Sent]) -> None:
        """A program that another one follows before any note."""
        last: Optional[Sent] = None
        for each in sent:
            if each.word == "program":
                if last and last.value != each.value and last.statement is not each.statement:
                    self.finds.find("two-programs", last.statement.first,
                                    f"channel {channel} gets program {last.value} here, and program {each.value} on "
                                    f"line {each.statement.line} wins before any note")
                last = each
            elif each.word == "note":
                last = None

    def _others(self, channel: int, sent: list[Sent]) -> None:
        """A note that sounds by another program than that of its voice."""
        own: dict[int, Sent] = {}
        inherited = self._inherited(sent)
        now: Optional[Sent] = None
        notes: dict[int, Sent] = {}                       # the last one of each process
        for each in sent:
            if each.word == "program":
                for process, note in notes.items():
                    if note.end > each.tick and process != each.process:
                        self._wins(channel, own.get(process) or inherited.get(process), each, note)
                now = own[each.process] = each
            elif each.word == "note":
                notes[each.process] = each
                self._wins(channel, own.get(each.process) or inherited.get(each.process), now, each)

    def _wins(self, channel: int, voice: Optional[Sent], now: Optional[Sent], note: Sent) -> None:
        if voice and now and voice.value != now.value and voice.process != now.process:
            self.finds.find("two-programs", voice.statement.first,
                            f"channel {channel} gets program {voice.value} here, and program {now.value} on line "
                            f"{now.statement.line} wins: the note on line {note.statement.line} sounds as "
                            f"{INSTRUMENTS[now.value]}")

    def _inherited(self, sent: list[Sent]) -> dict[int, Sent]:
        """Of each branch the program that its `par` found."""
        last: dict[int, Sent] = {each.process: each for each in sent if each.word == "program"}
        found: dict[int, Sent] = {}
        for process, earlier in enumerate(self.walk.waits_for):
            if len(earlier) == 1 and self.walk.begun[process].place.kind == "branch":
                forked = last.get(earlier[0]) or found.get(earlier[0])
                if forked:
                    found[process] = forked
        return found
