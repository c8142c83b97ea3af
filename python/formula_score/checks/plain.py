"""What the text alone shows: names, numbers, blocks and lengths that are hardly meant."""

from __future__ import annotations

import re
from fractions import Fraction
from typing import Callable, Iterator, Optional

from ..making.midi import INSTRUMENTS
from ..reading.tree import Comment, Computed, Phrase, Statement, Token
from .blocks import goes
from .finding import Edit, replaced
from .looking import Finds

_RISES = re.compile(r"(?<!de)cresc|swell|louder", re.IGNORECASE)
_FALLS = re.compile(r"dim(in)?(\b|_|u)|decresc|softer|fade", re.IGNORECASE)
_STATEMENT = re.compile(r"\b(note|play|rest|do|control|bend|program)\s[^;#{}]*;")
_REGISTERS = {f"r{number}" for number in range(8)}
#: Ticks of usual lengths, of which a quarter note has 480.
_TICKS_OF_480 = (60, 80, 120, 160, 180, 240, 320, 360, 480, 720, 960, 1440, 1920)
#: What of an instrument's name says too little.
_COMMON = {"lead", "pad", "synth", "bass", "fx", "1", "2", "voice", "ensemble", "section", "strings", "guitar", "piano",
           "electric", "acoustic", "organ", "drum", "steel", "muted", "grand", "bright"}


class Plain:
    """The looks at the text of a score."""

    def __init__(self, finds: Finds):
        self.finds, self.reading = finds, finds.reading
        self.tokens = self.reading.tokens
        self.quotients: set[tuple[int, int]] = set()

    def look(self) -> None:
        """Looks at all."""
        self._sharps()
        self._unused()
        self._registers()
        self._seed()
        self._comments()
        comments: dict[int, list[Comment]] = {}
        for comment in self.reading.comments:
            comments.setdefault(comment.line + comment.alone, []).append(comment)
        for statement in self.reading.every_statement():
            look: Optional[Callable[[Statement], None]] = getattr(self, f"_of_{statement.word}", None)
            if look:
                look(statement)
            self._empty(statement)
            if statement.word in ("program", "loud"):
                self._named(statement, comments)

    # ---- names

    def _sharps(self) -> None:
        pitches = {token.text[:-1] for token in self.tokens
                   if token.text[1:2] == "s" and re.fullmatch(r"[a-g]s[0-9]", token.text)}
        for token in self.tokens:
            named = re.fullmatch(r"([ea])s([0-9])", token.text) if token.text[1:2] == "s" else None
            if not named:
                continue
            letter, octave = named.groups()
            is_sharp = {"cs", "fs"} <= pitches if letter == "e" else bool(pitches & {"cs", "ds", "fs", "gs"})
            if not is_sharp:
                key = f"the same key as `f{octave}`" if letter == "e" else "a black key"
                self.finds.find("sharp-for-flat", token,
                                f"`{token.text}` is {letter.upper()} sharp, {key}; {letter.upper()} flat is "
                                f"`{letter}b{octave}`", [replaced(token, f"{letter}b{octave}")])

    def _unused(self) -> None:
        used = {before.text + " " + token.text for before, token in zip(self.tokens, self.tokens[1:])}
        for name, phrase in self.reading.phrases.items():
            if f"do {name}" not in used:
                self.finds.find("unused-phrase", phrase.name, f"phrase {name} is never played: no `do {name};`",
                                self._without(phrase.block.head, phrase.block.closed))
        for name, shape in self.reading.shapes.items():
            if f"warp {name}" not in used:
                at = self.finds.at(shape.name)
                last = next(token for token in self.tokens[at:] if token.text == ";")
                self.finds.find("unused-shape", shape.name, f"shape {name} is never used: no `warp {name}`",
                                self._without(self.tokens[at - 1], last))

    def _without(self, first: Token, last: Token) -> list[Edit]:
        return [Edit(first.start, last.start + len(last.text), "")]

    def _named(self, statement: Statement, comments: dict[int, list[Comment]]) -> None:
        """A number or a list against what a comment of its line says, or a phrase's name."""
        said = " ".join(comment.text for comment in comments.get(statement.line, ()))
        if statement.word == "loud":
            said += "".join(f" {phrase.name.text}" for phrase in self.reading.phrases.values()
                            if _in(phrase, statement))
            says = bool(_RISES.search(said)) - bool(_FALLS.search(said))
            if says and goes(statement.entries) == -says:
                numbers = [token for token in self._between(statement.first, statement.blocks[0].opened)
                           if token.text.isdigit()]
                self.finds.find("loud-other-way", statement.first,
                                f"this list gets {'softer' if says > 0 else 'louder'}, where its name says "
                                f"{'louder' if says > 0 else 'softer'}",
                                [replaced(token, other.text) for token, other in zip(numbers, reversed(numbers))])
            return
        if not isinstance(statement.amount, int) or not 0 < statement.amount < 128:
            return
        words = set(re.findall(r"[a-z]+", said.lower()))
        own, before = (set(INSTRUMENTS[at].split()) - _COMMON for at in (statement.amount, statement.amount - 1))
        if before & words and not own & words:
            number = self.finds.behind(statement.first)
            self.finds.find("program-by-one", statement.first, f"programs count from 0: {statement.amount} is "
                            f"{INSTRUMENTS[statement.amount]}, and {INSTRUMENTS[statement.amount - 1]} is "
                            f"`program {statement.amount - 1}`", [replaced(number, str(statement.amount - 1))])

    # ---- registers, the seed

    def _registers(self) -> None:
        pairs = list(zip(self.tokens, self.tokens[1:]))
        setting: set[str] = {token.text for before, token in pairs if before.text == "set"}
        unset = _REGISTERS - setting
        for token in reversed(self.tokens):
            if token.text in unset:
                self.finds.find("register-never-set", token, f"`{token.text}` is read and never set, so it is 0")

    def _seed(self) -> None:
        words = [token.text for token in self.tokens[:9]]
        if "seed" in words and not any(token.text == "pick" for token in self.tokens):
            at = words.index("seed")
            self.finds.find("seed-without-pick", self.tokens[at],
                            "a `seed` has no effect where nothing is drawn by `pick`",
                            self._without(self.tokens[at], self.tokens[at + 2]))

    def _comments(self) -> None:
        for comment in self.reading.comments:
            swallowed = None if comment.alone else _STATEMENT.search(comment.text)
            if swallowed:
                at = Token("", comment.line, comment.column, 0)
                self.finds.find("statement-in-comment", at,
                                f"`{swallowed[0]}` is in a comment, which goes on to the end of its line, and is not "
                                "played")

    # ---- numbers

    def _of_gate(self, statement: Statement) -> None:
        self._low(statement, "gate", "percent of its length", "it hardly sounds")

    def _of_volume(self, statement: Statement) -> None:
        self._low(statement, "volume", "a velocity from 1 to 127", "it is hardly heard")

    def _low(self, statement: Statement, word: str, unit: str, so: str) -> None:
        if statement.number < 10:
            new = f"{10 * statement.number or 10}"
            self.finds.find(f"{word}-below-10", statement.first, f"`{word} {statement.number}` is {unit}: {so}",
                            [replaced(self.finds.behind(statement.first), new)])

    def _of_loud(self, statement: Statement) -> None:
        if max(statement.entries) < 10:
            self.finds.find("volume-below-10", statement.first,
                            "entries of `loud` are velocities from 1 to 127: these are hardly heard")
        loop, *others = statement.blocks[0].statements or (statement,)
        if loop.word == "repeat" and not others:
            self._slipping(statement, [inner.word for inner in loop.blocks[0].statements])

    def _slipping(self, statement: Statement, words: list[str]) -> None:
        """A list for all places of a round, where a rest takes no entry."""
        count, notes = len(statement.entries), sum(word in ("note", "play") for word in words)
        rests = sum(word in ("rest", "skip") for word in words)
        if notes and count % notes and notes + rests == len(words) == count:
            self.finds.find("loud-list", statement.first, f"this `loud` list has {count} entries, and each round of its "
                            f"loop {notes} notes: a rest takes no entry, so the list slips against the rounds")

    def _of_artic(self, statement: Statement) -> None:
        if max(statement.entries) < 10:
            self.finds.find("gate-below-10", statement.first,
                            "entries of `artic` are percent: by these nothing is heard")

    def _of_note(self, statement: Statement) -> None:
        keys = [pitch for pitch in statement.pitches if isinstance(pitch, int)]
        twice = next((key for at, key in enumerate(keys) if key in keys[:at]), None)
        if twice is not None:
            names = " and ".join(dict.fromkeys(f"`{name}`" if name != "key" else f"`key {pitch}`" for name, pitch in
                                               zip(statement.names, statement.pitches) if pitch == twice))
            self.finds.find("pitch-twice", statement.first, f"this chord has one key twice, {names}",
                            self._once(statement, twice))
        if statement.word == "note":
            self._length(statement)
            self._quotient(statement)

    _of_play = _of_note

    def _once(self, statement: Statement, twice: int) -> list[Edit]:
        """The chord without the later one of two equal pitches, where its pitches are names."""
        if "key" in statement.names:
            return []
        at = max(number for number, key in enumerate(statement.pitches) if key == twice)
        token = self.finds.behind(statement.first, 1 + 2 * at)
        comma = self.finds.behind(token, -1)
        return [Edit(comma.start, token.start + len(token.text), "")]

    def _of_rest(self, statement: Statement) -> None:
        self._length(statement)

    def _length(self, statement: Statement) -> None:
        if statement.length == 0 or isinstance(statement.length, Computed) and statement.length.most == 0:
            self.finds.find("length-0", statement.first, f"this `{statement.word}` has length 0" + (
                ": it does nothing" if statement.word == "rest" else ": it ends where it begins"),
                self._without(statement.first, statement.last) if statement.word == "rest" else ())

        self._ticks(statement)

    def _ticks(self, statement: Statement) -> None:
        """Ticks as of a division of 480, where it is another one."""
        number = self.finds.behind(statement.last, -1)
        ticks = statement.length
        if self.reading.division == 480 or not isinstance(ticks, int) or ticks not in _TICKS_OF_480:
            return
        part = Fraction(ticks, 1920)
        if self.finds.behind(number, -1).text == "ticks" and self.reading.fraction(ticks).numerator not in (1, 2, 3, 4):
            edit = Edit(self.finds.behind(number, -1).start, number.start + len(number.text), str(part))
            self.finds.find("ticks-of-480", statement.first,
                            f"a quarter note has {self.reading.division} ticks here, so `ticks {ticks}` is "
                            f"{self.finds.part(ticks)}: of 480 it would be "
                            f"{part}", [edit] if part * self.reading.whole % 1 == 0 else ())

    def _quotient(self, statement: Statement) -> None:
        """A quotient of two numbers as a length, with something left over."""
        value = statement.length.value if isinstance(statement.length, Computed) else None
        if value and value.of == "/" and all(side.of == "number" for side in value.operands):
            above, below = (side.number for side in value.operands)
            if below and above % below and (above, below) not in self.quotients:
                self.quotients.add((above, below))
                self.finds.find("length-rounded", statement.first,
                                f"`{above} / {below}` is {above // below}, rounded down: {below} of them make "
                                f"{below * (above // below)} ticks, and not {above}")

    def _of_rhythm(self, statement: Statement) -> None:
        if 0 in statement.entries:
            self.finds.find("length-0", statement.first, "this `rhythm` has a length 0")

    # ---- blocks

    def _of_repeat(self, statement: Statement) -> None:
        count = statement.length.most if isinstance(statement.length, Computed) else statement.length
        if count == 0:
            self.finds.find("repeat-0", statement.first, "this loop is never played: its count is 0",
                            self._without(statement.first, statement.last))

    def _empty(self, statement: Statement) -> None:
        is_block = statement.blocks and statement.word not in ("if", "par")
        if is_block and not any(block.statements for block in statement.blocks):
            self.finds.find("empty-block", statement.first, f"nothing is in this `{statement.word}`",
                            self._without(statement.first, statement.last))

    def _between(self, first: Token, last: Token) -> Iterator[Token]:
        return iter(self.tokens[self.finds.at(first):self.finds.at(last)])


def _in(phrase: Phrase, statement: Statement) -> bool:
    return phrase.block.opened.start < statement.first.start < phrase.block.closed.start
