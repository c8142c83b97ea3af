"""The text of a score: its branches, with phrases for what comes again, and the tempo round them."""

from __future__ import annotations

from collections import Counter
from typing import Callable, Iterator, Optional, Sequence

from formula_score.making.lengths import DIVISION
from formula_score.making.midi import DRUM_CHANNEL
from formula_score.reading.playing import Failed
from .bars import MAX_LENGTH, Bar, Silence, Sound, Token
from .branches import UNSAID, Branch, rest_of, without_velocity
from .layout import Braces, Mark, Node, Page, Plain, repeated
from .levels import MOST_ENTRIES
from .parts import Piece
from .repeats import Numbers
from .statements import Atom, Call, nodes_of, rounded
from .tempo import Tempo, lines_of
from .words import PERCENT, VELOCITY, Names

_MOST_BYTES = 1_048_576
_SHORTER = "--grid 1/16 and --velocities 8 make it shorter"

#: What stands before the branches, and where the tempo is played before that.
_PAR, _WARP = "par {", "warp tempo {"
#: How often a loop goes round, at most.
_MOST_ROUNDS = 1_000_000
#: Bars that differ in velocities alone share a phrase where it has more notes than this, and saves so many characters.
_FEW_NOTES, _CALL, _WORTH = 2, 16, 70


class Writer:
    """Writes the text of a piece: its branches, whose bars have numbers, so that what comes again is seen."""

    def __init__(self, piece: Piece, lines: Sequence[int], branches: Sequence[Branch], length: Callable[[int], str],
                 with_phrases: bool = True):
        self.piece, self.lines, self.branches, self.length = piece, lines, branches, length
        self.with_phrases = with_phrases
        self.tokens: list[tuple[Token, ...]] = []
        self.sizes: list[int] = []
        self.level_at: dict[int, int] = {}
        self.of_bar: dict[tuple[object, ...], int] = {}
        self.mixed: dict[int, tuple[object, ...]] = {}    # bars with several velocities, and what equal notes share
        self.phrase_names = Names()
        self.name_of: dict[int, str] = {}
        self.notes_of: dict[int, tuple[Token, ...]] = {}  # of bars whose notes alone are a phrase
        self.name_of_notes: dict[tuple[object, ...], str] = {}
        self.definitions: list[str] = []

    # ---- numbers for bars

    def numbers(self, branch: Branch) -> list[int]:
        """The numbers of the bars of a branch, with one of its own where the level changes: no run goes over it."""
        found: list[int] = []
        last = branch.defaults.velocity
        for bar, level in zip(branch.bars, branch.levels):
            if level != last:
                self.level_at[len(self.tokens)] = level
                found.append(len(self.tokens))
                self.tokens.append(())
                self.sizes.append(0)
                last = level
            found.append(self.number(bar, branch))
        return found

    def number(self, bar: Bar, branch: Branch) -> int:
        """The number of a bar; equal ones have one."""
        is_mixed = any(isinstance(token, Sound) and token.velocity != UNSAID for token in bar.tokens)
        shared = branch.defaults.percent, bar.bars, branch.part.channel == DRUM_CHANNEL
        key = bar.tokens, branch.defaults.velocity if is_mixed else UNSAID, shared
        if key not in self.of_bar:
            self.of_bar[key] = number = len(self.tokens)
            self.tokens.append(bar.tokens)
            is_rest = len(bar.tokens) == 1 and rest_of(bar.tokens)
            self.sizes.append(0 if is_rest else sum(_size(token, branch) for token in bar.tokens))
            if is_mixed:
                self.mixed[number] = without_velocity(bar.tokens), shared
        return self.of_bar[key]

    def _find_notes(self, numbers: Sequence[Sequence[int]]) -> None:
        """Bars that differ in their velocities alone, and come so often that their notes are worth a phrase."""
        uses = Counter(number for row in numbers for number in row)
        same: dict[tuple[object, ...], list[int]] = {}
        for number, key in self.mixed.items():
            if _FEW_NOTES < sum(isinstance(token, Sound) for token in self.tokens[number]) <= MOST_ENTRIES:
                same.setdefault(key, []).append(number)
        for found in same.values():
            count = sum(uses[number] for number in found)
            if len(found) > 1 and (min(self.sizes[number] for number in found) - _CALL) * (count - 1) > _WORTH:
                for number in found:
                    self.notes_of[number] = without_velocity(self.tokens[number])

    # ---- the whole

    def text(self, made: str, notes: Sequence[str], tempo: Tempo, with_warp: bool = True) -> str:
        """The whole text, with a `warp` of the tempo round it where there is one; without comments behind lines where it
        would be too long for a score."""
        numbers = [self.numbers(branch) for branch in self.branches]
        if self.with_phrases:
            self._find_notes(numbers)
        self.bars = Numbers(self.sizes, not self.with_phrases)
        rows = [self.bars.add(bars) for bars in numbers]
        self.bars.name_runs()
        body: list[str] = []
        for row, branch in zip(rows, self.branches):
            body += self._branch(row, branch)
        if not body:
            body = self._silence(self.piece.end)
        else:
            is_warped = tempo.parts and with_warp
            body = [f"{_WARP} {_PAR}" if is_warped else _PAR, *body, "} }" if is_warped else "}"]
        lines = [*self._head(made, notes), *lines_of(tempo, self.length), *self.definitions, *body]
        text = "\n".join(lines) + "\n"
        if len(text) > _MOST_BYTES:
            text = "\n".join(line.partition("  #")[0].strip() for line in lines) + "\n"
        if len(text) > _MOST_BYTES:
            raise Failed(1, f"the text has {len(text):,} bytes, and a score has at most {_MOST_BYTES:,}: {_SHORTER}")
        return text

    def _head(self, made: str, notes: Sequence[str]) -> Iterator[str]:
        division = self.piece.division
        yield f"# Made from {made}"
        for what, said in (("title", self.piece.title), ("composer", self.piece.composer)):
            if said:
                yield f"# {what}: {said}"
        yield from notes
        yield "formula 2;" + (f" division {division};" if division != DIVISION else "")

    def _silence(self, ticks: int) -> list[str]:
        """Rests of so many ticks, those of the greatest length in loops."""
        count, left = divmod(ticks, MAX_LENGTH)
        longest = f"rest {self.length(MAX_LENGTH)};"
        loops = [min(_MOST_ROUNDS, count - begun) for begun in range(0, count, _MOST_ROUNDS)]
        lines = [longest if times == 1 else f"repeat {times} {{ {longest} }}" for times in loops]
        return lines if lines and not left else [*lines, f"rest {self.length(left)};"]

    def _branch(self, row: int, branch: Branch) -> list[str]:
        nodes = self._sequence(row, branch, iter(branch.bars))
        nodes = [*(Plain(branch.words.text(message)) for message in branch.first), *nodes]
        if branch.defaults.velocity != VELOCITY and branch.has_notes:
            nodes = [Braces(f"volume {branch.defaults.velocity}", tuple(nodes))]
        if branch.defaults.percent != PERCENT and branch.has_notes:
            nodes = [Braces(f"gate {branch.defaults.percent}", tuple(nodes))]
        if branch.part.channel:
            nodes = [Braces(f"channel {branch.part.channel}", tuple(nodes))]
        return [f"  # {branch.name}", *_page(bool(self.piece.meters), Braces("branch", tuple(nodes)), 1)]

    def _sequence(self, row: int, branch: Branch, bars: Optional[Iterator[Bar]]) -> list[Node]:
        """The statements of a branch, with its bars, or of the body of a phrase or loop."""
        found: list[Node] = []
        held: list[Node] = []
        atoms: list[Atom] = []
        level = branch.defaults.velocity
        for number in [*self.bars.rows[row], None]:
            if number is None or number in self.level_at or number >= self.bars.bars:
                held += nodes_of(atoms, branch.defaults, branch.words)
                atoms = []
            if number is None or number in self.level_at:
                found += rounded(f"volume {level}", held) if level != branch.defaults.velocity else held
                held, level = [], self.level_at[number] if number is not None else level
                continue
            own = [next(bars) for _ in self.bars.flat(number)] if bars is not None else [Bar(0, 1, ())]
            mark = Mark(own[0].number, own[-1].number + own[-1].bars - 1)
            if number in self.notes_of:
                sounds = tuple(token for token in self.tokens[number] if isinstance(token, Sound))
                atoms += [mark, Call(self._notes(number, branch), sounds)]
            elif number < self.bars.bars:
                _add_bar(atoms, mark, self.tokens[number])
            else:
                held += [mark] if bars is not None else []
                held.append(self._again(number, branch))
        if bars is not None:
            return [*found, Mark(len(self.lines), len(self.lines))]
        while found and isinstance(found[0], Mark):
            del found[0]
        return found

    # ---- what comes again

    def _again(self, number: int, branch: Branch) -> Node:
        """The loop or phrase of a number."""
        if number in self.bars.loops:
            times, body = self.bars.loops[number]
            return repeated(times, tuple(self._sequence(body, branch, None)))
        if number not in self.name_of:
            nodes = self._sequence(self.bars.phrases[number], branch, None)
            if len(nodes) == 1 and isinstance(nodes[0], Plain) and nodes[0].text.startswith("do "):
                self.name_of[number] = nodes[0].text[3:-1]  # a phrase that only plays another one needs no name
            else:
                self.name_of[number] = self._define(nodes, branch)
        return Plain(f"do {self.name_of[number]};")

    def _notes(self, number: int, branch: Branch) -> str:
        """The phrase of the notes of a bar."""
        key = self.mixed[number]
        if key not in self.name_of_notes:
            self.name_of_notes[key] = self._define(nodes_of(self.notes_of[number], branch.defaults, branch.words), branch)
        return self.name_of_notes[key]

    def _define(self, nodes: Sequence[Node], branch: Branch) -> str:
        name = self.phrase_names.of(branch.part)
        self.definitions += _page(False, Braces(f"phrase {name}", tuple(nodes)), 0)
        return name


def without_warp(text: str) -> str:
    """The same score without the tempo, for a comparison in ticks."""
    before, warp, behind = text.partition(f"{_WARP} {_PAR}")
    return f"{before}{_PAR}{behind.rpartition('}')[0]}" if warp else text


def _size(token: Token, branch: Branch) -> int:
    """About how long a token is in a text."""
    levels = [token.velocity not in (UNSAID, branch.defaults.velocity),
              not token.low <= branch.defaults.percent <= token.high] if isinstance(token, Sound) else []
    return len(branch.words.text(token)) + 1 + 4 * sum(levels)


def _page(with_bars: bool, block: Braces, depth: int) -> list[str]:
    page = Page(with_bars)
    page.write((block,), depth)
    page.flush(depth)
    return page.lines


def _add_bar(atoms: list[Atom], mark: Mark, tokens: Sequence[Token]) -> None:
    """Adds a bar; a rest behind a silent bar is one with that bar's."""
    first = next((at for at in range(len(atoms) - 1, -1, -1) if isinstance(atoms[at], Mark)), -1)
    before = [atom for atom in atoms[first + 1:] if not isinstance(atom, (Mark, Call))] if first >= 0 else []
    last, rest = (rest_of(before) if len(before) == len(atoms) - first - 1 else None), rest_of(tokens)
    if last and rest and len(tokens) == 1 and last.length + rest.length <= MAX_LENGTH:
        begun = atoms[first]
        assert isinstance(begun, Mark)
        atoms[first], atoms[-1] = Mark(begun.number, mark.last), Silence(last.length + rest.length)
    else:
        atoms += [mark, *tokens]
