"""Bars as statements and blocks: volumes and gates outside, loops and rhythms inside, whole rounds of each."""

from __future__ import annotations

from typing import Callable, NamedTuple, Optional, Sequence, Union

from .bars import Said, Silence, Sound
from .layout import Braces, Mark, Node, Plain, repeated
from .levels import Passage, levels
from .words import Defaults

_LONGEST_LOOP = 16
_LONGEST_RHYTHM = 8
_LEAST_RAMP = 4
_VOLUME, _GATE = ("volume", "loud"), ("gate", "artic")
#: About how many characters a loop and a rhythm cost; and how many have to be saved.
_LOOP, _RHYTHM = 14, 13
_WORTH_A_LOOP, _WORTH_A_RHYTHM = 6, 12


class Call(NamedTuple):
    """A bar of notes alone as a phrase, with the notes that it plays: each takes an entry of the list round it."""

    name: str
    sounds: tuple[Sound, ...]


Atom = Union[Sound, Silence, Said, Mark, Call]


class Words(NamedTuple):
    """How lengths and pitches are written."""

    length: Callable[[int], str]
    names: Sequence[str]

    def text(self, atom: Atom, in_rhythm: bool = False) -> str:
        """The statement of an atom."""
        if isinstance(atom, Call):
            return f"do {atom.name};"
        if isinstance(atom, Said):
            return said(atom)
        if isinstance(atom, Silence):
            return "skip;" if in_rhythm else f"rest {self.length(atom.length)};"
        assert isinstance(atom, Sound)
        pitches = ", ".join(self.names[key] for key in atom.keys)
        return f"play {pitches};" if in_rhythm else f"note {pitches} {self.length(atom.length)};"


def nodes_of(atoms: Sequence[Atom], defaults: Defaults, words: Words) -> list[Node]:
    """The atoms as statements and blocks."""
    loud = [[(defaults.velocity if sound.velocity < 0 else sound.velocity,) * 2 for sound in _sounds(atom)] for atom in atoms]
    artic = [[(atom.low, atom.high)] if isinstance(atom, Sound) else [(defaults.percent,) * 2] * isinstance(atom, Call)
             for atom in atoms]
    marks = [at for at, atom in enumerate(atoms) if isinstance(atom, Mark)]
    louds, artics = levels(loud, defaults.velocity, marks), levels(artic, defaults.percent, marks)
    is_loud_outside = sum(bool(level.values) for level in louds) <= sum(bool(level.values) for level in artics)
    outer, ranges, default = (louds, artic, defaults.percent) if is_loud_outside else (artics, loud, defaults.velocity)
    outside, inside = (_VOLUME, _GATE) if is_loud_outside else (_GATE, _VOLUME)
    found: list[Node] = []
    for level in outer:
        inner = levels(ranges[level.begin:level.end], default,
                       [at - level.begin for at in marks if level.begin <= at < level.end])
        held: list[Node] = []
        for part in inner:
            nodes = loops(atoms[level.begin + part.begin:level.begin + part.end], words)
            held += rounded(_head(inside, part), nodes) if part.values else nodes
        found += rounded(_head(outside, level), held) if level.values else held
    return found


def _sounds(atom: Atom) -> tuple[Sound, ...]:
    return (atom,) if isinstance(atom, Sound) else atom.sounds if isinstance(atom, Call) else ()


def _head(words: tuple[str, str], level: Passage) -> str:
    if len(level.values) == 1:
        return f"{words[0]} {level.values[0]}"
    return f"{words[1]} [{', '.join(map(str, level.values))}]"


def rounded(head: str, nodes: list[Node]) -> list[Node]:
    """A block round the nodes; marks and messages at its edges stay outside."""
    first, last = 0, len(nodes)
    while first < last and _stays_out(nodes[first]):
        first += 1
    while last > first and _stays_out(nodes[last - 1]):
        last -= 1
    if first == last:
        return nodes
    return [*nodes[:first], Braces(head, tuple(nodes[first:last])), *nodes[last:]]


def _stays_out(node: Node) -> bool:
    return isinstance(node, Mark) or isinstance(node, Plain) and not node.text.startswith(("note", "play", "skip", "do"))


def loops(atoms: Sequence[Atom], words: Words) -> list[Node]:
    """The atoms with loops round what comes at once again in a bar."""
    found: list[Node] = []
    bar: list[Atom] = []
    for atom in [*atoms, None]:
        if atom is None or isinstance(atom, Mark):
            found += _looped(bar, words)
            bar = []
            if atom is not None:
                found.append(atom)
        else:
            bar.append(atom)
    return _merged(found)


def _looped(atoms: Sequence[Atom], words: Words) -> list[Node]:
    """The statements of one bar, with loops."""
    texts = [words.text(atom) for atom in atoms]
    found: list[Node] = []
    at = begun = 0
    while at < len(atoms):
        width, count, nodes = _loop_at(atoms, texts, at, words)
        if count:
            found += _in_rhythm(atoms[begun:at], words)
            found.append(repeated(count, tuple(nodes)))
            at = begun = at + width * count
        else:
            at += 1
    return [*found, *_in_rhythm(atoms[begun:], words)]


def _loop_at(atoms: Sequence[Atom], texts: Sequence[str], at: int, words: Words) -> tuple[int, int, Sequence[Node]]:
    """The best loop that begins at an atom: how many atoms a round has, how many rounds, and what is in it."""
    best, width, count = _WORTH_A_LOOP, 0, 0
    for size in range(1, min(_LONGEST_LOOP, (len(atoms) - at) // 2) + 1):
        if texts[at + size:at + 2 * size] != texts[at:at + size]:
            continue
        times = 2
        while texts[at + times * size:at + (times + 1) * size] == texts[at:at + size]:
            times += 1
        gain = (times - 1) * sum(len(text) + 1 for text in texts[at:at + size]) - _LOOP
        if gain > best:
            best, width, count = gain, size, times
    ramp = ramp_at(atoms, at)
    if ramp and ramp[0] * (len(texts[at]) + len(texts[at + 1])) > best:
        return 2, ramp[0], (Plain(ramp[1]), Plain(texts[at + 1]))
    return width, count, _in_rhythm(atoms[at:at + width], words) if count else ()


def _in_rhythm(atoms: Sequence[Atom], words: Words) -> list[Node]:
    """All of the atoms in one rhythm, where it saves much and goes round in whole rounds."""
    timed = [atom for atom in atoms if isinstance(atom, (Sound, Silence))]
    lengths = [words.length(atom.length) for atom in timed]
    best, entries = _WORTH_A_RHYTHM, 0
    for width in range(1, min(_LONGEST_RHYTHM, len(lengths) // 2) + 1):
        if len(lengths) % width == 0 and lengths == lengths[:width] * (len(lengths) // width):
            gain = (sum(len(length) + 1 for length in lengths) - sum(len(length) + 2 for length in lengths[:width])
                    - _RHYTHM)
            if gain > best:
                best, entries = gain, width
    plain: list[Node] = [Plain(words.text(atom, bool(entries))) for atom in atoms]
    return rounded(f"rhythm [{', '.join(lengths[:entries])}]", plain) if entries else plain


def _merged(nodes: list[Node]) -> list[Node]:
    """Rhythms of bars that follow one another as one, where they are equal."""
    found: list[Node] = []
    for node in nodes:
        if (isinstance(node, Braces) and node.head.startswith("rhythm") and len(found) > 1 and isinstance(found[-1], Mark)
                and isinstance(found[-2], Braces) and found[-2].head == node.head):
            mark, before = found.pop(), found.pop()
            assert isinstance(before, Braces)
            node = Braces(node.head, (*before.inner, mark, *node.inner))
        found.append(node)
    return found


def value_of(message: Said) -> int:
    """The number that a message changes: a control's value, or a bend."""
    return message.data[1] if message.status >> 4 == 0xB else message.data[0] + 128 * message.data[1] - 8192


def said(message: Said, value: str = "") -> str:
    """The statement of a message, or of one like it with another value."""
    kind, data = message.status >> 4, message.data
    if kind == 0xC:
        return f"program {data[0]};"
    word = f"control {data[0]}" if kind == 0xB else "bend"
    return f"{word} {value or value_of(message)};"


def ramp_at(atoms: Sequence[Atom], at: int) -> Optional[tuple[int, str]]:
    """How often a message and a rest come from a place on, in even steps, and its statement with `n0` for the step; None
    where that is not often."""
    first, rest = atoms[at], atoms[at + 1] if at + 1 < len(atoms) else None
    if not isinstance(first, Said) or first.status >> 4 == 0xC or not isinstance(rest, Silence):
        return None
    values: list[int] = []
    while at + 1 < len(atoms) and atoms[at + 1] == rest:
        message = atoms[at]
        if not isinstance(message, Said) or said(message, "n0") != said(first, "n0"):
            break
        values.append(value_of(message))
        if len(values) > 2 and values[-1] - values[-2] != values[1] - values[0]:
            del values[-1]
            break
        at += 2
    step = values[1] - values[0] if len(values) > 1 else 0
    if len(values) < _LEAST_RAMP or not step:
        return None
    by = "n0" if abs(step) == 1 else f"{abs(step)} * n0"
    if values[0]:
        return len(values), said(first, f"({values[0]} {'+' if step > 0 else '-'} {by})")
    return len(values), said(first, f"({by})" if step > 0 else f"(-{abs(step)} * n0)")
