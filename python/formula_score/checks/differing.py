"""In what two pieces differ, bar by bar and part by part, as a musician says it."""

from __future__ import annotations

from difflib import SequenceMatcher
from fractions import Fraction
from typing import Any, Callable, Iterator, NamedTuple, Optional, Union

from .pieces import Bar, Part, Piece, Tone, Word

#: What of a note has a degree: the words for more and less of it, and its value.
_DEGREES: dict[str, tuple[str, str, Callable[[Tone], Union[int, Fraction]]]] = {
    "velocity": ("louder", "softer", lambda tone: tone.velocity),
    "length": ("longer", "shorter", lambda tone: tone.sounds)}
#: So many notes of a bar are named one by one.
_NAMED = 3
#: Tempos that differ by less are one.
_NEAR = 0.005


class Change(NamedTuple):
    """Something that differs: its kind, in words, the bar of the older and of the newer piece, the part, and its
    process.

    A bar is None where a piece has none; part and process are None of the tempo and of whole bars. `facts` has what the
    words were made of.
    """

    kind: str
    words: str
    old: Optional[int]
    new: Optional[int]
    part: Optional[str]
    process: Optional[int]
    facts: dict[str, Any]


def changes(old: Piece, new: Piece) -> list[Change]:
    """All that differs, in the order of the bars."""
    names = {**old.parts, **new.parts}
    found: list[Change] = []
    for at, to in _aligned(old, new):
        if at is None or to is None:
            found.append(_whole(old if to is None else new, at, to))
            continue
        one, other = old.bars[at - old.first], new.bars[to - new.first]
        for part in sorted({*one.tones, *other.tones, *one.words, *other.words}):
            for change in (*_tones(one, other, part, old, at), *_words(one, other, part, old, at)):
                found.append(change._replace(old=at, new=to, part=names[part]))
        found += _tempo(old, new, at, to)
    return found


def _aligned(old: Piece, new: Piece) -> Iterator[tuple[Optional[int], Optional[int]]]:
    """The bars of both, those that belong together side by side. Where both have as many bars, these go by their
    numbers."""
    before, now = ([bar.signature for bar in piece.bars] for piece in (old, new))
    if len(old.bars) == len(new.bars):
        yield from ((old.first + at, new.first + at) for at in range(len(old.bars)))
        return
    for _, low, high, begin, end in SequenceMatcher(None, before, now, autojunk=False).get_opcodes():
        for at in range(max(high - low, end - begin)):
            yield (old.first + low + at if low + at < high else None,
                   new.first + begin + at if begin + at < end else None)


def _whole(piece: Piece, at: Optional[int], to: Optional[int]) -> Change:
    bar = piece.bars[(at if at is not None else to or 0) - piece.first]
    count = sum(map(len, bar.tones.values()))
    return Change("bar added" if at is None else "bar gone", "new" if at is None else "gone", at, to, None, None,
                  {"notes": count})


def _change(kind: str, words: str, process: int, **facts: Any) -> Change:
    return Change(kind, words, None, None, None, process if process >= 0 else None, facts)


def _tones(one: Bar, other: Bar, part: Part, piece: Piece, number: int) -> Iterator[Change]:
    """What differs in the notes of a part in a bar."""
    gone, added = list(one.tones.get(part, ())), list(other.tones.get(part, ()))
    same = _pairs(gone, added, lambda tone: (tone.begin, tone.key))
    other_keys = _pairs(gone, added, lambda tone: tone.begin)
    moved = _pairs(gone, added, lambda tone: tone.key)
    yield from _other_keys(other_keys, piece, number)
    for before, behind in moved:
        yield _change("moved",
                      f"{behind.name} from {piece.beat(number, before.begin)} to {piece.beat(number, behind.begin)}",
                      behind.process, key=behind.key, begin=str(behind.begin), before=str(before.begin))
    for kind, tones in (("gone", gone), ("added", added)):
        if len(tones) > _NAMED:
            yield _change(kind, f"{len(tones)} notes {kind}", tones[0].process, notes=len(tones))
        else:
            yield from (_change(kind, f"{tone.name} {kind} at {piece.beat(number, tone.begin)}", tone.process,
                                key=tone.key,
                                begin=str(tone.begin)) for tone in tones)
    yield from _degrees([*same, *other_keys, *moved])


def _pairs(gone: list[Tone], added: list[Tone], by: Callable[[Tone], object]) -> list[tuple[Tone, Tone]]:
    """Tones that are equal by something, each with its fellow; both leave their lists."""
    found = []
    for tone in list(gone):
        fellow = next((other for other in added if by(other) == by(tone)), None)
        if fellow is not None:
            gone.remove(tone)
            added.remove(fellow)
            found.append((tone, fellow))
    return found


def _other_keys(pairs: list[tuple[Tone, Tone]], piece: Piece, number: int) -> Iterator[Change]:
    by = {behind.key - before.key for before, behind in pairs}
    if len(pairs) > _NAMED:
        step = by.pop() if len(by) == 1 else 0
        semitones = f"{abs(step)} semitone{'s' * (abs(step) != 1)}"
        how = f"{semitones} {'higher' if step > 0 else 'lower'}" if step else "at another pitch"
        yield _change("pitch", f"{len(pairs)} notes {how}", pairs[0][1].process, notes=len(pairs),
                      semitones=step or None)
        return
    for before, behind in pairs:
        yield _change("pitch", f"{behind.name} in place of {before.name} at {piece.beat(number, behind.begin)}",
                      behind.process,
                      key=behind.key, before=before.key, begin=str(behind.begin))


def _degrees(pairs: list[tuple[Tone, Tone]]) -> Iterator[Change]:
    """How much louder and longer notes are."""
    for name, (more, less, value) in _DEGREES.items():
        differ = [(value(before), value(behind)) for before, behind in pairs if value(before) != value(behind)]
        if not differ:
            continue
        kinds = {more if behind > before else less for before, behind in differ}
        count = "" if len(differ) == len(pairs) else f"{len(differ)} of {len(pairs)} notes "
        kind = kinds.pop() if len(kinds) == 1 else f"{more} and {less}"
        yield _change(kind, count + kind + _by(name, differ), pairs[0][1].process, notes=len(differ),
                      before=sorted({str(before) for before, _ in differ}),
                      now=sorted({str(behind) for _, behind in differ}))


def _by(name: str, differ: list[tuple[Any, Any]]) -> str:
    if len(set(differ)) == 1 and name == "velocity":
        return f", {differ[0][0]} to {differ[0][1]}"
    if name == "velocity":
        steps = sorted({abs(behind - before) for before, behind in differ})
        return f" by {steps[0]}" + (f" to {steps[-1]}" if len(steps) > 1 else "")
    rates = {Fraction(behind, before) if before else None for before, behind in differ}
    rate = rates.pop() if len(rates) == 1 else None
    return f", {float(rate):.2g} times" if rate else ""


def _words(one: Bar, other: Bar, part: Part, piece: Piece, number: int) -> Iterator[Change]:
    """What differs in the messages of a part in a bar."""
    gone, added = list(one.words.get(part, ())), list(other.words.get(part, ()))
    for word in [word for word in gone if any(_is_like(word, each) for each in added)]:
        gone.remove(word)
        added.remove(next(each for each in added if _is_like(word, each)))
    if len(gone) + len(added) > 2 * _NAMED:
        yield _change("messages",
                      f"{len(gone)} messages in place of {len(added)}" if gone else f"{len(added)} messages added",
                      (added or gone)[0].process, gone=len(gone), added=len(added))
        return
    for word in gone:
        now = next((each for each in added if (each.begin, each.what) == (word.begin, word.what)), None)
        if now is not None:
            added.remove(now)
            yield _change("message", f"{_said(now)} in place of {word.value}", now.process, what=word.what,
                          before=word.value,
                          now=now.value)
        else:
            yield _change("message", f"{_said(word)} gone at {piece.beat(number, word.begin)}", word.process,
                          what=word.what,
                          before=word.value)
    for word in added:
        yield _change("message", f"{_said(word)} added at {piece.beat(number, word.begin)}", word.process,
                      what=word.what,
                      now=word.value)


def _is_like(one: Word, other: Word) -> bool:
    return one[:3] == other[:3]


def _said(word: Word) -> str:
    return word.value if word.what == "program" else f"{word.what} {word.value}"


def _tempo(old: Piece, new: Piece, at: int, to: int) -> Iterator[Change]:
    before, now = old.tempo(at), new.tempo(to)
    if before and now and abs(before - now) > _NEAR * before:
        words = [f"{tempo:.0f}" if abs(tempo - round(tempo)) < 0.05 else f"{tempo:.1f}" for tempo in (now, before)]
        kind = "faster" if now > before else "slower"
        yield Change("tempo", f"{kind}, {words[0]} quarter notes a minute in place of {words[1]}", at, to, None, None,
                     {"before": round(before, 2), "now": round(now, 2)})


def lines(found: list[Change]) -> Iterator[str]:
    """A line for each bar, or for bars that follow one another with the same words."""
    rows: list[tuple[Optional[int], Optional[int], str]] = []
    for change in found:
        part = f"{change.part}: " if change.part else ""
        words = f"{part}{change.words}"
        if rows and rows[-1][:2] == (change.old, change.new):
            before = rows.pop()[2]
            others, _, last = before.rpartition("; ")
            is_same_part = part and last.startswith(part) and part not in others
            words = f"{before}, {change.words}" if is_same_part else f"{before}; {words}"
        rows.append((change.old, change.new, words))
    while rows:
        count = next((at for at in range(1, len(rows)) if rows[at] != (
            _plus(rows[0][0], at), _plus(rows[0][1], at), rows[0][2])), len(rows))
        old, new, words = rows[0]
        yield f"{_bars(old, new, count)}{' ' if words in ('new', 'gone') else ': '}{words}"
        del rows[:count]


def _plus(number: Optional[int], more: int) -> Optional[int]:
    return None if number is None else number + more


def _bars(old: Optional[int], new: Optional[int], count: int) -> str:
    first = new if old is None else old
    assert first is not None
    said = f"bar {first}" if count == 1 else f"bars {first} to {first + count - 1}"
    if old is None or new is None:
        return f"{said} {'is' if count == 1 else 'are'}"
    return said if old == new else f"{said} (now {new})" if count == 1 else f"{said} (now {new} to {new + count - 1})"
