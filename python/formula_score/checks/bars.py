"""How many bars phrases, branches and sections have, whether comments count right; bars and ticks."""

from __future__ import annotations

from typing import Callable, Iterator, NamedTuple, Optional, Sequence

from ..reading import marks
from ..reading.meter import Meter
from ..reading.playing import Listing
from ..reading.structure import Section, Span, Structure, sections
from ..reading.ticks import agree, spots_at, ticks_of
from ..reading.tree import Phrase, Reading, Statement
from ..reading.walk import Place, Played, Process
from .finding import REMARK, WARNING, Found

_SHOWN = 6
#: Gives the listing of the file that the program makes of a text.
Heard = Callable[[], Listing]
#: What a finding of bars may be called.
RULES_OF_BARS = ("bar-comment", "off-the-grid", "branches-uneven", "branches-apart")


class Row(NamedTuple):
    """Something that has bars: its line, 0 for the piece, what it is, how long it is as written, the least and the most
    ticks as played, where two differ, and where it is played."""

    line: int
    what: str
    lasts: str
    ticks: tuple[int, ...]
    where: str


def counted(reading: Reading, meter: Meter, heard: Optional[Heard] = None) -> tuple[list[Row], list[Found]]:
    """What has how many bars, and what is off, in the order of the text; compared with what is `heard`."""
    named = sections(reading, lambda comment: marks.bars_of(comment) is None)
    structure = Structure(reading, [*edges(reading), *(edge for section in named
                                                       for edge in (section.first, section.last))])
    structure.run()
    if heard is not None:
        agree(structure, heard())
    whole = Span(0, structure.end, structure.place, 0, structure.last)
    rows = [*sorted(_rows(reading, structure, meter, named)), _row(0, "the piece", [whole], meter)]
    return rows, off(structure, meter)


def edges(reading: Reading) -> list[Statement]:
    """The statements whose places have to be known to see what is off."""
    return [edge for mark in marks.marks(reading) for edge in (mark.first, mark.last)]


def off(structure: Structure, meter: Meter) -> list[Found]:
    """What is off, in the order of the text."""
    comments = [Found(found.line, found.column, "bar-comment", WARNING, found.what)
                for found in marks.findings(structure.reading, structure, meter)]
    return sorted([*_lengths(structure, meter), *comments])


# ---- the table

def bars_between(span: Span, meter: Meter) -> str:
    """From which bar to which something is played."""
    if span.begin == span.end:
        return f"at {meter.tell(span.begin)}"
    first, last = meter.at(span.begin), meter.at(span.end - 1)
    whole = meter.start(first.bar) == span.begin and meter.start(last.bar + 1) == span.end
    if whole:
        return f"bar {first.bar}" if first.bar == last.bar else f"bars {first.bar} to {last.bar}"
    return f"{meter.tell(span.begin)} to {meter.tell(span.end)}"


def _times(spans: list[Span], meter: Meter) -> str:
    begins = ", ".join(meter.tell(span.begin) for span in spans[:_SHOWN]) + (", .." if len(spans) > _SHOWN else "")
    return bars_between(spans[0], meter) if len(spans) == 1 else f"{len(spans)} times: {begins}"


def _row(line: int, what: str, spans: list[Span], meter: Meter) -> Row:
    ticks = [span.last - span.first for span in spans]
    lasts = sorted({meter.lasts(span.begin, span.end) for span in spans})
    return Row(line, what, " or ".join(lasts), tuple(sorted({min(ticks), max(ticks)})),
               bars_between(spans[0], meter) if len(spans) == 1 and not line else _times(spans, meter))


def _rows(reading: Reading, structure: Structure, meter: Meter,
          named: list[Section]) -> Iterator[Row]:
    for name, phrase in reading.phrases.items():
        spans = structure.phrases.get(name, [])
        known = reading.length(phrase.block.statements)
        lasts = meter.lasts(meter.upbeat, meter.upbeat + known) if known is not None else "?"
        yield (_row(phrase.name.line, f"phrase {name}", spans, meter) if spans else
               Row(phrase.name.line, f"phrase {name}", lasts, (), "never played"))
    for par, played in structure.pars.values():
        for at, block in enumerate(par.blocks):
            yield _row(block.head.line, f"branch {at + 1}", [branches[at] for branches in played], meter)
    for section in named:
        begins, ends = structure.spans[section.first.first.start], structure.spans[section.last.first.start]
        spans = [Span(begin.begin, end.end, begin.place, begin.first, end.last) for begin, end in zip(begins, ends)]
        if spans:
            yield _row(section.line, f"section {section.name}", spans, meter)


def table(rows: Sequence[Row], whole: int) -> Iterator[str]:
    """The rows as lines, where a whole note has so many ticks; a file has 120 quarter notes a minute."""
    cells = [(f"line {row.line}" if row.line else "", row.what, row.lasts,
              " to ".join(f"{each:,}" for each in row.ticks) + " ticks" * bool(row.ticks),
              " to ".join(f"{2 * each / whole:.2f}" for each in row.ticks) + " s" * bool(row.ticks), row.where)
             for row in rows]
    widths = [min(60, max(len(row[at]) for row in cells)) for at in range(5)]
    for row in cells:
        yield "  ".join(f"{cell:<{width}}" for cell, width in zip(row, [*widths, 0])).rstrip()


# ---- what is off in the lengths

def _amount(span: Span, meter: Meter) -> str:
    """By how much something is no whole number of bars; '' where it is one."""
    if not meter.only:
        begin, end = meter.at(span.begin), meter.at(span.end)
        if meter.start(begin.bar) != span.begin:
            return f"{meter.length(span.begin - meter.start(begin.bar))} after a bar line at its beginning"
        left, bar = span.end - meter.start(end.bar), meter.start(end.bar + 1) - meter.start(end.bar)
    else:
        left, bar = meter.bars(span.begin, span.end)[1], meter.only
    if not left:
        return ""
    return f"{meter.length(left)} too long" if 2 * left < bar else f"{meter.length(bar - left)} too short"


def _lengths(structure: Structure, meter: Meter) -> Iterator[Found]:
    branches = {id(span.place): span for _, played in structure.pars.values() for each in played for span in each}
    for name, spans in structure.phrases.items():
        token = structure.reading.phrases[name].name
        off = {_amount(span, meter): span for span in spans}
        if "" in off or not any(_leaves_the_grid(span, branches, structure, meter) for span in spans):
            continue
        for amount, span in off.items():
            yield Found(token.line, token.column, "off-the-grid", WARNING,
                        f"phrase {name} is no whole number of bars, and what follows leaves the bar lines: it has "
                        f"{meter.lasts(span.begin, span.end)}, {amount}")
    for par, played in structure.pars.values():
        yield from _branches(par, played, structure, meter)


def _leaves_the_grid(span: Span, branches: dict[int, Span], structure: Structure, meter: Meter) -> bool:
    """Whether the branch in which it is played, or the piece, ends off the bar lines; and goes on over the next one,
    where it is shorter than a bar."""
    place: Optional[Place] = span.place
    while place and place.kind != "branch":
        place = place.outer
    voice = branches.get(id(place)) or Span(0, structure.end, structure.place)
    bar = meter.at(span.end).bar
    is_short = span.end - span.begin < meter.start(bar + 1) - meter.start(bar)
    return bool(_amount(voice, meter)) and not (is_short and voice.end <= meter.start(bar + 1))


def _branches(par: Statement, played: list[list[Span]], structure: Structure, meter: Meter) -> Iterator[Found]:
    for branches in played:
        lengths = [span.end - span.begin for span in branches]
        if len(set(lengths)) > 1:
            listed = ", ".join(f"branch {at + 1} (line {par.blocks[at].head.line}) {meter.lasts(span.begin, span.end)}"
                               for at, span in enumerate(branches))
            yield Found(par.first.line, par.first.column, "branches-uneven", REMARK,
                        "branches are not equally long as written, by up to "
                        f"{meter.length(max(lengths) - min(lengths))}: {listed}")
            break
    for branches in played:
        apart = apart_of(branches)
        if apart:
            odd, other = apart
            head, ticks = par.blocks[odd].head, abs(branches[odd].last - branches[other].last)
            yield Found(head.line, head.column, "branches-apart", REMARK,
                        f"branches {odd + 1} and {other + 1} are equally long as written, and end {ticks} ticks "
                        f"({2 * ticks / meter.whole:.2f} s) apart as played"
                        f"{_growing(branches[odd], branches[other], structure, meter)}")
            return


def apart_of(branches: list[Span]) -> Optional[tuple[int, int]]:
    """Two branches that are equally long as written, and end apart: first the one that fewer agree with."""
    seen: dict[int, int] = {}
    ends = [span.last for span in branches]
    for at, span in enumerate(branches):
        other = seen.setdefault(span.end - span.begin, at)
        if ends[at] != ends[other] and span.end > span.begin:
            odd = min((other, at), key=lambda each: (ends.count(ends[each]), each == other and len(ends) == 2))
            return odd, at if odd == other else other
    return None


def _growing(one: Span, other: Span, structure: Structure, meter: Meter) -> str:
    """Bar by bar how far two branches are apart, where something begins in both at a bar line."""
    begins = [structure.begins(span.place.process) for span in (one, other)]
    lines = [(meter.at(written).bar, abs(begins[1][written] - tick)) for written, tick in sorted(begins[0].items())
             if written in begins[1] and meter.start(meter.at(written).bar) == written]
    grows = [line for line, before in zip(lines, [(0, 0), *lines]) if line[1] > before[1]]
    shown = [*grows[:_SHOWN], *grows[-1:]] if len(grows) > _SHOWN else grows
    said = ", ".join(f"{ticks} at bar {bar}" for bar, ticks in dict.fromkeys(shown))
    return f": {said}" if said else ""


# ---- bars and ticks

def process_name(walk: Played, process: int) -> str:
    """A process by its number, and where a musician finds it in the text."""
    return f"process {process} ({_where(walk.begun[process])})"


def _where(begun: Process) -> str:
    place = begun.place
    if place.kind == "branch" and isinstance(place.node, Statement):
        return f"branch {place.number + 1}, line {place.node.blocks[place.number].head.line}"
    return "behind a `par`" if begun.written or begun.levels or place.kind != "score" else "outside all branches"


def ticks_by_process(walk: Played, written: int, only: Optional[int]) -> dict[int, list[int]]:
    """The ticks of the file at a position as written, each with the processes in which it lies there; or of one."""
    spots = [spot for spot in spots_at(walk, written) if only in (None, spot.process)]
    found: dict[int, list[int]] = {}
    for spot, tick in zip(spots, ticks_of(walk.reading, spots)):
        found.setdefault(tick, []).append(spot.process)
    return dict(sorted(found.items()))


def ring(place: Place, written: int, meter: Meter) -> str:
    """Where in the phrases and loops round it."""
    said, seen = [], place
    while True:
        inside = meter.tell(written - seen.begin + meter.upbeat)
        if seen.kind == "phrase" and isinstance(seen.node, Phrase):
            said.append(f"{inside} of phrase {seen.node.name.text}")
        if seen.kind == "round" and isinstance(seen.node, Statement):
            said.append(f"{inside} of round {seen.number + 1} of the loop at line {seen.node.line}")
        if seen.outer is None:
            return "".join(f"; {sentence}" for sentence in said)
        seen = seen.outer
