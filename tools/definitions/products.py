"""The products of the program as the definitions compute them: of a text its tokens, its fault or its score, the file, the
tracks, an excerpt, where a tick lies; of a file its listing or its fault; of a record its head and its steps.

What a definition does not compute is a witness that is found here and judged by the definitions: the form of the grammar
that tokens spell, and the first position of a level that lies at a tick or later."""
from __future__ import annotations

import os
from collections.abc import Sequence
from dataclasses import dataclass
from typing import Any

from forms import form_of
from repository import Repository, Target
from sizes import global_name
from translate import Translator, run
from values import Made, Record, forget, listed

# The definitions that are asked, by the name under which they are here.
ASKED = {
    "tokens": "fm_lex.specs.Tokens.tokens",
    "first_fault": "fm_grammar.specs.Table.first_fault",
    "trip": "fm_grammar.specs.Table.trip",
    "is_divided": "fm_grammar.specs.Table.is_divided",
    "whole": "fm_grammar.specs.Rules.whole",
    "grammar_fault": "fm_meaning.specs.Verdict.grammar_fault",
    "score_text": "fm_grammar.specs.Spelling.score_text",
    "limits": "fm_grammar.specs.Within.limits",
    "EntriesWithin": "fm_grammar.specs.Within.EntriesWithin",
    "DivisionStands": "fm_grammar.specs.Within.DivisionStands",
    "score_tree": "fm_grammar.specs.Standing.score_tree",
    "score_faults": "fm_meaning.specs.Faults.score_faults",
    "first_found": "fm_meaning.specs.Faults.first_found",
    "too_much_text": "fm_meaning.specs.Fault.too_much_text",
    "resolved": "fm_meaning.specs.Resolve.resolved",
    "profile_of": "fm_meaning.specs.Rules.profile_of",
    "score_plays": "fm_meaning.specs.Played.score_plays",
    "played_lines": "fm_meaning.specs.Lines.played_lines",
    "piece": "fm_line.specs.Piece.piece",
    "before": "fm_line.specs.Piece.before",
    "track": "fm_smf.specs.Track.track",
    "file": "fm_smf.specs.File.file",
    "format1": "fm_parts.specs.Format1.format1",
    "as_message": "fm_read.specs.Written.as_message",
    "excerpt_events": "fm_excerpt.specs.Excerpt.excerpt_events",
    "excerpt_end": "fm_excerpt.specs.Excerpt.excerpt_end",
    "file_fault": "fm_top.specs.Products.file_fault",
    "contents": "fm_read.specs.Files.contents",
    "listing": "fm_listing.specs.Listing.listing",
    "score_plan": "fm_expansion.specs.Numbering.score_plan",
    "plan_lines": "fm_program.specs.Process.plan_lines",
    "levels_at": "fm_position.specs.Levels.levels_at",
    "depth_at": "fm_position.specs.Levels.depth_at",
    "start": "fm_line.specs.Line.start",
    "parts_of": "fm_nest.specs.Nesting.parts_of",
    "placed": "fm_warp.specs.Deformation.placed",
    "there_text": "fm_position.specs.PositionLine.there_text",
    "never_text": "fm_position.specs.PositionLine.never_text",
    "head_bytes": "fm_record.specs.Head.head_bytes",
    "bad_field": "fm_record.specs.Head.bad_field",
    "byte_at": "fm_record.specs.Reading.byte_at",
    "four_at": "fm_record.specs.Reading.four_at",
    "read_step": "fm_record.specs.Reading.read",
    "step_bytes": "fm_record.specs.StepBytes.step_bytes",
    "reason": "fm_core.specs.Steps.reason",
    "after": "fm_core.specs.Effects.after",
    "opening": "fm_core.specs.State.opening",
    "cell": "fm_core.specs.State.cell",
    "total": "fm_line.specs.Line.total",
    "bad_head": "fm_top.specs.Records.bad_head",
    "bad_step": "fm_top.specs.Records.bad_step",
    "refused_step": "fm_top.specs.Records.refused_step",
    "unfinished_run": "fm_top.specs.Records.unfinished_run",
    "too_long": "fm_top.specs.Records.too_long",
    "fault_text": "fm_tell.specs.Telling.fault_text",
    "fault_status": "fm_tell.specs.Telling.fault_status",
    "settings_by_rules": "fm_words.specs.Asked.settings_by_rules",
    "summary_line": "fm_gen.specs.SummaryLine.summary_line",
    "score_summary": "fm_top.specs.Products.score_summary",
}
TOP = os.path.dirname(os.path.dirname(os.path.dirname(os.path.abspath(__file__))))
MAX_TICK = 1 << 40
MAX_TEXT = 1 << 20


@dataclass(frozen=True)
class Fault:
    """A fault of a text: where it stands, and its number."""

    line: int
    column: int
    number: int


@dataclass(frozen=True)
class Read:
    """A text with its tokens, and its fault or the score that it means."""

    text: bytes
    tokens: Any
    verdict: Fault | Record


@dataclass
class Played:
    """An accepted text, as far as the definitions have been run on it."""

    score: Record
    resolved: Record
    performance: Any
    lines: Any
    piece: Any
    end: int
    file: bytes = b""


class NotJudged(Exception):
    """The definitions say nothing where they have to say something."""


class Definitions:
    """The definitions of the repository, each as a function of Python."""

    def __init__(self, repository: Repository):
        self.translator = Translator(repository)
        self.names: dict[str, str] = {}
        # the last text and the last score that were asked for
        self.last_read: Read | None = None
        self.last_played: Played | None = None
        # how many steps of records were gone through
        self.steps = 0
        for name, path in ASKED.items():
            module, _, plain = path.rpartition(".")
            target = Target("definition", f"Rattle.{module}", plain)
            if plain[0].isupper():
                self.translator.wanted.add(target)
            self.translator.definition(target)
            self.names[name] = global_name(target)
        self.load()

    def load(self) -> None:
        """Makes the module anew, as after a definition was changed."""
        self.space = run(self.translator.module())
        self.last_read = self.last_played = None

    def __getattr__(self, name: str) -> Any:
        return self.space[self.names[name]]

    # ---- words

    def settings_of(self, words: Sequence[bytes]) -> Any:
        """What words ask for, None where they are refused."""
        forget()
        found = self.settings_by_rules(listed(map(listed, words)))
        return None if found.tag == "None" else found.args[0]

    # ---- texts

    def verdict(self, text: bytes) -> Fault | Record:
        """The fault of a text, or the score that it means."""
        if len(text) > MAX_TEXT:
            return Fault(1, 1, self.too_much_text())
        return self.read(text).verdict

    def tokens_of(self, text: bytes) -> Any:
        return self.read(text).tokens

    def read(self, text: bytes) -> Read:
        """A text with what the definitions make of it, once for each text that is asked for again and again."""
        if self.last_read is None or self.last_read.text != text:
            forget()
            self.last_read = self.last_played = None
            tokens = self.tokens(listed(text))
            self.last_read = Read(text, tokens, self.judged(tokens))
        return self.last_read

    def judged(self, tokens: Any) -> Fault | Record:
        trips = self.first_fault(tokens)
        form = form_of(tokens)
        spelt = form is not None and self.score_text(form) == tokens
        reads = spelt and self.EntriesWithin(self.limits(), form.entries) and self.DivisionStands(form.version, form.divided)
        if reads is not (trips.tag == "None"):
            raise NotJudged(f"{trips!r}, and {'a' if form else 'no'} form")
        if form is None or not reads:
            return self.fault_at(self.grammar_fault(trips.args[0]))
        score: Record = self.score_tree(form)
        found = self.first_found(self.score_faults(score))
        return score if found.tag == "None" else self.fault_at(found.args[0])

    def fault_at(self, fault: Any) -> Fault:
        return Fault(fault.spot.line, fault.spot.column, fault.number)

    def played(self, score: Record) -> Played:
        if self.last_played is None or self.last_played.score is not score:
            self.last_played = self.performed(score)
        return self.last_played

    def performed(self, score: Record) -> Played:
        resolved = self.resolved(score)
        performance = self.score_plays(resolved)
        lines = self.played_lines(resolved)
        return Played(score, resolved, performance, lines, self.piece(lines), performance.after.position)

    def file_of(self, played: Played) -> bytes:
        if not played.file:
            played.file = bytes(self.file(self.profile_of(played.score), played.piece, played.end))
        return played.file

    def track_of(self, played: Played) -> bytes:
        return bytes(self.track(self.profile_of(played.score), played.piece, played.end))

    def parts_of_score(self, played: Played) -> bytes:
        messages = listed(self.as_message(event) for event in played.piece)
        return bytes(self.format1(self.profile_of(played.score).division, messages, played.end))

    def excerpt_of(self, played: Played, begin: int, until: int | None) -> bytes:
        stop = Made("None") if until is None else Made("Some", (until,))
        events = self.excerpt_events(begin, stop, played.piece, played.end)
        return bytes(self.file(self.profile_of(played.score), events, self.excerpt_end(begin, stop, played.end)))

    # ---- files

    def listing_of(self, data: bytes) -> bytes | tuple[int, int]:
        """The listing of a file, or the position and the number of its fault."""
        forget()
        fault = self.file_fault(listed(data))
        if fault.tag == "Some":
            place: tuple[int, int] = fault.args[0]
            return place
        return bytes(self.listing(self.contents(listed(data)).args[0]))

    # ---- positions

    def position_line(self, score: Record, process: int, tick: int) -> bytes | None:
        """The line of a tick in the levels of a process, or None where there is no such process."""
        plan = self.score_plan(score)
        lines = self.plan_lines(plan)
        if process >= sum(1 for _ in lines):
            return None
        warps, positions, at = plan.stock.warps, [], tick
        for level, frame in enumerate(self.levels_at(plan, process)):
            parts = self.parts_of(warps, frame)
            least = self.least_at(frame.origin, parts, at)
            if least is None:
                return bytes(self.never_text(process, self.depth_at(plan, process), self.start(lines, process), level + 1))
            positions.append(least)
            at = least
        if len(positions) != self.depth_at(plan, process):
            raise NotJudged("levels and depth")
        return bytes(self.there_text(process, self.start(lines, process), listed(positions)))

    def least_at(self, origin: int, parts: Any, tick: int) -> int | None:
        """The first position that lies at the tick or later: maps never fall, so it is enough to look at the one before."""
        onset = Made("Onset")
        low, high = 0, MAX_TICK + 1
        while low < high:
            middle = (low + high) // 2
            if self.placed(onset, origin, parts, middle) >= tick:
                high = middle
            else:
                low = middle + 1
        return None if low > MAX_TICK else low

    # ---- records

    def head_of(self, workers: int, room: int, lead: int, text: bytes) -> bytes:
        """The head of a record of a run: the conductor has a seat too."""
        return bytes(self.head_bytes(workers + 1, room, lead, listed(text)))

    def audit(self, data: bytes) -> bytes | tuple[int, int] | Fault:
        """The file of an accepted record, or the place and the number of its fault, or the fault of its text. The steps are
        gone through by the definitions of the core one by one."""
        forget()
        record = listed(data)
        bad = self.bad_field(record)
        if bad.tag == "Some":
            return bad.args[0], self.bad_head()
        seats, room, lead, size = data[4], data[5], self.four_at(record, 6), self.four_at(record, 10)
        text = data[14:14 + size]
        if bytes(self.head_bytes(seats, room, lead, listed(text))) != data[:14 + size]:
            raise NotJudged("the head of a record")
        score = self.verdict(text)
        if isinstance(score, Fault):
            return score
        played = self.played(score)
        fault = self.steps_fault(played.lines, seats, room, lead, data[14 + size:])
        return self.file_of(played) if fault is None else fault

    def steps_fault(self, lines: Any, seats: int, room: int, lead: int, steps: bytes) -> tuple[int, int] | None:
        setting = Record(lines=lines, room=room, lead=lead)
        state = self.opening(sum(1 for _ in lines), seats)
        at = count = 0
        while at < len(steps):
            # no step has more than 14 bytes
            found = self.read_step(listed(steps[at:at + 14]))
            if found.tag == "None":
                return at, self.bad_step()
            step, size = found.args[0]
            if bytes(self.step_bytes(step)) != steps[at:at + size]:
                raise NotJudged("the bytes of a step")
            if self.reason(setting, state, step).tag == "Some":
                return count, self.refused_step()
            state = self.after(setting, state, step)
            at, count = at + size, count + 1
            self.steps += 1
        released = sum(1 for _ in state.released) == self.total(lines)
        drained = all(cell.tag.tag == "Drained" for cell in state.cells)
        return None if released and drained else (count, self.unfinished_run())

