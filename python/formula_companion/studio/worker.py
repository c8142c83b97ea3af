"""A process of its own for what takes long in Python, which can be ended at any time: it reads requests and answers.

    python3 -m formula_companion.studio.worker

A request is a frame whose head says what is to be done, its body is the text. An answer is a frame, too; `failed`
in its head says why there is none.
"""

from __future__ import annotations

import argparse
import gc
import hashlib
import os
import sys
import traceback
from typing import Any, Callable, Optional

from formula_score.checks.margin import Problem, problems
from formula_score.pictures.roll import picture as drawn
from formula_score.reading.made import in_python
from formula_score.reading.meter import groups_of, part_of
from formula_score.reading.playing import Failed, listing_of_file
from formula_score.reading.reader import read as read_score
from formula_score.running.pieces import Piece
from ..editing.completion import completed
from ..editing.names import definition, same_name, use_at
from ..editing.outline import Part, outline
from ..editing.places import Places, Position
from ..editing.reference import row_at
from .frames import Frame, packed, read
from .picture import Picture, meter_of
from .pieces import MadePlaces, compiled, taken


#: The longest file whose score is read, in bytes: about half a million events, which take a gigabyte here.
MOST_BYTES = 2_000_000


class Worker:
    """What is known of the text that was read last, and what can be asked of it."""

    def __init__(self) -> None:
        self.version = ""
        self.picture: Optional[Picture] = None
        #: what a Python file made, where the text is its score
        self.piece: Optional[Piece] = None
        self.tasks: dict[str, Callable[[dict[str, Any], bytes], Frame]] = {
            "problems": self.problems, "picture": self.processes, "bars": self.bars, "facts": self.facts,
            "curves": self.curves, "complete": self.complete, "hover": self.hover, "outline": self.outline,
            "names": self.names, "svg": self.svg, "check": self.check,
        }

    def answer(self, asked: Frame) -> Frame:
        """The answer to a request."""
        made, text = asked.head.get("made"), asked.body
        self.piece = None if made is None else taken(text, made)
        try:
            return self.tasks[asked.head["do"]](asked.head, self.piece.text if self.piece else text)
        except Failed as failed:
            return Frame({"failed": failed.why}, b"")
        except Exception:  # the studio goes on, and the terminal has the reason
            traceback.print_exc()
            return Frame({"failed": "the companion has a fault here; the terminal of the studio tells it"}, b"")

    def _known(self, head: dict[str, Any], text: bytes) -> Picture:
        version = hashlib.sha256(text).hexdigest()
        if self.picture is None or self.version != version:
            if os.path.getsize(head["file"]) > MOST_BYTES:
                raise Failed(1, "the piece is too long to be looked at: it is shown without processes, places and bars")
            self.picture = None
            self.picture, self.version = Picture(text, head["file"]), version
        self.picture.places = self._places(text)
        return self.picture

    def _places(self, text: bytes) -> Places:
        return MadePlaces(self.piece) if self.piece else Places(text)

    def check(self, head: dict[str, Any], text: bytes) -> Frame:
        """What is wrong with the words of a Python file, which is not run."""
        return Frame({"problems": compiled(head["name"], text)}, b"")

    def problems(self, head: dict[str, Any], text: bytes) -> Frame:
        """What is refused in a text, or what lint and bars find in it."""
        places = self._places(text)
        found = problems(text, head.get("said", ""), lambda: listing_of_file(head["file"]),
                         lambda reading: meter_of(reading, head["meter"], head["upbeat"]))
        told = [_shown(problem, places) for problem in found]
        if self.piece:  # a change would be one of the text
            told = [{**problem, "what": in_python(self.piece, problem["what"]), "changes": []} for problem in told]
        return Frame({"problems": told}, b"")

    def processes(self, head: dict[str, Any], text: bytes) -> Frame:
        """The processes of a text, and of each event its process and its place."""
        known = self._known(head, text)
        processes = [{**each, "name": in_python(self.piece, each["name"])} for each in known.processes()]
        return Frame({"processes": processes, "events": len(known.events),
                      "happenings": len(known.walk.happenings)}, known.table())

    def bars(self, head: dict[str, Any], text: bytes) -> Frame:
        """The ticks of bars."""
        known = self._known(head, text)
        return Frame(known.bars(meter_of(known.reading, head["meter"], head["upbeat"])), b"")

    def facts(self, head: dict[str, Any], text: bytes) -> Frame:
        """What is known of a note."""
        known = self._known(head, text)
        rows = known.facts(head["event"], meter_of(known.reading, head["meter"], head["upbeat"]))
        if self.piece:
            rows += [["Python", in_python(self.piece, words)] for name, words in rows if name == "Text"]
        return Frame({"facts": rows}, b"")

    def curves(self, head: dict[str, Any], text: bytes) -> Frame:
        """The deformations of a process."""
        return Frame({"curves": self._known(head, text).curves(head["process"])}, b"")

    def complete(self, head: dict[str, Any], text: bytes) -> Frame:
        """What may be written at a place."""
        places = Places(text)
        found = completed(text, places.byte(Position(*head["position"])))
        return Frame({"range": places.range(found.start, found.end),
                      "items": [item._asdict() for item in found.items[:200]]}, b"")

    def hover(self, head: dict[str, Any], text: bytes) -> Frame:
        """What a word means."""
        places = Places(text)
        row = row_at(text, places.byte(Position(*head["position"])))
        return Frame({"row": None if row is None else [row.form, row.says]}, b"")

    def outline(self, _: dict[str, Any], text: bytes) -> Frame:
        """Phrases, shapes and branches, each with its line and how far it is inside others."""
        places = Places(text)
        found: list[tuple[str, str, int, int]] = []

        def add(part: Part, depth: int) -> None:
            found.append((part.kind, part.name, places.position(part.start).line, depth))
            for inner in part.inner:
                add(inner, depth + 1)

        for part in outline(text):
            add(part, 0)
        return Frame({"outline": found}, b"")

    def names(self, head: dict[str, Any], text: bytes) -> Frame:
        """Where the name at a place is defined, and all its places."""
        places = Places(text)
        use = use_at(text, places.byte(Position(*head["position"])))
        if use is None:
            return Frame({"uses": [], "definition": None}, b"")
        defined = definition(text, use)
        return Frame({"uses": [places.range(place.start, place.end) for place in same_name(text, use)],
                      "definition": places.range(defined.start, defined.end) if defined else None}, b"")

    def svg(self, head: dict[str, Any], text: bytes) -> Frame:
        """The picture that `formula-score roll` draws."""
        try:
            options = argparse.Namespace(meter=groups_of(head["meter"]), upbeat=part_of(head["upbeat"] or "0/1"))
        except argparse.ArgumentTypeError as error:
            raise Failed(2, str(error)) from error
        return Frame({}, drawn(listing_of_file(head["file"]), read_score(text), options).encode())


def _shown(problem: Problem, places: Places) -> dict[str, Any]:
    changes = [{"title": change.title, "edits": [{"range": places.range(edit.start, edit.end), "new": edit.new}
                                                 for edit in change.edits]} for change in problem.changes]
    return {**problem._asdict(), "range": places.range(problem.start, problem.end), "changes": changes}


def main() -> None:
    """Answers until there is no more request."""
    gc.set_threshold(100_000)  # a long text is a million objects, which the usual 700 has looked through too often
    answers = os.fdopen(os.dup(1), "wb")
    os.dup2(2, 1)  # what a function prints is no answer
    worker = Worker()
    while True:
        asked = read(sys.stdin.buffer)
        if asked is None:
            return
        answers.write(packed(*worker.answer(asked)))
        answers.flush()


if __name__ == "__main__":
    main()
