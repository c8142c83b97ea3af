"""What verbs share that look through many scores: files and folders, a line for each thing that is found, a sum."""

from __future__ import annotations

import argparse
import os
from typing import Any, Iterator

from formula_score.checks.finding import REMARK, WARNING, Found
from formula_score.checks.margin import Problem, refused
from formula_score.explaining.explain import place_of
from formula_score.making.values import plain
from formula_score.reading.made import in_python, origin, piece_of, placed
from formula_score.reading.playing import Failed, NoScore, counted, judge, text_of
from formula_score.running.pieces import file_of
from .options import failure, put


def several_arguments(parser: argparse.ArgumentParser) -> None:
    """The scores that the verb takes."""
    parser.add_argument("scores", nargs="+", metavar="SCORE", help="the text of a score, or a folder: all files in it "
                        "and below it whose names end in .score")
    parser.add_argument("--text-places", action="store_true",
                        help="of a Python file, the places in the text of its score, too")


def _files(path: str) -> Iterator[str]:
    if not os.path.isdir(path):
        yield path
        return
    for folder, inner, names in os.walk(path):
        inner.sort()
        yield from (os.path.join(folder, name) for name in sorted(names) if name.endswith(".score"))


def found_of(text: bytes, problem: Problem) -> Found:
    """A problem with its line and column; a cure is a part of its words."""
    begin = text.rfind(b"\n", 0, problem.start) + 1
    edits = problem.changes[0].edits if problem.changes else ()
    what = problem.what.removesuffix(f" ({problem.rule})")
    said = f"{what}: {problem.cure}" if problem.cure else what
    return Found(text.count(b"\n", 0, begin) + 1, problem.start - begin + 1, problem.rule, problem.severity,
                 " ".join(said.split()), edits)


class Several:
    """Scores one after another, and what was found in all; as lines, or at the end as JSON."""

    def __init__(self, paths: list[str], as_json: bool, in_lines: bool = False, tells_text: bool = False):
        self.tells_text = tells_text
        self.is_one = len(paths) == 1 and not os.path.isdir(paths[0])
        self.in_lines = in_lines or not self.is_one
        self.paths = [file for path in paths for file in _files(path)]
        self.as_json = as_json
        self.found: list[tuple[str, Found]] = []
        self.refused: list[dict[str, Any]] = []

    def texts(self) -> Iterator[tuple[str, bytes]]:
        """Each score that is accepted. A refused one ends the verb, or is a line of what is found."""
        for path in self.paths:
            try:
                text = judge(path)
            except Failed as failed:
                if not self.in_lines or failed.status > 2:
                    raise
                self.refused.append({"path": path, **failure(failed, path)})
                place = place_of(failed.said)
                if place is not None:
                    text = text_of(path)
                    self.tell(path, found_of(text, refused(text, place)))
                elif not self.as_json:
                    print(failed.why if isinstance(failed, NoScore) else f"{plain(path)}: {failed.said or failed.why}")
                continue
            yield path, text

    def tell(self, path: str, found: Found) -> None:
        """Prints what was found."""
        self.found.append((path, found))
        if not self.as_json:
            self._print(path, found)

    def _print(self, path: str, found: Found) -> None:
        made = origin(path, found.line, found.column)
        line, column = made.calls[0] if made else (found.line, found.column)
        text = f"; line {found.line}, column {found.column} of the text" if made and self.tells_text else ""
        print(f"{plain(file_of(path))}:{line}:{max(1, column)}: {found.severity}: "
              f"{in_python(piece_of(path), found.what)} [{found.rule}]{text}")
        for shown in made.lines if made else ():
            print(plain(shown))

    def end(self, **more: object) -> int:
        """Prints the sum, and gives the status: 1 where something is refused or warned of."""
        counts = {kind: sum(found.severity == kind for _, found in self.found) for kind in (WARNING, REMARK)}
        if self.as_json:
            put({**more,
                 "findings": [placed(path, {"path": path, **found._asdict(),
                                            "edits": [edit._asdict() for edit in found.edits]})
                              for path, found in self.found], "refused": self.refused,
                 "scores": len(self.paths)})
        else:
            words = [counted(count, kind) for kind, count in counts.items()]
            words += [f"{len(self.refused)} refused"] if self.refused else []
            print(f"{counted(len(self.paths), 'score')}: {', '.join(words)}")
        return 1 if self.refused or counts[WARNING] else 0
