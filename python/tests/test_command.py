"""The calls that run the command: what they hand to it, and what they make of its answers."""

from __future__ import annotations

import inspect
import pathlib
import re
import tempfile
import unittest
from typing import Any, Callable

import formula_score
from formula_score import (
    FileEvent, FileRefused, Large, Listing, Located, RecordRefused, Refused, Score, ScoreError, audit, flat, large,
    listing, locate, note, par, play, render, render_all, repeat, rest, ticks, warp,
)
from formula_score.running.command import words_of

from .program import PROGRAM, TOP, foretold, needs_program

EXAMPLES = TOP / "examples"
ONE = Score(note("c4", "1/4"))
#: README's first score.
ONE_FILE = bytes.fromhex("4D546864 00000006 0000 0001 01E0 4D54726B 00000014"
                         "00FF510307A120 00903C40 8330803C40 30FF2F00")


def digits(name: str) -> bytes:
    """The bytes of an example."""
    return bytes.fromhex(re.sub(r"#.*", "", (EXAMPLES / name).read_text()))


class Options(unittest.TestCase):
    def test_they_have_names_and_types_and_are_told_by_help(self) -> None:
        names = ["workers", "lead", "room", "rounds", "parts", "from_", "to", "record"]
        calls: tuple[Callable[..., object], ...] = (play, render, large, Score.play, Score.render)
        for call in calls:
            options = [option for option in inspect.signature(call).parameters.values()
                       if option.kind is inspect.Parameter.KEYWORD_ONLY]
            self.assertEqual([option.name for option in options], names, call)
            self.assertTrue(all(option.annotation in ("Optional[int]", "bool") for option in options), call)
        page = inspect.getdoc(formula_score.running.command)
        self.assertTrue(page and all(f"`{name}`" in page for name in names))

    def test_their_words(self) -> None:
        self.assertEqual(words_of(0, 480, 1, True), ["--workers", "0", "--lead", "480", "--room", "1", "--rounds"])
        self.assertEqual(words_of(parts=True), ["--parts"])
        self.assertEqual(words_of(from_=0, to=1920), ["--from", "0", "--to", "1920"])
        wrong: Any
        for wrong in (dict(workers=17), dict(workers=1.0), dict(workers=True), dict(room=0), dict(lead="5"),
                      dict(to=-1), dict(parts="yes"), dict(parts=True, record=True), dict(from_=0, parts=True)):
            self.assertRaises(ScoreError, words_of, **wrong)
        unknown: Any = dict(worker=1)
        self.assertRaises(TypeError, ONE.play, "out.mid", **unknown)


@needs_program
class Calls(unittest.TestCase):
    def setUp(self) -> None:
        folder = tempfile.TemporaryDirectory()
        self.addCleanup(folder.cleanup)
        self.folder = pathlib.Path(folder.name)

    def test_a_score_is_rendered(self) -> None:
        self.assertEqual(ONE.render(PROGRAM, workers=0), ONE_FILE)
        self.assertEqual(render(ONE.text, PROGRAM, rounds=True, room=1, lead=0), ONE_FILE)
        self.assertEqual(ONE.render(PROGRAM, from_=0, to=1)[29:].hex(), "00903c40" "01803c40" "00ff2f00")
        self.assertEqual(ONE.render(PROGRAM, parts=True)[8:14].hex(), "0001" "0002" "01e0")
        with self.assertRaises(Refused) as caught:
            render(b"formula 1;\nnote c4 1/7;\n", PROGRAM)
        self.assertEqual((caught.exception.line, caught.exception.column, caught.exception.number), (2, 9, 8))

    def test_a_tick_is_located(self) -> None:
        text = (EXAMPLES / "positions" / "two_levels.score").read_bytes()
        self.assertEqual(locate(text, 201, 1, PROGRAM), Located(1, 2, 220, (51, 42), None))
        double, half = flat(ticks(1000), 2000), flat(ticks(1000), 500)
        inner = warp([half], rest(ticks(60)), par(note("e4", 0)))
        score = Score(rest(ticks(100)), warp([double], rest(ticks(30)), inner))
        self.assertEqual(score.locate(201, 1, PROGRAM), Located(1, 2, 220, (51, 42), None))
        self.assertEqual(score.locate(201, program=PROGRAM), Located(0, 0, 0, (), None))
        rush = Score(rest("1/4"), warp([flat(ticks(1_000_000), 1)], par(note("c4", "1/4"))))
        self.assertEqual(rush.locate(1_099_510_629_256, 1, PROGRAM).positions, (1_099_511_627_776,))
        self.assertEqual(rush.locate(1_099_511_627_776, 1, PROGRAM), Located(1, 1, 480, None, 1))
        with self.assertRaisesRegex(formula_score.CommandError, "there is no process 3") as caught:
            ONE.locate(0, 3, PROGRAM)
        self.assertEqual(caught.exception.status, 7)
        self.assertRaises(ScoreError, ONE.locate, -1)

    def test_a_file_is_listed(self) -> None:
        events = [FileEvent(0, 0, bytes.fromhex("FF510307A120")), FileEvent(0, 0, bytes.fromhex("903C40")),
                  FileEvent(0, 432, bytes.fromhex("803C40")), FileEvent(0, 480, bytes.fromhex("FF2F00"))]
        self.assertEqual(listing(ONE_FILE, PROGRAM), Listing(0, 1, 480, events))
        path = self.folder / "two.mid"
        path.write_bytes(digits("files/two_tracks.hex"))
        found = listing(path, PROGRAM)
        self.assertEqual((found.format, found.tracks, found.division), (1, 2, 96))
        lines = [f"{track} {tick} {message.hex(' ').upper()}" for track, tick, message in found.events]
        self.assertEqual(lines, (EXAMPLES / "files" / "two_tracks.listing").read_text().splitlines()[1:])
        with self.assertRaises(FileRefused) as caught:
            listing(digits("files/refused/after_end.hex"), PROGRAM)
        self.assertEqual((caught.exception.byte, caught.exception.number), (26, 33))

    def test_a_record_is_audited(self) -> None:
        path = self.folder / "out.mid"
        audit(digits("records/two_seats.hex"), path, PROGRAM)
        self.assertEqual(path.read_bytes(), digits("records/two_seats.file"))
        audit(ONE.render(PROGRAM, record=True, workers=2), path, PROGRAM)
        self.assertEqual(path.read_bytes(), ONE_FILE)
        with self.assertRaises(RecordRefused) as caught:
            audit(digits("records/refused/unknown_kind.hex"), path, PROGRAM)
        self.assertEqual((caught.exception.place, caught.exception.number), (22, 43))
        with self.assertRaises(Refused) as refused:
            audit(digits("records/refused/refused_score.hex"), path, PROGRAM)
        self.assertEqual((refused.exception.line, refused.exception.column, refused.exception.number), (1, 11, 3))

    def test_a_large_score_tells_its_totals(self) -> None:
        path = self.folder / "large.mid"
        self.assertEqual(large(0, path, PROGRAM, workers=0), Large(18, 32_000, 121_800, 128_033))
        self.assertEqual(path.stat().st_size, 128_033)

    def test_many_are_rendered_in_their_order(self) -> None:
        wrong: Any = 7
        given = [*(Score(repeat(count, note("c4", ticks(count)))) for count in range(20)), "formula 1;\nnote c4 1/7;\n", wrong]
        files = render_all(given, jobs=3, program=PROGRAM)
        self.assertEqual(files[:20], [foretold(score) for score in given[:20] if isinstance(score, Score)])
        self.assertEqual((type(files[20]), getattr(files[20], "line"), len(files)), (Refused, 2, 22))
        self.assertIsInstance(files[21], Exception)
        self.assertEqual(render_all([]), [])
        self.assertRaises(ScoreError, render_all, [], jobs=0)


if __name__ == "__main__":
    unittest.main()
