"""What the studio's pictures show of a score: processes, places of notes, bars and deformations, by the program."""

from __future__ import annotations

import os
import pathlib
import tempfile
import unittest
from array import array
from typing import Any
from unittest import mock

from formula_score.running.command import locate
from formula_score.reading.playing import Failed, run
from formula_companion.studio import examples, frames
from formula_companion.studio.picture import Picture, meter_of

from .program import PROGRAM, TOP, needs_program

NESTED = b"""formula 1;
shape double = flat ticks 1000 by 2000;
shape half = flat ticks 1000 by 500;
rest ticks 100;
warp double {
  rest ticks 30;
  par {
    branch { warp half { note c4 ticks 100; } par { branch { rest ticks 10; } branch { note d4, f4 ticks 5; } } }
    branch { gate 200 { note c4 ticks 10; note c4 ticks 20; } }
  }
}
"""


@needs_program
class Pictures(unittest.TestCase):
    def setUp(self) -> None:
        environment = mock.patch.dict(os.environ, {"FORMULA": PROGRAM or ""})
        environment.start()
        self.addCleanup(environment.stop)
        folder = tempfile.TemporaryDirectory()
        self.addCleanup(folder.cleanup)
        self.home = pathlib.Path(folder.name)

    def picture(self, text: bytes, file_of: bytes = b"") -> Picture:
        source, target = self.home / "in.score", self.home / "out.mid"
        source.write_bytes(file_of or text)
        self.assertEqual(run(str(source), str(target), "--workers", "0").status, 0)
        return Picture(text, str(target))

    def test_processes_begin_where_the_program_says(self) -> None:
        found = self.picture(NESTED).processes()
        self.assertEqual([process["begin"] for process in found],
                         [locate(NESTED, 0, process, PROGRAM).start for process in range(len(found))])
        self.assertEqual([tuple(process["waits"]) for process in found], [(), (0,), (1,), (1,), (2, 3), (0,), (4, 5)])
        # by hand: the block begins at 100, its positions take two ticks, those of `half` half a position
        self.assertEqual([(process["begin"], process["end"]) for process in found],
                         [(0, 160), (160, 260), (260, 280), (260, 270), (280, 280), (160, 220), (280, 280)])
        self.assertEqual(found[3]["name"], "process 3 (branch 2, line 8)")

    def test_each_event_has_its_process_its_note_and_its_place(self) -> None:
        picture = self.picture(NESTED)
        events, happenings = len(picture.events), len(picture.walk.happenings)
        table = array("i", picture.table())
        processes, partners = table[:events], table[2 * events:3 * events]
        lines, characters = table[3 * events:][:happenings], table[3 * events + happenings:]
        ons = [at for at, event in enumerate(picture.events) if event.message[0] == 0x90]
        self.assertEqual([(picture.events[at].tick, processes[at], picture.events[partners[at]].tick) for at in ons],
                         [(160, 1, 250), (160, 5, 200), (180, 5, 220), (260, 3, 268), (260, 3, 268)])
        self.assertEqual([(lines[table[events + at]], characters[table[events + at]]) for at in ons[:3]],
                         [(7, 25), (8, 24), (8, 42)])

    def test_a_note_is_told_in_bars_ticks_and_seconds(self) -> None:
        picture = self.picture(b"formula 1;\nphrase a {\n  note d4 1/4; volume 80 { note e4 1/2; }\n}\ndo a; do a;\n")
        second = [at for at, event in enumerate(picture.events) if event.message[0] == 0x90][3]
        self.assertEqual(picture.facts(second, meter_of(picture.reading, "3/4", "")), [
            ["Note", "e4, key 64, velocity 80, channel 0"],
            ["Process", "process 0 (outside all branches), its note 4"],
            ["Begins", "tick 1920, bar 2, beat 2 as written, 2.000 s"],
            ["Ends", "tick 2784, bar 2, beat 3 and 1/5 as written, 2.900 s"],
            ["Text", "line 3, column 28; bar 1, beat 2 of phrase a"]])

    def test_bars_lie_where_the_deformations_put_them(self) -> None:
        picture = self.picture(b"formula 1; shape s = flat 500/1 by 2000; note c4 1/4; warp s { note c4 3/2; }")
        found = picture.bars(meter_of(picture.reading, "3/4", "1/4"))
        self.assertEqual(found["bars"], [[0, 0], [480, 1], [3360, 2], [6240, 3]])
        self.assertEqual((found["first"], found["last"]), (0, 2))
        with self.assertRaises(Failed):
            meter_of(picture.reading, "3/5/7", "")

    def test_deformations_are_those_that_the_program_locates(self) -> None:
        picture = self.picture(NESTED)
        curves = {process: picture.curves(process) for process in (1, 3, 5)}
        self.assertEqual(curves[3][0]["levels"], ["double (line 2)"])
        for tick, *positions in curves[3][0]["points"]:
            self.assertEqual(tuple(positions), locate(NESTED, tick, 3, PROGRAM).positions)
        # what a process opens itself is among them: tick 161 is at 31 in `double`, and at 1 in `half`
        self.assertEqual(curves[1][0]["levels"], ["double (line 2)", "half (line 3)"])
        self.assertIn([160, 30, 0], curves[1][0]["points"])
        self.assertEqual(curves[1][0]["points"][-1][:2], [260, 80])

    def test_what_the_program_plays_otherwise_is_not_told(self) -> None:
        with self.assertRaisesRegex(Failed, "a fault of the companion"):
            self.picture(b"formula 1; note c4 1/4;", b"formula 1; note d4 1/4;")

    def test_the_examples_are_all_there(self) -> None:
        for example in examples.listed():
            text = examples.read(example.folder, example.name)
            self.assertEqual(text, (TOP / "examples" / example.folder / example.name).read_bytes())
        self.assertIsNone(examples.read("scores", "../tutorial/1_line.score"))
        self.assertGreater(len(examples.listed()), 20)


class Frames(unittest.TestCase):
    def test_a_body_begins_at_eight_bytes(self) -> None:
        for words in range(20):
            head: dict[str, Any] = {"a": "x" * words}
            data = frames.packed(head, b"body")
            self.assertEqual((len(data) - 4) % 8, 0)
            self.assertEqual(frames.unpacked(data), (head, b"body"))


if __name__ == "__main__":
    unittest.main()
