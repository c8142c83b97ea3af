"""The verb `diff`: versions of the tutorial's piece and of small scores and files, with what a musician says of
each."""

from __future__ import annotations

import json
import pathlib
import tempfile
import unittest

from .companion import Answer, score
from .midi_files import meta, midi, notes, track
from .program import TOP, needs_program

PIECE = (TOP / "examples" / "tutorial" / "8_end.score").read_text()


@needs_program
class Differences(unittest.TestCase):
    def setUp(self) -> None:
        folder = tempfile.TemporaryDirectory()
        self.addCleanup(folder.cleanup)
        self.old, self.new = (pathlib.Path(folder.name, name) for name in ("old", "new"))

    def differ(self, old: "str | bytes", new: "str | bytes", *words: object) -> Answer:
        for path, data in ((self.old, old), (self.new, new)):
            path.write_bytes(data.encode() if isinstance(data, str) else data)
        return score("diff", self.old, self.new, *words)

    def test_two_versions_of_the_tutorials_piece(self) -> None:
        new = PIECE
        for before, now in (("note e4 1/8; note f4 1/8; note e4 1/4; note c4",
                             "note e4 1/8; note fs4 1/8; note c4 1/4; rest"),
                            ("rest 1/4;\n", "rest 1/4;\n"), ("volume 60", "volume 70"), ("program 73", "program 40"),
                            ("flat 14/1 by 1250", "flat 14/1 by 1200"), ("gate 50", "gate 60")):
            new = new.replace(before, now, 1)
        faster = "faster, 100 quarter notes a minute in place of 96"  # 120,000 by 1,250 and by 1,200
        answer = self.differ(PIECE, new)
        self.assertEqual((answer.status, answer.said.splitlines()), (1, [
            f"bar 1: opening: louder, 60 to 70, violin in place of flute; {faster}",
            f"bars 2 to 8: opening: louder, 60 to 70; {faster}",
            f"bar 9: opening: longer, 1.2 times; {faster}",
            f"bar 10: opening: fs4 in place of f4 at beat 2 and 1/8, c4 in place of e4 at beat 3, c4 gone at beat 4, "
            f"longer, 1.2 times; {faster}",
            f"bars 11 to 12: opening: softer by 2 to 3, longer, 1.2 times; {faster}", f"bars 13 to 14: {faster}"]))

    def test_equal_pieces_differ_in_nothing(self) -> None:
        again = PIECE.replace("# Step 8", "# Another comment").replace("1/4; note e4", "2/8;   note e4")
        answer = self.differ(PIECE, again)
        self.assertEqual(answer, Answer(0, "", ""))
        self.assertEqual(json.loads(self.differ(PIECE, PIECE, "--json").said), {"changes": [], "within": None})

    def test_each_kind_of_change(self) -> None:
        head, tail = "formula 1; note c4 1/1; ", " note g4 1/1;"
        for old, new, said in (
            ("note c4 1/2; rest 1/2;", "note c4 1/2; note e4 1/2;", "e4 added at beat 3"),
            ("rest 1/2; note c4 1/2;", "note c4 1/2; rest 1/2;", "c4 from beat 3 to beat 1"),
            ("note c4 1/1;", "note key 61 1/1;", "cs4 in place of c4 at beat 1"),
            ("repeat 4 { note c4 1/4; }", "repeat 4 { note e4 1/4; }", "4 notes 4 semitones higher"),
            ("repeat 4 { note c4 1/4; }", "rest 1/1;", "4 notes gone"),
            ("note c4 1/2; note d4 1/2;", "note c4 1/2; volume 32 { note d4 1/2; }", "1 of 2 notes softer, 64 to 32"),
            ("note c4 1/1;", "note c4 1/2; rest 1/2;", "shorter, 0.5 times"),
            ("control 7 90; rest 1/1;", "control 7 100; rest 1/1;", "control 7 (volume) 100 in place of 90"),
            ("rest 1/1;", "rest 1/4; control 64 127; rest 3/4;", "control 64 (pedal) 127 (on) added at beat 2"),
            ("bend 5; rest 1/1;", "rest 1/1;", "bend 5 gone at beat 1"),
        ):
            answer = self.differ(head + old + tail, head + new + tail)
            self.assertEqual((answer.status, answer.said), (1, f"bar 2: channel 0: {said}\n"), (old, new))

    def test_bars_that_are_new_or_gone(self) -> None:
        bars = [f"note {name}4 1/2; note {name}4 1/2;" for name in "cdefgab"]
        old, new = (f"formula 1; {' '.join(some)}" for some in (bars[:5], [*bars[:2], bars[6], *bars[2:5]]))
        self.assertEqual(self.differ(old, new).said, "bar 3 is new\n")
        self.assertEqual(self.differ(new, old).said, "bar 3 is gone\n")
        louder = old.replace("note g4 1/2; note g4 1/2;", "volume 90 { note g4 1/2; note g4 1/2; }")
        self.assertEqual(self.differ(old, louder.replace(bars[2], f"{bars[6]} {bars[5]} {bars[2]}")).said,
                         "bars 3 to 4 are new\nbar 5 (now 7): channel 0: louder, 64 to 90\n")

    def test_what_differs_within_bars_alone(self) -> None:
        text = "formula 1; shape s = {}; warp s {{ note c4 1/2; note d4 1/2; }}"
        answer = self.differ(text.format("flat 1/2 by 900, flat 1/2 by 1100"), text.format("flat 1/1 by 1000"))
        self.assertEqual((answer.status, answer.said[:45]), (1, "each bar has the same notes and the same length"[:45]))

    def test_files_and_a_file_beside_a_score(self) -> None:
        tempo = meta(0x51, (500_000).to_bytes(3, "big"))
        first = [(0, meta(3, b"flute")), (0, meta(0x58, b"\3\2\x18\x08")), (0, tempo)]
        tune = notes(0, (0, 480, 60, 64), (480, 960, 62, 64), (1440, 1920, 64, 64))
        old = midi(480, [track([*first, *tune], 2880)])
        new = midi(960, [track([*first[:2], (0, meta(0x51, (600_000).to_bytes(3, "big"))),
                                *notes(0, (0, 960, 60, 64), (960, 1920, 62, 64), (2880, 3840, 65, 100))], 5760)])
        slower = "slower, 100 quarter notes a minute in place of 120"
        self.assertEqual(self.differ(old, new).said,
                         f"bar 1: {slower}\nbar 2: flute: f4 in place of e4 at beat 1, louder, 64 to "
                                                     f"100; {slower}\n")
        text = "formula 1; gate 100 { note c4 1/4; note d4 1/4; rest 1/4; note e4 1/4; rest 1/2; }"
        self.assertEqual(self.differ(text, old, "--meter", "3/4").said, "")

    def test_json_and_refusals(self) -> None:
        answer = self.differ("formula 1; note c4 1/1;", "formula 1; note d4 1/1;", "--json")
        change, = json.loads(answer.said)["changes"]
        self.assertEqual((answer.status, change), (1, {
            "bar": 1, "new_bar": 1, "part": "channel 0", "process": 0, "kind": "pitch",
            "words": "d4 in place of c4 at beat 1", "facts": {"key": 62, "before": 60, "begin": "0"}}))
        answer = self.differ("formula 1; note c4 1/1;", "formula 1; note d4;", "--json")
        refused = json.loads(answer.said)["refused"]
        self.assertEqual((answer.status, refused["line"], refused["column"], refused["fault"]), (2, 1, 19, 3))
        self.assertIn("write", refused["cure"])
        self.assertEqual(self.differ("formula 1;", b"MThd").status, 2)
        self.assertEqual(score("diff", self.old, "/none").status, 2)


if __name__ == "__main__":
    unittest.main()
