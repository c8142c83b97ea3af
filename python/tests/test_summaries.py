"""`--summary` and `--json` of the verbs, and `show` of a score: numbers that were counted by hand."""

from __future__ import annotations

import json
import pathlib
import subprocess
import tempfile
import unittest
from typing import Any

from .companion import Answer, score
from .program import PROGRAM, TOP, needs_program

PIECE = TOP / "examples" / "tutorial" / "8_end.score"
#: 3 bars of which the second one is played at half the speed: 4 + 8 + 4 quarter notes at 120 are 8 seconds
TEXT = """\
formula 1;
shape half = flat 1/1 by 2000;
note c4 1/1;
par {
  branch { warp half { note d4, a4 1/1; } }
  branch { channel 9 { note c2 1/1; } }
}
channel 2 { program 5; note e5 1/1; }
"""
SUMMARY = ["11 events, 3 bars, 8.0 seconds, 4 processes", "channel 0: 3 notes, c4 to a4", "channel 2: 1 note, e5 to e5",
           "channel 9: 1 note, c2 to c2"]


@needs_program
class Summaries(unittest.TestCase):
    def setUp(self) -> None:
        folder = tempfile.TemporaryDirectory()
        self.addCleanup(folder.cleanup)
        self.folder = pathlib.Path(folder.name)
        self.path = self.folder / "t.score"
        self.path.write_text(TEXT)

    def json(self, *words: object) -> tuple[int, Any]:
        answer = score(*words, "--json")
        self.assertEqual((answer.complaint, answer.said.count("\n")), ("", 1), words)
        return answer.status, json.loads(answer.said)

    def played(self, *words: object) -> "subprocess.CompletedProcess[str]":
        return subprocess.run([TOP / "bin" / "formula-score", "play", *map(str, words)], capture_output=True, text=True,
                              errors="replace",
                              env={"FORMULA": str(PROGRAM), "PATH": "/usr/bin:/bin"}, check=False)

    def test_play_bars_and_show_sum_up(self) -> None:
        for answer in (score("bars", self.path, "--summary"), score("show", self.path, "--summary")):
            self.assertEqual((answer.status, answer.said.splitlines()), (0, SUMMARY))
        out = self.folder / "t.mid"
        done = self.played(self.path, out, "--summary")
        self.assertEqual((done.returncode, done.stdout.splitlines(), done.stderr), (0, SUMMARY, ""))
        of_file = ["11 events, 4 bars, 8.0 seconds", *SUMMARY[1:]]
        self.assertEqual(score("show", out, "--summary", "--meter", "4/4").said.splitlines(), of_file)
        value = self.json("bars", self.path, "--summary")[1]["summary"]
        self.assertEqual(value, {"events": 11, "bars": "3 bars", "seconds": 8.0, "processes": 4, "channels": {
            "0": {"notes": 3, "low": 60, "high": 69}, "2": {"notes": 1, "low": 76, "high": 76},
            "9": {"notes": 1, "low": 36, "high": 36}}})
        # the pages of the tutorial say that its piece ends at tick 42,120: 43.875 seconds
        self.assertEqual(score("bars", PIECE, "--summary").said.splitlines()[0],
                         "202 events, 16 bars, 43.9 seconds, 4 processes")

    def test_show_gives_bars_of_a_score_through_deformations(self) -> None:
        said = score("show", self.path).said.splitlines()
        self.assertEqual([" ".join(line.split()) for line in said], [
            "4 processes, 480 ticks a quarter note, end at tick 7680, meter 4/4",
            "0 1:1 0 c4 velocity 64 1728 ticks process 0, line 3",
            "1920 2:1 0 d4 velocity 64 3456 ticks process 1, line 5",
            "1920 2:1 0 a4 velocity 64 3456 ticks process 1, line 5",
            "1920 2:1 9 c2 (bass drum) velocity 64 1728 ticks process 2, line 6",
            "5760 3:1 2 program 5 (electric piano 2) process 3, line 8",
            "5760 3:1 2 e5 velocity 64 1728 ticks process 3, line 8",
            "7680 4:1 end of track"])
        events = self.json("show", self.path)[1]["events"]
        self.assertEqual(events[1], {"tick": 1920, "track": 0, "message": "90 3E 40", "words": "d4  velocity 64",
                                     "channel": 0,
                                     "end": 5376, "bar": 2, "beat": 1, "ticks": 0, "process": 1, "line": 5,
                                     "column": 24})
        done = self.played(self.path, self.folder / "t.mid", "--events")
        self.assertEqual((done.returncode, json.loads(done.stdout)["events"]), (0, events))

    def test_json_of_bars_and_lint(self) -> None:
        status, value = self.json("bars", self.path)
        whole = {"path": str(self.path), "line": 0, "what": "the piece", "lasts": "3 bars", "ticks": [7680],
                 "where": "bars 1 to 3"}
        self.assertEqual((status, value["lengths"][-1]), (0, whole))
        self.assertEqual(self.json("bars", self.path, "--tick", 3), (0, {"bar": 3, "ticks": [{"tick": 5760,
                                                                                              "processes": [3]}]}))
        self.assertEqual(self.json("bars", self.path, "--bar", 3840), (0, {"tick": 3840, "places": [
            {"process": 1, "line": 5, "column": 24, "bar": 2, "beat": 3, "ticks": 0}]}))
        self.path.write_text("formula 1; note es4 1/4;")
        status, value = self.json("lint", self.path)
        self.assertEqual((status, [(each["line"], each["column"]) for each in value["findings"]]), (1, [(1, 17)]))

    def test_json_of_import_and_of_refusals(self) -> None:
        out = self.folder / "t.mid"
        self.assertEqual(self.played(self.path, out, "--json").returncode, 0)
        status, value = self.json("import", out, self.folder / "again.score")
        self.assertEqual((status, value["notes"], value["is_good"], value["bytes"]),
                         (0, 5, True, (self.folder / "again.score").stat().st_size))
        self.path.write_text("formula 1;\nnote c4;\n")
        for words in (["bars"], ["lint"], ["show"], ["diff", str(self.path)]):
            status, value = self.json(*words, self.path)
            refused = value["refused"]
            self.assertEqual((refused["line"], refused["column"], refused["fault"], value["status"]), (2, 8, 3, status),
                             words)
            self.assertTrue(refused["cure"], words)
        done = self.played(self.path, out, "--json")
        value = json.loads(done.stdout)
        self.assertEqual((done.returncode, value["status"], value["refused"]["column"]), (3, 3, 8))
        (self.folder / "bad.mid").write_bytes(b"MThd")
        status, value = self.json("show", self.folder / "bad.mid")
        self.assertEqual((status, value["refused"]["byte"]), (1, 4))
        self.assertEqual(self.json("show", "/none")[1]["refused"], None)

    def test_where_nothing_can_be_summed_up(self) -> None:
        self.assertEqual(self.played("-", self.folder / "t.mid", "--summary").returncode, 1)
        self.assertEqual(self.played(self.path, self.folder / "t.rec", "--record", "--json").returncode, 1)
        self.assertFalse((self.folder / "t.rec").exists())
        said = "'/none' cannot be read: No such file or directory\n"
        self.assertEqual(score("bars", "/none", "--summary"), Answer(2, "", said))
        done = self.played(self.path, "-", "--summary")
        self.assertEqual((done.stdout[:4], done.stderr.splitlines()), ("MThd", SUMMARY))


if __name__ == "__main__":
    unittest.main()
