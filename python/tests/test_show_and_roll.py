"""The verbs `show`, `roll` and `listen`: what a person reads, sees and hears."""

from __future__ import annotations

import os
import pathlib
import re
import signal
import subprocess
import sys
import tempfile
import time
import unittest
import xml.etree.ElementTree
from fractions import Fraction
from typing import Optional
from unittest import mock

from formula_score.explaining import records
from formula_score.pictures.drawing import Rule, bars
from formula_score.reading.meter import Group, Meter, Signature

from .companion import Answer, score
from .program import PROGRAM, TOP, needs_program

EXAMPLES = TOP / "examples"


def bytes_of(path: pathlib.Path) -> bytes:
    """The bytes of a file of expected bytes."""
    return bytes.fromhex(re.sub(r"#.*", "", path.read_text()))


class InAFolder(unittest.TestCase):
    def setUp(self) -> None:
        folder = tempfile.TemporaryDirectory()
        self.addCleanup(folder.cleanup)
        self.folder = pathlib.Path(folder.name)

    def file(self, name: str, data: bytes) -> pathlib.Path:
        path = self.folder / name
        path.write_bytes(data)
        return path


@needs_program
class Show(InAFolder):
    def test_a_file_of_another_program_by_its_own_meter(self) -> None:
        answer = score("show", self.file("two.mid", bytes_of(EXAMPLES / "files" / "two_tracks.hex")))
        self.assertEqual((answer.status, answer.said), (0, """\
format 1, 2 tracks, 96 ticks a quarter note, end at tick 288, meter 3/4
track 0
         0  1:1             name: Bass
         0  1:1             tempo 100 quarter notes a minute
         0  1:1             meter 3/4
       288  2:1             end of track
track 1
         0  1:1          0  program 32 (acoustic bass)
         0  1:1          0  control 7 (volume) 100
         0  1:1          0  control 10 (panorama) 40
         0  1:1             system exclusive: 7E 7F 09 01 F7
         0  1:1          0  c2  velocity 80  96 ticks
        96  1:2          0  g2  velocity 80  192 ticks
       288  2:1             end of track
"""))

    def test_events_that_have_names(self) -> None:
        events = bytes.fromhex("00 FF 59 02 FD 01  00 FF 05 03 61 1B E9  00 99 26 40  00 B0 40 7F  00 E0 00 30"
                               "00 D0 05  00 A0 3C 07  00 80 3C 40  60 90 40 20  00 FF 2F 00")
        path = self.file("names.mid", bytes.fromhex("4D546864 00000006 0000 0001 0060 4D54726B")
                         + len(events).to_bytes(4, "big") + events)
        self.assertEqual(score("show", path, "--meter", "1/4").said.splitlines()[1:], [
            "         0  1:1             key c minor", "         0  1:1             lyric: a\\x1bé",
            "         0  1:1          9  d2 (snare)  velocity 64  to the end",
            "         0  1:1          0  control 64 (pedal) 127 (on)", "         0  1:1          0  bend -2048",
            "         0  1:1          0  pressure 5", "         0  1:1          0  pressure 7 on c4",
            "         0  1:1          0  c4  off, and no such note sounds",
            "        96  2:1          0  e4  velocity 32  to the end", "        96  2:1             end of track"])
        self.assertIn("c4  off\n", score("show", path, "--all").said)

    def test_what_is_no_file(self) -> None:
        answer = score("show", TOP / "README.md")
        self.assertEqual((answer.status, answer.said), (1, "formula: file refused: byte 0 fault 22\n"))
        self.assertEqual(score("show", self.folder / "none.mid").status, 2)
        # a text that begins as a score is judged as one
        self.assertEqual(score("show",
                               EXAMPLES / "refused" / "not_expected_behind_play_outside_rhythm.score").said[:24],
                         "formula: score refused: ")

    def test_a_record(self) -> None:
        data = bytes_of(EXAMPLES / "records" / "least.hex")
        answer, least = score("show", self.file("least.record", data)), records.parts(data)
        assert least
        self.assertEqual((answer.status, answer.said.splitlines()), (0, list(records.lines(least))))
        self.assertTrue(answer.said.startswith("seats 1  room 1  lead 0  text 10 bytes\n| formula 1;\n"))
        answer = score("show", self.file("more.record", data + b"\xee"))
        self.assertEqual(answer.status, 1)
        self.assertRegex(answer.said, r"\nno step begins at byte [0-9]+ of the steps: EE\n\Z")
        answer = score("show", self.file("cut.record", data[:20]))
        self.assertEqual((answer.status, answer.said), (1, ""))
        self.assertIn("this is a record without a whole text", answer.complaint)


class Picture(unittest.TestCase):
    """Looks into the pictures of the verb."""

    def lines(self, path: pathlib.Path) -> list[tuple[float, Optional[str]]]:
        root = xml.etree.ElementTree.parse(path).getroot()
        return [(round(float(line.get("x1", "")), 1), line.get("class"))
                for line in root.iter("{http://www.w3.org/2000/svg}line") if line.get("class") in ("strong", "weak")]


@needs_program
class Roll(InAFolder, Picture):
    def test_a_score_its_file_and_its_listing_are_one_picture(self) -> None:
        source = EXAMPLES / "scores" / "controls.score"
        target, listing = self.folder / "c.mid", self.folder / "c.listing"
        subprocess.run([str(PROGRAM), source, target], check=True)
        subprocess.run([str(PROGRAM), target, listing, "--list"], check=True)
        pictures = []
        for at, path in enumerate((source, target, listing)):
            self.assertEqual(score("roll", path, self.folder / f"{at}.svg").status, 0)
            pictures.append((self.folder / f"{at}.svg").read_text())
        self.assertEqual(len(set(pictures)), 1)
        self.assertIn("<title>a4 channel 2 tick 0 to 216</title>", pictures[0])

    def test_bars_of_a_score_stand_at_the_ticks_at_which_they_are_played(self) -> None:
        # a bar of 3/4 as written, one at half the speed, and the rest of a bar; 48 is the width of a quarter note
        text = b"formula 1; shape half = flat 3/4 by 2000; note c4 3/4; warp half { note c4 3/4; } note c4 1/4;"
        path, out = self.file("t.score", text), self.folder / "t.svg"
        self.assertEqual(score("roll", path, out, "--meter", "3/4").status, 0)
        strong = [at for at, kind in self.lines(out) if kind == "strong"]
        weak = [at for at, kind in self.lines(out) if kind == "weak"]
        self.assertEqual(strong, [44 + 48 * quarter for quarter in (0, 3, 9)])
        self.assertEqual(weak, [44 + 48 * quarter for quarter in (1, 2, 5, 7, 10)])
        subprocess.run([str(PROGRAM), path, self.folder / "t.mid"], check=True)
        self.assertEqual(score("roll", self.folder / "t.mid", out, "--meter", "3/4").status, 0)
        self.assertEqual([at for at, kind in self.lines(out) if kind == "strong"],
                         [44 + 48 * 3 * quarter for quarter in range(5)])

    def test_the_bars_of_the_longest_piece_are_few_lines(self) -> None:
        rules = bars(Meter((Group(1, (Signature(4, 4),)),), Fraction(0), 1920), 2 ** 40)
        self.assertEqual(rules[0], Rule(1920 * (4 ** 12 - 1), str(4 ** 12)))
        self.assertLessEqual(len(rules), 65)

    def test_what_is_not_drawn(self) -> None:
        for data, status in ((b"formula 1; note;", 3), (b"MThd", 1), (b"format 0 tracks 1 division 480\n0 0 x\n", 1)):
            self.assertEqual(score("roll", self.file("in", data), self.folder / "o.svg").status, status, data)
        self.assertFalse((self.folder / "o.svg").exists())
        self.assertEqual(score("roll", self.folder / "none", self.folder / "o.svg").status, 2)
        self.assertEqual(score("roll", self.file("in", b"formula 1;"), self.folder / "o.svg", "--follow").status, 2)

    def test_it_follows_a_score(self) -> None:
        path, page = self.file("t.score", b"formula 1; note c4 1/4;"), self.folder / "t.html"
        command = [sys.executable, "-B", str(TOP / "bin" / "formula-score"), "roll", "--follow", str(path), str(page)]
        with subprocess.Popen(command, stdout=subprocess.DEVNULL, stderr=subprocess.DEVNULL,
                              env={**os.environ, "FORMULA": str(PROGRAM)}) as run:
            try:
                self.waits(page, "<title>c4 channel 0 tick 0 to 432</title>", 'class="fresh"')
                path.write_text("formula 1; note e4 1/4;")
                self.waits(page, "<title>e4 channel 0 tick 0 to 432</title>", "played, to tick 480")
                path.write_text("formula 1; note <4 1/4;")
                self.waits(page, 'class="stale"', "<title>e4 channel", "1:17", "1 | formula 1; note &lt;4 1/4;")
                path.write_text("formula 1; note g4 1/4;")
                self.waits(page, "<title>g4 channel", 'class="fresh"')
                run.send_signal(signal.SIGINT)
                self.assertEqual(run.wait(10), 0)
            finally:
                run.kill()

    def waits(self, page: pathlib.Path, *words: str) -> None:
        """The page has these words before long."""
        for _ in range(200):
            text = page.read_text() if page.exists() else ""
            if all(word in text for word in words):
                return
            time.sleep(0.05)
        self.fail(f"{words} did not come: {text}")


@needs_program
class Listen(InAFolder):
    SCORE = EXAMPLES / "tutorial" / "1_line.score"

    def listened(self, player: Optional[str], *words: object) -> tuple[Answer, bytes]:
        """The verb with this player alone in PATH; what the player was given."""
        names = self.folder / "bin"
        names.mkdir(exist_ok=True)
        if player:
            (names / player).write_text(f"#!{sys.executable}\nimport sys\nopen('{self.folder}/heard', 'wb').write("
                                        "open(sys.argv[-1], 'rb').read())\n")
            (names / player).chmod(0o755)
        with mock.patch.dict(os.environ, {"PATH": str(names)}):
            answer = score("listen", *words)
        heard = self.folder / "heard"
        return answer, heard.read_bytes() if heard.exists() else b""

    def test_a_synthesizer_gets_the_programs_file(self) -> None:
        answer, heard = self.listened("timidity", self.SCORE)
        self.assertEqual((answer.status, heard), (0, bytes_of(EXAMPLES / "tutorial" / "1_line.hex")))
        _, heard = self.listened("timidity", self.SCORE, "--bars", "2")
        self.assertEqual(heard[29:33].hex(), "00904340")
        answer, heard = self.listened("fluidsynth", self.SCORE, "--font", self.file("some.sf2", b""))
        self.assertEqual((answer.status, answer.said.split()[0]), (0, "fluidsynth"))

    def test_without_one_the_package_is_told(self) -> None:
        answer, _ = self.listened(None, self.SCORE)
        self.assertEqual(answer.status, 1)
        self.assertIn("apt-get install fluidsynth fluid-soundfont-gm", answer.complaint)

    def test_a_refused_score_has_the_programs_status(self) -> None:
        answer, heard = self.listened("timidity", EXAMPLES / "refused" / "bad_byte.score")
        self.assertEqual((answer.status, heard), (3, b""))


if __name__ == "__main__":
    unittest.main()
