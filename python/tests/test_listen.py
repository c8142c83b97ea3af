"""The verb `listen`: what a synthesizer is given, files of sound, a text that is followed. Ticks are reckoned by hand."""

from __future__ import annotations

import importlib
import os
import pathlib
import signal
import subprocess
import sys
import tempfile
import time
import unittest
import wave
from typing import Any, Optional
from unittest import mock

from .companion import Answer, score
from .program import PROGRAM, TOP, needs_program

from formula_score.host.packages import lacking

sys.path.insert(0, str(TOP / "tools" / "file_model"))
file_model: Any = importlib.import_module("file_model")

#: Bar 2 is played at half the speed; the phrase is played twice.
TEXT = """\
formula 1;
shape half = flat 1/1 by 2000;
phrase two { note d4 1/2; note e4 1/2; }
program 5; control 7 90;
note c4 1/1;
warp half { do two; }
par { branch { do two; } branch { channel 1 { note g5 1/1; } } }
"""
#: A synthesizer that notes what it is given, and says something.
FAKE = """#!{python}
import os, sys, time
words = sys.argv[1:]
folder = {folder!r}
number = len([name for name in os.listdir(folder) if name.startswith("heard")])
data = open(words[-1], "rb").read()
open(os.path.join(folder, "part"), "wb").write(data)
os.rename(os.path.join(folder, "part"), os.path.join(folder, f"heard{{number}}"))
{more}
"""


@needs_program
class Listens(unittest.TestCase):
    def setUp(self) -> None:
        folder = tempfile.TemporaryDirectory()
        self.addCleanup(folder.cleanup)
        self.folder = pathlib.Path(folder.name)
        self.path, self.bin = self.folder / "t.score", self.folder / "bin"
        self.path.write_text(TEXT)
        self.bin.mkdir()
        self.synthesizer()

    def synthesizer(self, more: str = "") -> None:
        fake = self.bin / "fluidsynth"
        fake.write_text(FAKE.format(python=sys.executable, folder=str(self.folder), more=more))
        fake.chmod(0o755)
        (self.folder / "a.sf2").touch()

    def listened(self, *words: object) -> tuple[Answer, Any]:
        """What the verb answers, and the file that the synthesizer was given, read by the model."""
        with mock.patch.dict(os.environ, {"PATH": f"{self.bin}:{os.environ['PATH']}"}):
            answer = score("listen", self.path, "--font", self.folder / "a.sf2", *words)
        heard = sorted(self.folder.glob("heard*"))
        return answer, file_model.read(heard[-1].read_bytes()) if heard else None

    def events(self, *words: object) -> list[tuple[int, str]]:
        """The channel messages of that file, with their ticks."""
        answer, file = self.listened(*words)
        self.assertEqual((answer.status, answer.complaint), (0, ""), words)
        return [(entry.tick, bytes(entry.bytes).hex()) for entry in file.tracks[0] if entry.bytes[0] < 0xF0]

    def test_speed_changes_the_tempo_alone(self) -> None:
        plain = self.events()
        self.assertEqual(self.events("--speed", 80), plain)
        _, file = self.listened("--speed", 80)
        tempos = [bytes(entry.bytes) for entry in file.tracks[0] if entry.bytes[:2] == b"\xff\x51"]
        self.assertEqual(tempos, [b"\xff\x51\x03" + (625_000).to_bytes(3, "big")])
        self.assertEqual(score("listen", self.path, "--speed", 9).status, 2)

    def test_one_channel(self) -> None:
        self.assertEqual(self.events("--channel", 1), [(5760, "914f40"), (5760 + 1728, "814f40")])

    def test_a_click_on_each_beat_through_deformations(self) -> None:
        beats = [begin + step * beat for begin, step in ((0, 480), (1920, 960), (5760, 480)) for beat in range(4)]
        clicks = [(tick, message[2:4]) for tick, message in self.events("--click") if message[:2] == "99"]
        self.assertEqual(clicks, [(tick, "4c" if at % 4 == 0 else "4d") for at, tick in enumerate(beats)])
        # bars of 3/4: the second one begins in bar 1 of before, at its fourth quarter note
        firsts = [tick for tick, message in self.events("--click", "--meter", "3/4") if message[:4] == "994c"]
        self.assertEqual(firsts, [0, 1440, 3840, 6240])
        events = self.events("--click", "--bars", "2")
        clicks = [(tick, message[2:4]) for tick, message in events if message[:2] == "99"]
        self.assertEqual(clicks, [(0, "4c"), (960, "4d"), (1920, "4d"), (2880, "4d")])

    def test_a_phrase_alone_in_a_loop_as_it_is_played_first(self) -> None:
        events = self.events("--phrase", "two")
        self.assertEqual(events[:8], [(0, "c005"), (0, "b0075a"), (0, "903e40"), (1728, "803e40"), (1920, "904040"),
                                      (3648, "804040"), (3840, "c005"), (3840, "b0075a")])
        self.assertEqual(len(events), 600)
        for name, said in (("twa", "there is no phrase 'twa'; there are two"), ("two", "phrase 'two' is never played")):
            self.path.write_text(TEXT.replace("do two;", "rest 1/1;"))
            answer, _ = self.listened("--phrase", name)
            self.assertEqual((answer.status, answer.complaint), (1, f"{said}\n"))

    def test_what_the_synthesizer_says_is_told_though_its_status_is_0(self) -> None:
        self.synthesizer("print('fluidsynth: error: no such device', file=sys.stderr)")
        self.assertEqual(self.listened()[0][::2], (1, "fluidsynth: no such device\n"))
        out = self.folder / "x.wav"
        out.write_text("old")
        fails = "print('fluidsynth: error: no such device', file=sys.stderr)"
        for more, said in ((fails, "fluidsynth: no such device"), ("", "fluidsynth made no file"),
                           ("sys.exit(3)", "fluidsynth ended with status 3")):
            self.synthesizer(more)
            self.assertEqual(self.listened("--to", out)[0], Answer(1, "", f"{said}\n"))
            self.assertEqual(out.read_text(), "old")

    def test_what_cannot_be_written(self) -> None:
        for words, said in ((f"--to {self.folder}/none/x.wav", "there is no folder"),
                            ("--to x.mp3", ".wav, .flac, .ogg"),
                            ("--to x", "'no suffix'"), ("--to x.wav --follow", "do not go together"),
                            (f"--font /none.sf2 --to {self.folder}/x.wav", "there is no sound font '/none.sf2'")):
            answer = score("listen", self.path, *words.split())
            self.assertEqual((answer.status, answer.said), (2, ""), words)
            self.assertIn(said, answer.complaint)
        self.assertEqual(list(self.folder.glob("x*")), [])

    @unittest.skipIf(bool(lacking("sound")), "NOT TRIED: there is no fluidsynth with a sound font")
    def test_a_file_of_sound_is_as_long_as_the_piece_and_not_silent(self) -> None:
        for name, begins, words in (("a.wav", b"RIFF", ("--bars", "1-2")), ("a.flac", b"fLaC", ("--bars", "3")),
                                    ("a.ogg", b"OggS", ("--phrase", "two", "--speed", "200"))):
            answer = score("listen", self.path, "--to", self.folder / name, *words)
            self.assertEqual((answer.status, (self.folder / name).read_bytes()[:4]), (0, begins), answer)
        with wave.open(str(self.folder / "a.wav"), "rb") as file:
            seconds, data = file.getnframes() / file.getframerate(), file.readframes(file.getnframes())
        # a bar of 2 seconds and one of 4, and what rings out; it sounds at each second
        self.assertTrue(6 <= seconds < 10, seconds)
        rate = len(data) / seconds
        for second in range(6):
            part = memoryview(data[int(second * rate) // 4 * 4:int((second + 1) * rate) // 4 * 4]).cast("h")
            self.assertGreater(max(part), 100, second)

    def test_it_follows_a_text_from_the_bar_that_is_heard(self) -> None:
        bars = [f"note key {60 + bar} 1/1;" for bar in range(40)]   # 2 seconds each
        self.path.write_text("formula 1; " + " ".join(bars))
        self.synthesizer("time.sleep(60)")
        words = "listen", self.path, "--follow", "--font", self.folder / "a.sf2"
        run = subprocess.Popen([TOP / "bin" / "formula-score", *words],
                               stdout=subprocess.PIPE, text=True, env={**os.environ, "FORMULA": str(PROGRAM),
                                                                      "PATH": f"{self.bin}:{os.environ['PATH']}"})
        try:
            begun = self.waits(0)
            time.sleep(2.5)
            self.path.write_text("formula 1; note c4;")
            time.sleep(0.7)
            self.assertIsNone(self.heard(1))
            self.path.write_text("formula 1; " + " ".join(bars).replace("1/1", "2/2"))
            heard = self.waits(1) - begun
            file = file_model.read(self.heard(1) or b"")
            key = next(entry.bytes[1] for entry in file.tracks[0] if entry.bytes[0] == 0x90)
            # it was saved behind 3.2 seconds, so in bar 2 or later, and before it is heard again; a start may take 10
            self.assertTrue(61 <= key <= 60 + (heard + 10) / 2, (key, heard))
            run.send_signal(signal.SIGINT)
            said = run.communicate(timeout=20)[0]
            self.assertEqual(run.returncode, 0)
            self.assertIn("1:19: ", said)
            self.assertIn(f"from bar {key - 59};", said)
        finally:
            run.kill()
            run.communicate()

    def heard(self, number: int) -> Optional[bytes]:
        path = self.folder / f"heard{number}"
        return path.read_bytes() if path.exists() else None

    def waits(self, number: int) -> float:
        """When the synthesizer was given the file of this number."""
        for _ in range(1200):
            if self.heard(number) is not None:
                return time.monotonic()
            time.sleep(0.05)
        self.fail("nothing is played")


if __name__ == "__main__":
    unittest.main()
