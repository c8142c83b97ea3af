"""Folders of scores: what formula-score batch plays, tells and leaves behind on this machine."""

from __future__ import annotations

import csv
import json
import os
import pathlib
import shutil
import signal
import subprocess
import tempfile
import time
import unittest
from typing import Callable, Optional

from formula_score import Score, note, render, repeat, ticks

from .program import PROGRAM, TOP, foretold, needs_program
from .test_scripts import written

BATCH = [str(TOP / "bin" / "formula-score"), "batch"]
LONGEST = 60


def scores(folder: pathlib.Path, count: int) -> list[Score]:
    found = [Score(repeat(number + 1, note("c4", ticks(number + 1)))) for number in range(count)]
    for number, score in enumerate(found):
        (folder / f"{number}.score").write_text(score.text)
    return found


class Folder(unittest.TestCase):
    """A folder of scores, and one for their results."""

    def setUp(self) -> None:
        folder = tempfile.TemporaryDirectory()
        self.addCleanup(folder.cleanup)
        self.top = pathlib.Path(folder.name)
        self.folder, self.out = self.top / "scores", self.top / "out"
        self.folder.mkdir()

    def run_it(self, *words: str, program: Optional[str] = PROGRAM) -> "subprocess.CompletedProcess[str]":
        return subprocess.run([*BATCH, *words, str(self.folder), str(self.out)], stdout=subprocess.PIPE,
                              stderr=subprocess.PIPE, text=True, check=False,
                              env={**os.environ, "FORMULA": program or ""})

    def at_work(self, mark: str = "") -> list[str]:
        """The processes that have to do with this folder, or whose words have the mark."""
        found = []
        for name in os.listdir("/proc"):
            try:
                words = pathlib.Path("/proc", name, "cmdline").read_bytes().replace(b"\0", b" ").decode()
            except (OSError, UnicodeDecodeError):
                continue
            if (mark or str(self.top)) in words:
                found.append(words)
        return found

    def until(self, is_so: Callable[[], bool]) -> None:
        """Waits until it is so."""
        end = time.monotonic() + LONGEST
        while not is_so():
            self.assertLess(time.monotonic(), end)
            time.sleep(0.02)

    def interrupted(self, words: list[str], program: str, number: int,
                    is_so: Callable[[], bool]) -> tuple[int, str, str]:
        """How a run ends that gets a signal once it is so, and what it says."""
        with subprocess.Popen([*BATCH, *words, str(self.folder), str(self.out)], stdout=subprocess.PIPE,
                              stderr=subprocess.PIPE, text=True, env={**os.environ, "FORMULA": program}) as run:
            self.until(is_so)
            run.send_signal(number)
            said, complaint = run.communicate(timeout=LONGEST)
        return run.returncode, said, complaint


class Batch(Folder):
    @needs_program
    def test_a_refusal_has_its_place_and_what_to_do(self) -> None:
        (self.folder / "a").mkdir()
        (score,) = scores(self.folder / "a", 1)
        (self.folder / "bad.score").write_text("formula 1;\nnote c4 1/7;\n")
        done = self.run_it("--csv", str(self.top / "table.csv"))
        lines = done.stdout.splitlines()
        self.assertEqual((done.returncode, done.stderr), (1, ""))
        self.assertEqual(lines[:4], ["2 of 2 scores were played anew", "status  scores", "0       1", "3       1"])
        self.assertRegex(lines[4], r"^bad\.score:2:9: .*`1/7`.*\(fault 8\)$")
        self.assertEqual(lines[5:7], ["2 | note c4 1/7;", "  |         ^"])
        self.assertEqual(len(lines), 8)
        self.assertEqual((self.out / "a" / "0.mid").read_bytes(), foretold(score))
        self.assertFalse((self.out / "bad.mid").exists())
        with open(self.top / "table.csv", newline="", encoding="utf-8") as file:
            self.assertEqual(list(csv.reader(file)), [
                ["score", "status", "line", "column", "fault", "said", "how"], ["a/0.score", "0", "", "", "", "", "played"],
                ["bad.score", "3", "2", "9", "8", "formula: score refused: 2:9 fault 8", "played"]])
        told = [json.loads(line) for line in self.run_it("--json").stdout.splitlines()]
        self.assertEqual(told[1], {
            "name": "bad", "score": "bad.score", "status": "3", "line": 2, "column": 9, "fault": 8,
            "said": "formula: score refused: 2:9 fault 8", "how": "played"})
        self.assertEqual((told[0]["name"], told[0]["status"], told[0]["line"]), ("a/0", "0", None))

    @needs_program
    def test_a_later_run_plays_what_changed_and_tells_what_is_gone(self) -> None:
        pieces = scores(self.folder, 4)
        self.assertEqual(self.run_it().returncode, 0)
        (self.folder / "3.score").unlink()
        (self.folder / "0.score").write_text(pieces[1].text)
        done = self.run_it()
        self.assertEqual(done.stdout.splitlines(), ["1 of 3 scores were played anew", "status  scores", "0       3",
                                                    "of scores that are gone there is 1 result: 3"])
        self.assertEqual((self.out / "0.mid").read_bytes(), foretold(pieces[1]))
        (self.out / "1.mid").unlink()
        with open(self.out / "batch.results", "a", encoding="ascii") as file:
            file.write('["2", "0", "form')  # what is cut off is no result, and the older one stands
        self.assertIn("1 of 3 scores were played anew", self.run_it("--audit").stdout)
        self.assertEqual((self.out / "1.mid").read_bytes(), foretold(pieces[1]))
        (self.folder / "0.score").write_text(pieces[2].text)
        os.utime(self.folder / "0.score", (1, 1))  # older than the file of what stood there
        self.assertIn("1 of 3 scores were played anew", self.run_it().stdout)
        self.assertEqual((self.out / "0.mid").read_bytes(), foretold(pieces[2]))

    @needs_program
    def test_each_score_is_played_under_each_seed(self) -> None:
        text = "formula 1; # seed 5;\nseed 9;\nrepeat 8 { note key (60 + pick(12)) 1/8; }"
        for name, written_text in (("own", text), ("none", text.replace("seed 9;", "")), ("no-1", "note"),
                                   ("two", "formula 2;division 96;rest 1/4;")):
            (self.folder / f"{name}.score").write_text(written_text)
        done = self.run_it("--seeds", "1-20")
        self.assertEqual((done.returncode, done.stdout.splitlines()[:4]),
                         (1, ["80 of 80 scores were played anew", "status  scores", "0       60", "3       20"]), done)
        files = [render(text.replace("seed 9", f"seed {seed}"), PROGRAM) for seed in range(1, 21)]
        self.assertEqual(len({*files}), 20)
        for name in ("own", "none"):
            self.assertEqual([(self.out / f"{name}-{seed}.mid").read_bytes() for seed in range(1, 21)], files, name)
        self.assertIn("no-1.score under the seed 1:1:1: ", done.stdout)
        (self.out / "own-7.mid").unlink()
        self.assertIn("1 of 80 scores were played anew", self.run_it("--seeds", "1-20").stdout)
        (self.folder / "no.score").write_text(text)
        self.assertIn("rename the one or the other", self.run_it("--seeds", "1-20").stderr)

    def test_what_it_cannot_begin_with(self) -> None:
        rows: tuple[tuple[tuple[str, ...], str], ...] = (
            ((), "there is no score in"), (("-j", "0"), "-j: it takes a number from 1 to 1,000"), (("-j", "x"), "-j: it takes a number"),
            (("--seeds", "3-1"), "it takes seeds as in 1-20"), (("more",), "unrecognized arguments"),
            (("--hosts", "/none"), "batch: --hosts is gone: --dask ADDRESS plays on other machines, as docs/BATCH.md says\n"),
            (("--dask", "10.0.0.1:8786"), "10.0.0.1:8786 is no address that is safe"),
            (("--dask", "tcp://127.0.0.1.example:8786"), "is no address that is safe"),
        )
        for words, why in rows:
            done = self.run_it(*words, program="/bin/true")
            self.assertEqual((done.returncode, done.stdout), (70, ""), words)
            self.assertIn(why, done.stderr)

    def test_so_many_are_played_at_a_time(self) -> None:
        scores(self.folder, 12)
        (self.top / "now").mkdir()
        program = written(self.top / "program", f"""#!/bin/sh
: >"{self.top}/now/$$"
waited=0
while [ "$(ls "{self.top}/now" | wc -l)" -lt 3 ] && [ "$waited" -lt 40 ]; do sleep 0.05; waited=$((waited + 1)); done
sleep 0.1
ls "{self.top}/now" | wc -l >>"{self.top}/counts"
rm "{self.top}/now/$$"
echo file >"$5"
""")
        self.assertEqual(self.run_it("-j", "3", program=program).returncode, 0)
        counts = [int(line) for line in (self.top / "counts").read_text().split()]
        self.assertEqual((max(counts), len(counts)), (3, 12))

    def test_an_interruption_leaves_nobody_at_work(self) -> None:
        scores(self.folder, 9)
        program = written(self.top / "program", """#!/bin/sh
if grep -q 'repeat 1 ' "$4"; then echo file >"$5"; else sleep 300.25; fi
""")
        for number in (signal.SIGINT, signal.SIGTERM):
            shutil.rmtree(self.out, ignore_errors=True)
            ended = self.interrupted(["-j", "2"], program, number, lambda: len(self.at_work("sleep 300.25")) == 2)
            line = "batch: interrupted: 1 of 9 scores are done; run it again for the rest\n"
            self.assertEqual(ended, (130, "", line))
            self.assertEqual(self.at_work() + self.at_work("sleep 300.25"), [])
            self.assertEqual(sorted(path.name for path in self.out.iterdir()), ["0.mid", "batch.results"])


if __name__ == "__main__":
    unittest.main()
