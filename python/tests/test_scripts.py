"""The script that runs the program, where FORMULA names what would run the script again."""

from __future__ import annotations

import os
import pathlib
import shutil
import signal
import subprocess
import tempfile
import time
import unittest
import unittest.mock

from formula_score import play
from formula_score.reading import playing

from .program import TOP

#: A run that calls itself without end is stopped after so many seconds.
LONGEST = 10
STAND_IN = "#!/bin/sh\necho \"FORMULA is ${FORMULA-not set}\"\n"


def written(path: pathlib.Path, text: str) -> str:
    """A program of this text."""
    path.parent.mkdir(parents=True, exist_ok=True)
    path.write_text(text)
    path.chmod(0o755)
    return str(path)


def said(words: list[str], formula: str) -> str:
    """What a run says, with FORMULA set; with all that it started it is ended where it does not end."""
    with subprocess.Popen(words, env={**os.environ, "FORMULA": formula}, stdin=subprocess.DEVNULL,
                          stdout=subprocess.PIPE, stderr=subprocess.STDOUT, start_new_session=True) as run:
        try:
            return run.communicate(timeout=LONGEST)[0].decode()
        except subprocess.TimeoutExpired:
            os.killpg(run.pid, signal.SIGKILL)
            return "it did not end"


class Scripts(unittest.TestCase):
    def setUp(self) -> None:
        folder = tempfile.TemporaryDirectory()
        self.addCleanup(folder.cleanup)
        self.top = pathlib.Path(folder.name)
        self.built = written(self.top / "crates" / "fm_main" / "out" / "fm_main", STAND_IN)
        for name in ("bin/formula", "bin/formula-score", "scripts/formula", "scripts/batch", "tools/gate/checkout.sh"):
            (self.top / name).parent.mkdir(parents=True, exist_ok=True)
            shutil.copy(TOP / name, self.top / name)
        self.script = str(self.top / "bin" / "formula")

    def test_a_script_that_formula_names_is_no_program(self) -> None:
        link = str(self.top / "link")
        os.symlink(self.script, link)
        old = str(self.top / "scripts" / "formula")
        for name in (self.script, link, old, str(self.top / "scripts" / "batch")):
            for script in (self.script, old):
                self.assertEqual(said([script, "--program"], name), f"{self.built}\n", name)
                self.assertEqual(said([script, "in", "out"], name), "FORMULA is not set\n", name)

    def test_old_names_run_the_companion(self) -> None:
        for name, usage in (("score", "usage: formula-score VERB .."), ("batch", "usage: formula-score batch [")):
            done = subprocess.run([TOP / "scripts" / name, "--help"], stdout=subprocess.PIPE, text=True, check=True)
            self.assertTrue(done.stdout.startswith(usage), done.stdout)

    def test_a_script_is_no_program_of_the_companion(self) -> None:
        for found in (None, str(TOP / "bin" / "formula"), str(TOP / "scripts" / "formula"), self.built):
            with unittest.mock.patch("formula_score.running.command.find_program", lambda: found), \
                    unittest.mock.patch("subprocess.run") as asked:
                asked.return_value.returncode, asked.return_value.stdout, asked.return_value.stderr = 0, "built\n", ""
                playing._of_checkout.cache_clear()
                self.addCleanup(playing._of_checkout.cache_clear)
                self.assertEqual(playing.program(), self.built if found == self.built else "built")

    def test_a_program_that_runs_the_script_ends(self) -> None:
        wrapper = written(self.top / "wrapper", f"#!/bin/sh\nexec '{self.script}' \"$@\"\n")
        self.assertEqual(said([self.script, "in", "out"], wrapper), "FORMULA is not set\n")

    def test_a_build_that_is_stopped_leaves_the_old_program(self) -> None:
        started = self.top / "started"
        written(self.top / "tools" / "gate" / "build.py", f"#!/bin/sh\necho $$ >'{started}'\nexec sleep 60\n")
        (self.top / "crates.txt").touch()
        os.utime(self.built, (0, 0))
        for number, status in ((signal.SIGTERM, 143), (signal.SIGHUP, 143)):
            with subprocess.Popen([self.script, "in", "out"], stdin=subprocess.DEVNULL, stdout=subprocess.DEVNULL,
                                  stderr=subprocess.DEVNULL, env={"PATH": os.environ["PATH"]}) as run:
                while not (started.exists() and started.read_text()):
                    time.sleep(0.01)
                run.send_signal(number)
                self.assertEqual(run.wait(LONGEST), status)
            build = int(started.read_text())
            self.assertRaises(ProcessLookupError, os.kill, build, 0)
            self.assertEqual((pathlib.Path(self.built).read_text(), os.listdir(os.path.dirname(self.built))),
                             (STAND_IN, ["fm_main"]))
            started.unlink()

    def test_runs_side_by_side_begin_one_build(self) -> None:
        begun = self.top / "begun"
        written(self.top / "tools" / "gate" / "build.py", f"""#!/bin/sh
echo begun >>'{begun}'
sleep 0.3
cp '{self.top}/made' '{self.built}'
""")
        (self.top / "crates.txt").touch()
        os.rename(self.built, self.top / "made")
        runs = [subprocess.Popen([self.script, "in", "out"], stdin=subprocess.DEVNULL, stdout=subprocess.PIPE,
                                 stderr=subprocess.PIPE, text=True, env={"PATH": os.environ["PATH"]}) for _ in range(4)]
        ended = [run.communicate(timeout=LONGEST) for run in runs]
        self.assertEqual([said for said, _ in ended], ["FORMULA is not set\n"] * 4)
        self.assertEqual(sorted("waits for it" in complaint for _, complaint in ended), [False, True, True, True])
        self.assertEqual((begun.read_text(), [run.returncode for run in runs]), ("begun\n", [0] * 4))

    def test_words_that_every_program_refuses_begin_no_build(self) -> None:
        begun = self.top / "begun"
        written(self.top / "tools" / "gate" / "build.py", f"#!/bin/sh\ntouch '{begun}'\n")
        os.unlink(self.built)
        for words in ("--help", "-h", "in out --help", "--version", "in", ""):
            with self.subTest(words):
                done = subprocess.run([self.script, *words.split()], stdin=subprocess.DEVNULL, stdout=subprocess.PIPE,
                                      stderr=subprocess.DEVNULL, text=True, check=False, env={"PATH": os.environ["PATH"]})
                self.assertEqual((done.returncode, done.stdout), (1, "formula: words refused\n"))
                self.assertFalse(begun.exists())

    def test_the_library_hands_it_to_no_program(self) -> None:
        kept = self.top / "kept"
        stand_in = written(self.top / "stand_in", f"#!/bin/sh\necho \"${{FORMULA-not set}}\" >'{kept}'\n")
        with unittest.mock.patch.dict(os.environ, FORMULA=stand_in):
            play("formula 1;", str(self.top / "out.mid"))
        self.assertEqual(kept.read_text(), "not set\n")


if __name__ == "__main__":
    unittest.main()
