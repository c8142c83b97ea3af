"""No verb and no call loses a file: on a full disk, at a signal and where the program is killed, OUT is the old one."""

from __future__ import annotations

import contextlib
import os
import pathlib
import signal
import subprocess
import sys
import tempfile
import time
import unittest
from typing import Any, Callable, Iterator

from formula_score import CommandError, Score, ScoreError, note, repeat
from formula_companion.batch import folder as batch
from formula_score.running import command

from .program import PROGRAM, TOP, needs_program

TEXT = "formula 1;\n" + "note c4 1/16;\n" * 20
#: What OUT is before, which `transpose` and `format` would write anew.
OLD = TEXT.replace("note", "note ").encode()
SCORE = Score(repeat(20, note("c4", "1/16")))
#: Each verb that writes a file: its words, in which a name with the suffix of OUT is OUT.
VERBS = {
    "play": "play in.score out.mid", "roll": "roll in.score out.html", "excerpt": "excerpt in.score out.mid",
    "import": "import in.mid out.score", "listen": "listen in.score --to out.ogg --font in.mid",
    "print": "print in.score out.svg",
    "transpose": "transpose out.score 2", "transpose --to": "transpose in.score 2 --to out.score",
    "format": "format out.score", "format --to": "format in.score --to out.score",
    **{f"export {kind}": f"export in.score out{kind}" for kind in (".mid", ".musicxml", ".abc")}}
#: Programs that others are called as, which make what they are asked for.
MAKERS = {"musescore3": "echo '<svg/>' >out.svg",
          "fluidsynth": 'while [ "$1" != -F ]; do shift; done; echo sound >"$2"'}
#: Each call that writes one.
CALLS: dict[str, Callable[[Any], object]] = {
    "play": SCORE.play, "save": SCORE.save, "large": lambda path: command.large(0, path),
    "audit": lambda path: command.audit(SCORE.render(record=True), path),
    "batch": lambda path: batch.write(str(path), SCORE.render())}
#: A file system where each file has a name.
NAMED = "import formula_score.running.outs as o; o.file_without_a_name = lambda *_: None; "
#: One where it takes long until a file is whole on the disk.
SYNCING = "import os, time; os.fsync = lambda _: time.sleep(60); "
START = "import sys; sys.argv[0] = 'formula-score'; from formula_companion.verbs.program import main; sys.exit(main())"
#: A program that is killed when it has begun to write.
KILLED = "#!/bin/sh\nfor out; do :; done\ncase $out in /dev/null) exit 0;; esac\necho half >\"$out\"\nkill -9 $$\n"
#: One that begins to write, and takes long.
SLOW = KILLED.replace("kill -9 $$", "exec sleep 60")


@needs_program
class Keeping(unittest.TestCase):
    def setUp(self) -> None:
        folder = tempfile.TemporaryDirectory()
        self.addCleanup(folder.cleanup)
        self.top = pathlib.Path(folder.name)
        self.home = self.top / "home"
        self.home.mkdir()
        self.out = self.home / "out.mid"
        (self.top / "in.score").write_text(TEXT)
        command.play(TEXT, self.top / "in.mid", PROGRAM)
        self.out.write_bytes(OLD)
        (self.top / "bin").mkdir()
        for name, text in MAKERS.items():
            self.put_program(f"#!/bin/sh\n{text}\n", f"bin/{name}")

    def holds_the_old_file(self, why: str) -> None:
        self.assertEqual(self.out.read_bytes(), OLD, why)
        self.assertEqual([path.name for path in self.home.iterdir() if path.name != "fill"], [self.out.name], why)

    def words(self, verb: str, before: str = "") -> list[str]:
        """The words of a verb, for which OUT gets another name."""
        first, *words = VERBS[verb].split()
        (name,) = (word for word in words if word.startswith("out"))
        self.out = self.out.rename(self.home / name)
        return [sys.executable, "-B", "-c", before + START, first, *(
            str((self.home if word == name else self.top) / word) if "." in word else word for word in words)]

    def environment(self, program: object = PROGRAM) -> dict[str, str]:
        (self.top / "tmp").mkdir(exist_ok=True)
        return {**os.environ, "FORMULA": str(program), "PYTHONPATH": str(TOP / "python"),
                "TMPDIR": str(self.top / "tmp"), "PATH": f"{self.top / 'bin'}:{os.environ['PATH']}"}

    def put_program(self, text: str, name: str = "program") -> pathlib.Path:
        """A program of this text."""
        path = self.top / name
        path.write_text(text)
        path.chmod(0o755)
        return path

    @contextlib.contextmanager
    def full(self) -> Iterator[None]:
        """The folder of OUT as a file system of 64 KB that is full."""
        mount = ["mount", "-t", "tmpfs", "-o", "size=64k", "none", str(self.home)]
        if os.geteuid() or subprocess.run(mount, stderr=subprocess.DEVNULL, check=False).returncode:
            self.skipTest("NOT TRIED: no file system may be mounted")
        try:
            self.out.write_bytes(OLD)
            with contextlib.suppress(OSError), open(self.home / "fill", "wb") as fill:
                while True:
                    fill.write(bytes(4096))
            yield
        finally:
            subprocess.run(["umount", self.home], check=True)

    def test_a_full_disk(self) -> None:
        with self.full():
            for verb, before in [*((verb, "") for verb in VERBS), ("roll", NAMED)]:
                done = subprocess.run(self.words(verb, before), env=self.environment(), capture_output=True, check=False)
                self.assertEqual(done.returncode, 4, (verb, done))
                self.assertIn(b"formula: write fault\n", done.stdout, verb)
                self.assertIn(b"cannot be written: No space left on device", done.stderr, verb)
                self.holds_the_old_file(verb)
            for name, call in CALLS.items():
                with self.assertRaisesRegex((CommandError, OSError), "No space left", msg=name):
                    call(self.out)
                self.holds_the_old_file(name)

    def test_a_program_that_is_killed(self) -> None:
        program = self.put_program(KILLED)
        for name in ("play", "large"):
            with self.assertRaises(CommandError, msg=name):
                command.large(0, self.out, str(program)) if name == "large" else SCORE.play(self.out, str(program))
            self.holds_the_old_file(name)
        for verb in ("play", "excerpt"):
            done = subprocess.run(self.words(verb), env=self.environment(program), capture_output=True, check=False)
            self.assertNotEqual(done.returncode, 0, verb)
            self.assertIn(b"SIGKILL ended the program", done.stderr, verb)
            self.holds_the_old_file(verb)

    def test_signals(self) -> None:
        program = self.put_program(SLOW)
        call = [sys.executable, "-B", "-c", "from formula_score import *; "
                f"Score(note('c4', '1/4')).play({str(self.out)!r})"]
        for number in (signal.SIGINT, signal.SIGTERM, signal.SIGKILL):
            self.interrupt("call", call, number, self.environment(program))
            for verb in VERBS:
                if verb in ("play", "excerpt"):
                    self.interrupt(verb, self.words(verb), number, self.environment(program))
                else:
                    self.interrupt(verb, self.words(verb, SYNCING), number, self.environment())

    def interrupt(self, name: str, words: list[str], number: signal.Signals, environment: dict[str, str]) -> None:
        """Sends a signal to a process when the new file is begun."""
        is_program = environment["FORMULA"] != PROGRAM
        with subprocess.Popen(words, env=environment, stdout=subprocess.PIPE, stderr=subprocess.PIPE) as run:
            while not (begun := self.writers(b"sleep\0" if is_program else b"")):
                self.assertIsNone(run.poll(), f"{name} {run.poll() is not None and run.communicate()}")
                time.sleep(0.02)
            run.send_signal(number)
            run.communicate(timeout=60)
        self.assertNotEqual(run.returncode, 0)
        self.out = next(self.home.glob("out.*"))
        self.holds_the_old_file(f"{name} {number.name}")
        self.assertTrue(number == signal.SIGKILL or not os.listdir(self.top / "tmp"), f"{name} {number.name}")
        for _ in range(100):
            if not self.writers(b""):
                break
            time.sleep(0.02)
        self.assertEqual(self.writers(b""), [], f"{name} {number.name}: {begun} go on")

    def writers(self, words: bytes) -> list[str]:
        """The processes that have the file without a name open, and begin with these words."""
        found = []
        for process in filter(str.isdecimal, os.listdir("/proc")):
            with contextlib.suppress(OSError):
                if pathlib.Path(f"/proc/{process}/cmdline").read_bytes().startswith(words) and any(
                        os.readlink(f"/proc/{process}/fd/{number}").startswith(f"{self.home}/#")
                        for number in os.listdir(f"/proc/{process}/fd")):
                    found.append(process)
        return found

    def test_links_owners_and_hosts_without_hard_links(self) -> None:
        other = self.top / "other"
        os.link(self.out, other)
        SCORE.play(self.out)
        self.assertEqual((self.out.read_bytes(), other.read_bytes()), (SCORE.render(), OLD))
        code = ("import os\ndef link(*_, **__): raise PermissionError(1, 'Operation not permitted')\nos.link = link\n"
                f"from formula_score import *; Score(note('c4', '1/4')).save({str(self.out)!r})")
        subprocess.run([sys.executable, "-B", "-c", code], env=self.environment(), check=True)
        self.assertEqual(self.out.read_bytes(), b"formula 1;\nnote c4 1/4;\n")
        self.assertEqual(os.listdir(self.home), ["out.mid"])

    def test_names_that_no_file_has_are_no_values(self) -> None:
        for name in ("a\0b", "a\udcff"):
            for call in (call for what, call in CALLS.items() if what != "batch"):
                self.assertRaisesRegex(ScoreError, "a text in UTF-8 without NUL", call, name)
            self.assertRaises(ScoreError, command.listing, name)


if __name__ == "__main__":
    unittest.main()
