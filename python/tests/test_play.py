"""The verb `play`: OUT is the old file or the whole new one, whatever stands in the way."""

from __future__ import annotations

import os
import pathlib
import shlex
import shutil
import signal
import socket
import stat
import subprocess
import sys
import tempfile
import time
import unittest
from typing import Optional, Union

from .program import PROGRAM, TOP, needs_program

NOTE, OTHER, REFUSED = b"formula 1; note c4 1/4;", b"formula 1; repeat 300 { note c4 1/4; }", b"formula 1; note c4 1/7;"
FAULT = b"formula: score refused: 1:20 fault 8\n"
WORDS, WRITE = b"formula: words refused\n", b"formula: write fault\n"
#: How the verb is run, by a module that is changed before.
START = "import sys; sys.argv[0] = 'formula-score'; from formula_companion.verbs.program import main; sys.exit(main())"
#: A file system where each file has a name.
NAMED = "import formula_score.running.outs as o; o._file_without_a_name = lambda *_: None; "
#: A call of the host that fails for the new file.
FAILS = "import os\ndef {0}(*_, was=os.{0}, **__):\n if {1}: raise OSError(122, 'Disk quota exceeded')\n return was(*_, **__)\nos.{0} = {0}; "
NOBODY = 65534
#: What means standard output; `link` is one.
NAMES = ("/dev/stdout", "/dev/fd/1", "/proc/self/fd/1", "link")
#: How it leads to a file that is there, and what of that file stays.
WAYS = ((">", b""), (">>", b"before"), ("| cat >", b""), ("| cat >>", b"before"))


class Answer:
    """How a run ended."""

    def __init__(self, done: "subprocess.CompletedProcess[bytes]"):
        self.status, self.said, self.why = done.returncode, done.stdout, done.stderr.decode()


@needs_program
class Play(unittest.TestCase):
    def setUp(self) -> None:
        folder = tempfile.TemporaryDirectory()
        self.addCleanup(folder.cleanup)
        self.top = pathlib.Path(folder.name)
        self.top.chmod(0o755)
        self.folder = self.top / "out"
        self.folder.mkdir()
        self.out = self.folder / "out.mid"
        self.note, self.other = self.put("note", NOTE), self.put("other", OTHER)
        self.refused = self.put("refused", REFUSED)
        self.file = self.file_of(self.note)

    def put(self, name: str, content: bytes) -> str:
        path = self.top / name
        path.write_bytes(content)
        return str(path)

    def file_of(self, *words: str) -> bytes:
        """What the program itself makes of these words."""
        path = self.top / "made"
        assert PROGRAM
        subprocess.run([PROGRAM, words[0], path, *words[1:]], cwd=self.top, check=True, stdout=subprocess.DEVNULL)
        return path.read_bytes()

    def words(self, *words: Union[str, pathlib.Path], before: str = "") -> list[str]:
        return [sys.executable, "-B", "-c", before + START, "play", *map(str, words)]

    def environment(self) -> dict[str, str]:
        return {**os.environ, "FORMULA": str(PROGRAM), "PYTHONPATH": str(TOP / "python")}

    def play(self, *words: Union[str, pathlib.Path], before: str = "", user: Optional[int] = None) -> Answer:
        return Answer(subprocess.run(self.words(*words, before=before), env=self.environment(), cwd=self.top,
                                     stdin=subprocess.DEVNULL, capture_output=True, check=False, timeout=120,
                                     user=user, extra_groups=None if user is None else []))

    def shell(self, text: str) -> Answer:
        """A line of the shell, in which PLAY is the verb."""
        line = text.replace("PLAY", shlex.join(self.words()))
        return Answer(subprocess.run(["bash", "-c", line], env=self.environment(), cwd=self.top, check=False,
                                     stdin=subprocess.DEVNULL, capture_output=True, timeout=120))

    def holds(self, content: Optional[bytes], why: str = "") -> None:
        """OUT holds this, and nothing else is in its folder."""
        self.assertEqual(sorted(os.listdir(self.folder)), [] if content is None else [self.out.name], why)
        self.assertEqual(self.out.read_bytes() if content is not None else None, content, why)

    def ends(self, answer: Answer, status: int, said: bytes, why: str = "") -> None:
        self.assertEqual((answer.status, answer.said), (status, said), answer.why)
        if why:
            self.assertRegex(answer.why, why)

    # ---- files

    def test_a_file_is_made_and_replaced(self) -> None:
        self.ends(self.play(self.note, self.out), 0, b"", "^$")
        self.holds(self.file)
        mask = os.umask(0)
        os.umask(mask)
        self.assertEqual(stat.S_IMODE(self.out.stat().st_mode), 0o666 & ~mask)
        self.ends(self.play("--workers", "0", self.other, "--parts", "--", self.out), 0, b"", "^$")
        self.holds(self.file_of(self.other, "--parts"))
        said = b"processes 18 events 32000 last 121800 bytes 128033\n"
        self.ends(self.play("none", self.out, "--generate", "0"), 0, said, "^$")
        self.holds(self.file_of("none", "--generate", "0"))

    def test_mode_and_links_stay(self) -> None:
        self.out.write_bytes(b"old")
        self.out.chmod(0o640)
        link = self.top / "link"
        link.symlink_to("out/out.mid")
        if os.geteuid() == 0:
            os.chown(self.out, NOBODY, NOBODY)
        before = self.out.stat()
        self.ends(self.play(self.note, link), 0, b"")
        self.holds(self.file)
        after = self.out.stat()
        self.assertTrue(link.is_symlink())
        self.assertEqual((after.st_mode, after.st_uid, after.st_gid), (before.st_mode, before.st_uid, before.st_gid))
        self.assertNotEqual(after.st_ino, before.st_ino)
        self.out.unlink()
        self.ends(self.play(self.note, link), 0, b"")
        self.holds(self.file, "a link to no file")

    def test_a_run_that_fails_leaves_the_old_file(self) -> None:
        for old in (None, b"old"):
            for before in ("", NAMED):
                if old:
                    self.out.write_bytes(old)
                self.ends(self.play(self.refused, self.out, before=before), 3, FAULT, "refused:1:20: `1/7` is")
                self.ends(self.play("none", self.out, before=before), 2, b"formula: read fault\n", "No such file")
                self.ends(self.play(self.note, self.out, "--workers", "17", before=before), 1, WORDS, "from 0 to 16")
                # the program, and then the copy of its file, may write 1,024 bytes
                limit = before + "import resource; resource.setrlimit(resource.RLIMIT_FSIZE, (1024, 1024)); "
                self.ends(self.play(self.other, self.out, before=limit), 4, WRITE, "limit of size")
                self.holds(old)

    def test_each_answer_of_the_host_counts(self) -> None:
        for before in ("", NAMED):
            for call, when in (("fsync", "True"), ("close", "os.fstat(_[0]).st_size == 42"), ("rename", "True"), ("fchmod", "True")):
                self.out.write_bytes(b"old")
                fails = before + FAILS.format(call, when)
                with self.subTest(call=call, named=bool(before)):
                    self.ends(self.play(self.note, self.out, before=fails), 4, WRITE, "Disk quota exceeded")
                    self.holds(b"old")

    def test_a_full_disk_leaves_the_old_file(self) -> None:
        if os.geteuid() or subprocess.run(["mount", "-t", "tmpfs", "-o", "size=8192", "none", self.folder],
                                          stderr=subprocess.DEVNULL, check=False).returncode:
            self.skipTest("NOT TRIED: no file system may be mounted")
        try:
            for before in ("", NAMED):
                self.out.write_bytes(b"o" * 4096)
                self.ends(self.play(self.other, self.out, "--from", "0", before=before), 0, b"")
                self.ends(self.play("none", self.out, "--generate", "0", before=before), 4, WRITE, "No space left")
                self.holds(self.file_of(self.other, "--from", "0"))
        finally:
            subprocess.run(["umount", self.folder], check=True)

    def test_what_may_not_be_written_is_told_behind_what_is_wrong_with_in(self) -> None:
        answers: list[tuple[Union[str, pathlib.Path], str]] = [
            (self.top / "none" / "out.mid", "No such file"), (self.folder, "Is a directory"), ("", "no name"),
            (f"{self.out}/", "directory")]
        for out, why in answers:
            self.ends(self.play(self.note, out), 4, WRITE, why)
            self.ends(self.play(self.refused, out), 3, FAULT)
        self.holds(None)

    @unittest.skipIf(os.geteuid(), "NOT TRIED: only root may run it as another user")
    def test_rights_count(self) -> None:
        program = shutil.copy(str(PROGRAM), self.top / "program")
        os.chmod(program, 0o755)
        python = "/usr/bin/python3"
        if not os.path.exists(python) or not os.access(TOP / "python", os.R_OK):
            self.skipTest("NOT TRIED: no Python here that another user may run")
        for package in ("formula_score", "formula_companion"):
            shutil.copytree(TOP / "python" / package, self.top / "library" / package)

        def as_nobody(score: str) -> Answer:
            return Answer(subprocess.run(
                [python, "-B", "-c", START, "play", score, str(self.out)], user=NOBODY, group=NOBODY, extra_groups=[],
                env={"FORMULA": str(program), "PYTHONPATH": str(self.top / "library"), "PATH": os.environ["PATH"]},
                cwd=self.top, stdin=subprocess.DEVNULL, capture_output=True, check=False, timeout=120))

        self.out.write_bytes(b"old")
        for owner, mode, folder, why in ((0, 0o666, 0o777, "belongs to another user"), (NOBODY, 0o444, 0o777, "denied"),
                                         (NOBODY, 0o666, 0o755, "folder .* may not be written to")):
            os.chown(self.out, owner, owner)
            self.out.chmod(mode)
            self.folder.chmod(folder)
            self.ends(as_nobody(self.note), 4, WRITE, why)
            self.ends(as_nobody(self.refused), 3, FAULT)
            self.holds(b"old")

    def test_signals_leave_nothing(self) -> None:
        for number in (signal.SIGINT, signal.SIGTERM, signal.SIGHUP, signal.SIGQUIT, signal.SIGKILL):
            for before in ("", NAMED) if number != signal.SIGKILL else ("",):
                self.out.write_bytes(b"old")
                words = self.words("none", self.out, "--generate", "124", before=before)
                with subprocess.Popen(words, env=self.environment(), stdout=subprocess.PIPE,
                                      stderr=subprocess.PIPE) as run:
                    children = pathlib.Path(f"/proc/{run.pid}/task/{run.pid}/children")
                    while not children.read_text():
                        time.sleep(0.01)
                    child = int(children.read_text().split()[0])
                    time.sleep(0.1)
                    run.send_signal(number)
                    said, why = run.communicate(timeout=60)
                self.assertEqual((run.returncode, said, why), (-number, b"", b""))
                self.assertTrue(number == signal.SIGKILL or not os.path.exists(f"/proc/{child}"))
                if number == signal.SIGKILL:
                    os.kill(child, signal.SIGKILL)
                self.holds(b"old")

    # ---- one file

    def test_one_file_is_refused_before_anything_is_read(self) -> None:
        os.mkfifo(self.top / "pipe")
        os.symlink("note", self.top / "link")
        os.link(self.note, self.top / "hard")
        for source, out in (("note", "note"), ("note", "link"), ("hard", "./note"), ("pipe", "pipe"), ("note", self.note)):
            for more in ((), ("--parts",))[:2 if source == "pipe" else 1]:
                self.ends(self.play(source, out, *more), 1, WORDS, "IN and OUT are one file")
        self.ends(self.shell("PLAY /dev/stdin note <note"), 1, WORDS, "one file")
        self.ends(self.shell("PLAY - note <note"), 1, WORDS, "one file")
        self.ends(self.shell("PLAY note - >>note"), 1, b"", "^formula: words refused\nIN and OUT are one file")
        self.assertEqual(pathlib.Path(self.note).read_bytes(), NOTE)
        self.ends(self.play(self.note, self.note, "--locate", "0"), 0, b"process 0 levels 0 start 0 positions\n", "^$")
        self.ends(self.play("/dev/null", "/dev/null"), 3, b"formula: score refused: 1:1 fault 3\n")

    # ---- descriptors, pipes and devices

    def test_standard_output_takes_every_task(self) -> None:
        record = self.put("record", self.file_of(self.note, "--record", "--workers", "0"))
        midi = self.put("midi", self.file)
        os.symlink("/dev/stdout", self.top / "link")
        for words in (["note"], ["other", "--parts"], ["other", "--from", "480"], ["none", "--generate", "0"],
                      [midi, "--list"], [record, "--audit"]):
            wanted = self.file_of(*words)
            cases = [("-", way) for way in (WAYS if words == ["note"] else WAYS[1:3])]
            cases += [(name, WAYS[0]) for name in NAMES if words == ["note"]]
            for name, (way, before) in cases:
                self.out.write_bytes(b"before")
                answer = self.shell(f"PLAY {words[0]} {name} {' '.join(words[1:])} {way} {self.out}; exit ${{PIPESTATUS[0]}}")
                self.ends(answer, 0, b"", "^processes .*\n$" if "--generate" in words else "^$")
                self.holds(before + wanted, f"{words} {name} {way}")

    def test_standard_input_is_read_once_and_explained_under_its_name(self) -> None:
        os.mkfifo(self.top / "pipe")
        self.put("-", NOTE)
        for way in ("cat refused | PLAY {} out/out.mid", "PLAY {} out/out.mid <refused",
                    "exec 7<>pipe; cat refused >&7; exec 8<pipe 7<&-; PLAY {} out/out.mid <&8"):
            for name in ("-", "/dev/stdin", "/proc/self/fd/0"):
                self.ends(self.shell(way.format(name)), 3, FAULT, f"^{name}:1:20: `1/7` is")
        self.ends(self.shell("cat refused >pipe & PLAY pipe out/out.mid"), 3, FAULT, "^pipe:1:20: `1/7` is")
        self.ends(self.shell("PLAY ./- out/out.mid <refused"), 0, b"", "^$")
        self.holds(self.file)
        mine, other = socket.socketpair()
        with mine, other:
            other.sendall(REFUSED)
            other.shutdown(socket.SHUT_WR)
            self.ends(Answer(subprocess.run(self.words("-", self.out), env=self.environment(), cwd=self.top, stdin=mine.fileno(),
                                            capture_output=True, check=False, timeout=120)), 3, FAULT, "^-:1:20: ")
        folder = subprocess.run([TOP / "bin" / "formula-score", "play", "-", self.out], stdin=os.open(self.top, os.O_RDONLY),
                                capture_output=True, check=False)
        self.assertEqual((folder.returncode, folder.stdout, folder.stderr),
                         (2, b"", b"formula-score: standard input is a folder\n"))

    def test_reasons_are_true(self) -> None:
        os.symlink("ring", self.top / "ring")
        for out, why in (("/dev/fd/66", "Bad file descriptor"), ("note/out.mid", "Not a directory"),
                         ("ring", "Too many levels of symbolic links")):
            self.ends(self.play(self.note, out), 4, WRITE, f"^'{out}' cannot be written: {why}$")
            command = subprocess.run([TOP / "bin" / "formula", self.note, out], env=self.environment(), cwd=self.top,
                                     capture_output=True, text=True, check=False)
            self.assertEqual((command.returncode, command.stderr), (4, f"'{out}' cannot be written: {why}\n"))
        self.ends(self.play("/dev/fd/66", self.out), 2, b"formula: read fault\n", "Bad file descriptor")

    def test_names_are_escaped(self) -> None:
        name = "a\x1b[31mb\nc"
        self.put(name, REFUSED)
        self.ends(self.play(name, self.out), 3, FAULT, r"^a\\x1b\[31mb\\nc:1:20: ")
        self.ends(self.play("none\x1b", self.out), 2, b"formula: read fault\n", r"^'none\\x1b' cannot be read")

    def test_what_is_said_does_not_stand_in_standard_output(self) -> None:
        self.ends(self.shell("PLAY refused - | cat; exit ${PIPESTATUS[0]}"), 3, b"",
                  "^formula: score refused: 1:20 fault 8\nrefused:1:20: ")
        self.ends(self.shell(f"PLAY refused /dev/fd/3 3>{self.out}"), 3, FAULT)

    def test_other_descriptors(self) -> None:
        self.ends(self.shell(f"PLAY - /dev/fd/3 <note 3>{self.out}"), 0, b"", "^$")
        self.holds(self.file)
        self.ends(self.shell(f"PLAY /dev/fd/4 {self.out} --parts 4<other"), 0, b"", "^$")
        self.holds(self.file_of(self.other, "--parts"))
        self.ends(self.shell("cat note | PLAY /dev/stdin -"), 0, self.file, "^$")
        self.ends(self.shell("PLAY note /dev/fd/9"), 4, WRITE, "Bad file descriptor")
        self.ends(self.shell("PLAY note - | :; exit ${PIPESTATUS[0]}"), 4, b"", "standard output cannot be written")

    def test_closed_descriptors(self) -> None:
        self.ends(self.shell(f"PLAY note {self.out} <&- >&- 2>&-"), 0, b"")
        self.holds(self.file)
        self.ends(self.shell("PLAY refused out/out.mid >&-"), 5, b"", "could not be written to standard output: formula")
        self.ends(self.shell("PLAY note - >&-"), 4, b"", "standard output cannot be written")
        self.ends(self.shell("PLAY note /dev/full"), 4, WRITE, "No space|no plain file|a write failed")
        self.ends(self.shell("PLAY note - >/dev/full"), 4, b"", "No space left")
        self.ends(self.shell(f"PLAY none {self.out} --generate 0 >/dev/full"), 5, b"", "processes")
        self.holds(self.file_of("none", "--generate", "0"))

    def test_a_pipe_is_written_straight(self) -> None:
        os.mkfifo(self.top / "pipe")
        self.ends(self.shell("cat pipe & PLAY other pipe --parts; wait"), 0, self.file_of(self.other, "--parts"), "^$")
        self.assertTrue(stat.S_ISFIFO((self.top / "pipe").stat().st_mode))
        # one that seeks has its length at the end, which a pipe cannot take
        self.assertEqual(self.shell("cat pipe >read & PLAY note pipe; a=$?; wait; exit $a").status, 4)
        self.ends(self.play(self.note, "/dev/null"), 0, b"")

    # ---- words

    def test_help_and_version(self) -> None:
        answer = self.play("--help")
        self.ends(answer, 0, answer.said, "^$")
        self.assertIn(b"usage: formula-score play IN OUT [--workers N]", answer.said)
        program = shutil.copy(str(PROGRAM), self.top / "program")
        self.put("proved.txt", b"What it is\n\ncommit   abc\nkit      some-kit\nlicence  None yet.\ngate     5 passed\n")
        answer = Answer(subprocess.run(self.words("--version"), env={**self.environment(), "FORMULA": str(program)},
                                       capture_output=True, check=False))
        self.ends(answer, 0, b"formula-score 0.1.0\ncommit   abc\nkit      some-kit\nlicence  None yet.\n", "^$")

    def test_a_program_that_is_not_there(self) -> None:
        answer = Answer(subprocess.run(self.words("note", "out.mid"), capture_output=True, check=False,
                                       env={**self.environment(), "FORMULA": "/none/formula"}))
        self.ends(answer, 70, b"", "cannot be run")


if __name__ == "__main__":
    unittest.main()
