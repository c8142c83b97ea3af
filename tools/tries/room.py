"""The room in which a program is tried at the limits of the host: its files, its ways to run, and how a run may end."""

from __future__ import annotations

import os
import shutil
import subprocess
from typing import Callable, Optional, Sequence

from harness import Count, Ran, Runs, content

WAYS: dict[str, list[str]] = {
    "one thread": ["--workers", "0"], "rounds": ["--rounds"], "free threads": [], "no lead": ["--lead", "0"]}
LONG = b"formula 1; par { branch { repeat 900 { note c4 1/4; } } branch { repeat 900 { note e4 1/8; } } }"
WRITE, READ, MEMORY = b"formula: write fault\n", b"formula: read fault\n", b"formula: out of memory\n"
#: After so many seconds a run counts as one that does not end.
LONGEST = 120.0
Before = Callable[[], None]


class Room(Runs):
    """A folder with a score, its file, the file as it is before the track's length is written, and OUT.

    OUT is alone in a folder of its own, and another user may run the program."""

    def __init__(self, folder: str, program: str, count: Count):
        super().__init__(shutil.copy(program, f"{folder}/program"), folder)
        self.count, self.out = count, self.path("out/out.mid")
        os.chmod(folder, 0o755)
        os.chmod(self.program, 0o755)
        self.clear()
        self.long = self.put("long", LONG)
        self.file = self.file_of([self.long])
        self.begun = self.file[:18] + bytes(4) + self.file[22:]

    def clear(self) -> None:
        """Makes the folder of OUT anew."""
        shutil.rmtree(self.path("out"), ignore_errors=True)
        os.mkdir(self.path("out"))
        os.chmod(self.path("out"), 0o777)

    def file_of(self, words: Sequence[str], more: Sequence[str] = ()) -> bytes:
        """The file that the program makes with these words, without any trouble."""
        path = self.path("made")
        words = [self.program, words[0], path, *words[1:], "--workers", "0", *more]
        subprocess.run(words, check=True, stdout=subprocess.DEVNULL)
        return content(path)

    def play(self, words: Sequence[str], before: Optional[Before] = None, source: Optional[str] = None,
             out: Optional[str] = None) -> Ran:
        """A run of the program, by default on the score."""
        return self.run([source or self.long, out or self.out, *words], before=before, timeout=LONGEST)

    def ends(self, name: str, ran: Ran, status: int, line: bytes, wanted: Optional[bytes]) -> None:
        """Compares how a run ended with what is wanted of it; OUT is then removed."""
        self.count.ends(name, ran, status, line, wanted)
        self.clear()

    def judge(self, name: str, is_well: bool, problem: str) -> None:
        """Counts a comparison, and prints this problem if it is not well."""
        self.count.judge(name, "" if is_well else problem)


def described(ran: Ran) -> str:
    """How a run ended, in words."""
    return f"status {ran.status}, {ran.said!r}, {ran.complained[:200]!r}"


def is_out_of_memory(ran: Ran) -> bool:
    """Whether a run ended so, with OUT untouched. If not even the words of the command line find memory, it prints nothing."""
    return ran.status == 6 and ran.said in (MEMORY, b"") and ran.out is None
