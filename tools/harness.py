"""What the scripts share that try the program: they find it, run it, judge what it did, and count.

The program is the one that `--program FILE` names, else the one that FORMULA names, else the proved one, which
bin/formula builds if it has to."""

from __future__ import annotations

import argparse
import os
import pathlib
import re
import shutil
import subprocess
import sys
from typing import Callable, Mapping, NamedTuple, NoReturn, Optional, Sequence, Union

TOP = pathlib.Path(__file__).resolve().parent.parent
EXAMPLES = TOP / "examples"
SCORES = EXAMPLES / "scores"

#: The status of a script that found no program.
NO_PROGRAM = 70

PathLike = Union[str, "os.PathLike[str]"]


# ---- the program

def no_program(reason: str) -> NoReturn:
    """Ends a script that found no program."""
    print(f"{pathlib.Path(sys.argv[0]).name}: {reason}", file=sys.stderr)
    raise SystemExit(NO_PROGRAM)


def find(named: Optional[str] = None) -> str:
    """The program, as a whole name; FORMULA is then out of the environment, so that no run goes through it again."""
    if not named:
        built = subprocess.run([TOP / "bin" / "formula", "--program"], stdout=subprocess.PIPE, text=True, check=False)
        if built.returncode:
            no_program("the program could not be built")
        named = built.stdout.strip()
    os.environ.pop("FORMULA", None)
    found = shutil.which(named)
    if found is None:
        no_program(f"there is no program {named}")
    return os.path.abspath(found)


def parser(doc: Optional[str]) -> argparse.ArgumentParser:
    """A parser with `--program`, for a script of which this is the text at its head."""
    parts = (doc or "").split("\n\n")
    reader = argparse.ArgumentParser(description=parts[0], epilog="\n\n".join(parts[2:]),
                                   formatter_class=argparse.RawDescriptionHelpFormatter)
    add_program(reader)
    return reader


def add_program(reader: argparse.ArgumentParser) -> None:
    """Gives a parser the option `--program`."""
    reader.add_argument("--program", metavar="FILE", help="the program; else FORMULA names it, else it is the proved one")


# ---- files

def content(path: PathLike) -> bytes:
    """What a file holds."""
    return pathlib.Path(path).read_bytes()


def held(path: PathLike) -> Optional[bytes]:
    """What a file holds; None if it does not exist."""
    try:
        return content(path)
    except FileNotFoundError:
        return None


def bytes_of(path: PathLike) -> bytes:
    """The bytes of a file of hexadecimal digits, in which blanks and what follows a `#` do not count."""
    return bytes.fromhex(re.sub(r"#.*", "", content(path).decode()))


def scores_in(folder: PathLike) -> list[str]:
    """The scores of a folder, by their names."""
    return sorted(os.path.join(folder, name) for name in os.listdir(folder) if name.endswith(".score"))


# ---- runs

class Ran(NamedTuple):
    """How a run ended: its status, what it printed on standard output and standard error, and what OUT holds."""

    status: int
    said: bytes
    complained: bytes
    out: Optional[bytes]


class Runs:
    """Runs of a program in a folder, with OUT in it."""

    def __init__(self, program: str, folder: PathLike):
        self.program, self.folder = program, str(folder)
        self.out = self.path("out")

    def path(self, name: str) -> str:
        """A name in the folder."""
        return os.path.join(self.folder, name)

    def put(self, name: str, data: bytes) -> str:
        """Writes a file in the folder, and returns its name."""
        pathlib.Path(self.path(name)).write_bytes(data)
        return self.path(name)

    def run(self, words: Sequence[str], given: Optional[bytes] = None, before: Optional[Callable[[], None]] = None,
            timeout: Optional[float] = None, env: Optional[Mapping[str, str]] = None) -> Ran:
        """A run on these words, with OUT as it is."""
        done = subprocess.run([self.program, *words], input=given or b"", stdout=subprocess.PIPE, stderr=subprocess.PIPE,
                              preexec_fn=before, timeout=timeout, env=env, check=False)
        return Ran(done.returncode, done.stdout, done.stderr, held(self.out) if os.path.isfile(self.out) else None)

    def anew(self, words: Sequence[str], given: Optional[bytes] = None,
             before: Optional[Callable[[], None]] = None, timeout: Optional[float] = None) -> Ran:
        """A run on these words, before which there is no OUT."""
        pathlib.Path(self.out).unlink(missing_ok=True)
        return self.run(words, given, before, timeout)


# ---- verdicts

def difference(wanted: Optional[bytes], found: Optional[bytes]) -> str:
    """What is wrong with OUT; nothing if it is as wanted."""
    if wanted == found:
        return ""
    if wanted is None:
        return "OUT was made"
    if found is None:
        return "OUT is not there"
    pairs = enumerate(zip(wanted, found))
    place = next((place for place, (left, right) in pairs if left != right), min(len(wanted), len(found)))
    return f"OUT differs from byte {place} on: {len(found)} bytes in place of {len(wanted)}"


class Count:
    """How many comparisons passed and failed."""

    def __init__(self) -> None:
        self.passed = self.failed = 0

    def judge(self, name: str, problem: Union[str, Sequence[str], None]) -> bool:
        """Counts a comparison, and prints what is wrong with it, if something is; whether it passed."""
        text = problem if isinstance(problem, str) else "; ".join(problem or ())
        if text:
            self.failed += 1
            print(f"{name}: {text}", flush=True)
        else:
            self.passed += 1
        return not text

    def ends(self, name: str, ran: Ran, status: int, said: bytes, out: Optional[bytes]) -> bool:
        """A run ended so, printed this and no more, and left this in OUT."""
        problems = []
        if ran.status != status:
            problems.append(f"status {ran.status} in place of {status}")
        if ran.said + ran.complained != said:
            problems.append(f"it printed {(ran.said + ran.complained).decode('utf-8', 'replace')!r} in place of "
                            f"{said.decode('utf-8', 'replace')!r}")
        if ran.out != out:
            problems.append(difference(out, ran.out))
        return self.judge(name, problems)

    def not_tried(self, what: str, why: str) -> None:
        """Prints what could not be tried here."""
        print(f"not tried: {what}, since {why}", flush=True)

    def end(self) -> int:
        """Prints the numbers, and returns the status of the script."""
        print(f"{self.passed} passed, {self.failed} failed", flush=True)
        return 1 if self.failed else 0


def main() -> int:
    """Prints which program it is, for the scripts that are no Python."""
    print(find(parser(__doc__).parse_args().program))
    return 0


if __name__ == "__main__":
    sys.exit(main())
