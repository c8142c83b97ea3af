#!/usr/bin/env python3
"""Proves the crates of the program, as many at a time as there are processors, and builds the program in the folder of
fm_main. bin/formula calls it if the program does not exist or is older than its sources.

    tools/gate/build.py [--seconds FILE]

It runs rt ci in a copy of these crates, in fm_main/out, without their edits and without the crates of tests. So rt keeps
each proof for the gate too, and uses what the gate has proved. An interrupted build continues with the crates that rt
has not kept. If it was killed, the next one first ends the checks that are still at work in the copy.

What rt prints goes to standard output. A line for each crate goes to standard error, with the time left as
tools/gate/seconds.txt predicts it. The build ends at a crate that is not proved. The status is 0, or that of rt.

With --seconds all is proved anew, and FILE gets a new table of the seconds."""

from __future__ import annotations

import contextlib
import fcntl
import os
import re
import shutil
import signal
import subprocess
import sys
import time
from typing import Iterator, NoReturn, Optional

TOP = os.path.dirname(os.path.dirname(os.path.dirname(os.path.abspath(__file__))))
sys.path.insert(0, f"{TOP}/tools/gate")
sys.dont_write_bytecode = True
from crates import Uses, all_below, longest_chains, read_uses, turned  # noqa: E402
from follow import follow  # noqa: E402
from left import Forecast, in_words, read_seconds  # noqa: E402

PROGRAM = "fm_main"
HOME = f"{TOP}/crates/{PROGRAM}"
COPY = f"{HOME}/out/copy"
TABLE = f"{TOP}/tools/gate/seconds.txt"

#: What the copy does not have of a crate.
LEFT_OUT = {"out", "must-fail"}

#: Kilobytes of memory that rt expects a crate to take, on average.
MEMORY = 3_000_000

#: What rt prints of a crate when it is done with it, and of one that is not proved, or whose tests are not.
DONE = re.compile(r"rt: (\w+) (proved|is kept)\b")
FAILED = re.compile(r"rt: \w+(: its tests are)? NOT PROVED")

#: The signals that end a build in good order.
SIGNALS = signal.SIGINT, signal.SIGTERM, signal.SIGHUP

#: The commands of the toolchain, as the first words of a process name them.
TOOLCHAIN = {b"rt", b"rattle"}

#: How many seconds a check that was killed has to be gone.
LONGEST_END = 30


def uses_of_crates() -> Uses:
    """Which crates each crate of the program stands on."""
    uses = read_uses(f"{TOP}/crates.txt")
    return {name: uses[name] for name in (PROGRAM, *sorted(all_below(uses, PROGRAM)))}


def lines_of(crate: str) -> int:
    """How many lines of code a crate has."""
    lines = 0
    for at, _, names in os.walk(f"{TOP}/crates/{crate}/src"):
        for name in names:
            with open(f"{at}/{name}", "rb") as file:
                lines += file.read().count(b"\n")
    return lines


def order_of(uses: Uses) -> list[str]:
    """The crates in the order in which rt begins them: first those for which others wait longest, by their lines."""
    chains = longest_chains(turned(uses), {name: lines_of(name) for name in uses})
    return sorted(uses, key=lambda name: -chains[name][0])


def lanes() -> int:
    """How many crates rt proves side by side: one a processor, as many as memory holds."""
    found = len(os.sched_getaffinity(0))
    with contextlib.suppress(OSError, StopIteration), open("/proc/meminfo", encoding="utf-8") as file:
        free = int(next(line for line in file if line.startswith("MemAvailable:")).split()[1])
        found = min(found, max(1, free // MEMORY))
    return found


def make_copy(uses: Uses) -> None:
    """Makes the copy, as a repository of its own."""
    os.makedirs(f"{COPY}/.git")
    for name in uses:
        own = f"{TOP}/crates/{name}"
        shutil.copytree(own, f"{COPY}/crates/{name}", ignore=lambda at, _, own=own: LEFT_OUT if at == own else set())
    shutil.copy(f"{TOP}/HANDLES", COPY)
    with open(f"{TOP}/crates.txt", encoding="utf-8") as file, open(f"{COPY}/crates.txt", "w", encoding="utf-8") as copy:
        copy.writelines(line for line in file if uses.keys() & re.findall(r"^\w+", line))


def tell(crate: str, left: int, seconds: Optional[float]) -> None:
    """Prints that a crate is done, how many are left, and how long these take."""
    after = "" if seconds is None else f", {in_words(seconds)}"
    print(f"formula: {crate} is done, {left} {'crate is' if left == 1 else 'crates are'} left{after}", file=sys.stderr, flush=True)


def prove(uses: Uses, forecast: Forecast, *options: str) -> int:
    """Proves the copy, tells of each crate that is done, and returns the status."""
    rt = subprocess.Popen(["rt", "ci", *options], cwd=COPY, stdin=subprocess.DEVNULL, stdout=subprocess.PIPE,
                          stderr=subprocess.STDOUT, text=True, errors="replace")
    for line in follow(rt):
        done = DONE.match(line)
        if done and done[1] in uses:
            now, is_proved = time.monotonic(), done[2] == "proved"
            forecast.end(done[1], now, is_proved)
            # what rt has kept comes first, at once: the time left is known behind it
            tell(done[1], len(uses) - len(forecast.done), forecast.left(now) if is_proved else None)
        if FAILED.match(line):
            return 1
    status = rt.wait()
    return status if status >= 0 else 128 - status


def hand_over(begun: float) -> None:
    """Gives the checkout the program, as old as the copy of its sources: it is not made of what was changed since."""
    new = f"{HOME}/out/{PROGRAM}.new"
    shutil.copy(f"{COPY}/crates/{PROGRAM}/out/{PROGRAM}", new)
    os.utime(new, (begun, begun))
    os.replace(new, f"{HOME}/out/{PROGRAM}")


def write_table(path: str, seconds: dict[str, float]) -> None:
    """Writes a table of the seconds of each crate."""
    processors = len(os.sched_getaffinity(0))
    with open(path, "w", encoding="utf-8") as file:
        print(f"# Seconds that each crate takes in a build from nothing on {processors} processors (tools/gate/build.py --seconds).", file=file)
        for name, taken in sorted(seconds.items()):
            print(f"{name} {taken:.0f}", file=file)


# ---- one build at a time, and what a killed one has left

def checks_in(folder: str) -> list[int]:
    """The processes of the toolchain that work in a folder or below it, by their numbers."""
    found = []
    for name in filter(str.isdecimal, os.listdir("/proc")):
        with contextlib.suppress(OSError):
            # a folder that was removed has a mark behind its name
            place = os.readlink(f"/proc/{name}/cwd").removesuffix(" (deleted)")
            if not f"{place}/".startswith(f"{folder}/"):
                continue
            with open(f"/proc/{name}/cmdline", "rb") as file:
                words = file.read().split(b"\0")
            if TOOLCHAIN & {os.path.basename(word) for word in words[:2]}:
                found.append(int(name))
    return found


def end_checks_in(folder: str) -> None:
    """Ends the processes of the toolchain that work in a folder, and waits until they are gone."""
    until = time.monotonic() + LONGEST_END
    while time.monotonic() < until:
        left = checks_in(folder)
        if not left:
            return
        for process in left:
            with contextlib.suppress(ProcessLookupError):
                os.kill(process, signal.SIGKILL)
        time.sleep(0.05)


def remove_copy() -> None:
    """Ends what works in the copy, and removes it."""
    if os.path.isdir(COPY):
        end_checks_in(os.path.realpath(COPY))
        shutil.rmtree(COPY, ignore_errors=True)


@contextlib.contextmanager
def alone() -> Iterator[None]:
    """Waits until no other build of the checkout runs, and no rt works in the folder of the program, as rt does."""
    folder = os.open(HOME, os.O_RDONLY)
    # some file systems have no locks
    with contextlib.suppress(OSError):
        try:
            fcntl.flock(folder, fcntl.LOCK_EX | fcntl.LOCK_NB)
        except BlockingIOError:
            print(f"formula: another build or rt works in crates/{PROGRAM}; this build waits for it ..", file=sys.stderr, flush=True)
            fcntl.flock(folder, fcntl.LOCK_EX)
    try:
        yield
    finally:
        os.close(folder)


def build(table: Optional[str]) -> int:
    """Builds the program, and returns the status."""
    uses = uses_of_crates()
    remove_copy()
    try:
        begun = time.time()
        make_copy(uses)
        forecast = Forecast(uses, order_of(uses), lanes(), read_seconds(TABLE), time.monotonic())
        status = prove(uses, forecast, *["--anew"] * (table is not None))
        if status == 0:
            hand_over(begun)
            if table:
                write_table(table, forecast.took)
        return status
    finally:
        remove_copy()


def stopped(number: int, _: object) -> NoReturn:
    """Ends the build by a signal."""
    # a second one, as from a script that was interrupted too, may not stop what removes the copy
    for handled in SIGNALS:
        signal.signal(handled, signal.SIG_IGN)
    sys.exit(128 + number)


def main() -> int:
    words = sys.argv[1:]
    if words and (words[0] != "--seconds" or len(words) != 2):
        print(__doc__)
        return 0 if words in (["-h"], ["--help"]) else 2
    if not shutil.which("rt"):
        print("formula: the toolchain is not there: no rt on the PATH", file=sys.stderr)
        return 127
    for number in SIGNALS:
        signal.signal(number, stopped)
    with alone():
        return build(words[1] if words else None)


if __name__ == "__main__":
    sys.exit(main())
