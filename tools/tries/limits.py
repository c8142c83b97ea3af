"""Limits of the host and signals, for scripts/faults.

A file that may not grow past each of its first 200 bytes, full disks, a reader that goes away, a text that shrinks while it
is read, no file descriptors, no threads, little address space, little stack, each allocation refused in turn, signals in
mid-run, ten runs at a time. In each the exit status, the line on standard output and what OUT holds are compared, for one
thread, for rounds and for free threads. It needs Linux; the threads and the full disks need root, the allocations a C
compiler and the GNU C library."""

from __future__ import annotations

import os
import pathlib
import random
import resource
import signal
import subprocess
import sys
import tempfile
import threading
import time
from typing import Callable, Optional

TOP = pathlib.Path(__file__).resolve().parents[2]
sys.dont_write_bytecode = True
sys.path.insert(0, str(TOP / "tools"))
import allocations  # noqa: E402
import harness  # noqa: E402
from harness import held  # noqa: E402
from room import LONGEST, READ, WAYS, WRITE, Before, Room, described, is_out_of_memory  # noqa: E402

NOBODY = 65534
#: The stack of a task in KB, as formula(1) has it.
STACKS = {"": 128, "--parts": 184, "--from": 184, "--list": 48, "--generate": 48}


def of_size(limit: int, is_ignored: bool) -> Before:
    """Returns what lets no file of a run grow past so many bytes, with its signal ignored or not."""

    def before() -> None:
        signal.signal(signal.SIGXFSZ, signal.SIG_IGN if is_ignored else signal.SIG_DFL)
        resource.setrlimit(resource.RLIMIT_FSIZE, (limit, limit))

    return before


def try_sizes(room: Room) -> None:
    """A file that may not grow past so many bytes."""
    most = len(room.file)
    borders = [page + near for page in range(4096, most, 4096) for near in (-1, 0, 1)]
    for way, words in WAYS.items():
        for limit in [*range(201), *borders, most - 1]:
            ran = room.play(words, of_size(limit, True))
            room.ends(f"a file of at most {limit} bytes, {way}", ran, 4, WRITE, room.begun[:limit])
        room.ends(f"a file of its own size, {way}", room.play(words, of_size(most, True)), 0, b"", room.file)
        for limit in (0, 29, 200, 4096):
            ran = room.play(words, of_size(limit, False))
            room.ends(f"the signal at {limit} bytes, {way}", ran, -signal.SIGXFSZ, b"", room.begun[:limit])


def try_full_disks(room: Room) -> None:
    """OUT on a disk of a few pages."""
    disk = room.path("disk")
    os.makedirs(disk, exist_ok=True)
    for pages in (1, 2, 3):
        words = ["mount", "-t", "tmpfs", "-o", f"size={4096 * pages}", "none", disk]
        mounted = subprocess.run(words, stderr=subprocess.DEVNULL, check=False)
        if mounted.returncode:
            room.count.not_tried("full disks", "no file system may be mounted")
            return
        try:
            for way, words in WAYS.items():
                out = os.path.join(disk, "out.mid")
                ran = room.play(words, out=out)
                written = held(out) or b""
                os.remove(out)
                is_well = (ran.status, ran.said) == (4, WRITE) and written != b"" and room.begun.startswith(written)
                room.judge(f"a disk of {pages} pages, {way}", is_well, f"{described(ran)}, {len(written)} bytes")
        finally:
            subprocess.run(["umount", disk], check=True)


def try_reader_that_goes(room: Room) -> None:
    """A pipe whose reader takes some bytes and then closes it."""
    pipe = room.path("pipe")
    os.mkfifo(pipe)
    ways: list[list[str]] = [["--parts"], ["--workers", "0"], []]
    for words in ways:
        begun: list[bytes] = []

        def read() -> None:
            with open(pipe, "rb") as file:
                begun.append(file.read(14))

        # a program that never opens the pipe would leave the reader behind: it ends with this process
        reader = threading.Thread(target=read, daemon=True)
        reader.start()
        ran = room.play([*words, "--generate", "0"], source="none", out=pipe)
        reader.join(LONGEST)
        is_well = (ran.status, ran.said) == (4, WRITE) and [data[:4] for data in begun] == [b"MThd"]
        room.judge(f"a reader that goes away, {words}", is_well, f"{described(ran)}, {begun}")


def try_text_that_shrinks(room: Room) -> None:
    """A text of notes that is cut while it is read: what was read is a beginning, so it plays or is refused."""
    path = room.path("shrinks")
    for turn in range(40):
        room.put("shrinks", b"formula 1;\n" + b"note c4 1/4;\n" * 70_000)
        cut = random.randrange(11, 900_000)

        def cuts() -> None:
            time.sleep(turn / 20_000)
            os.truncate(path, cut)

        cutter = threading.Thread(target=cuts)
        cutter.start()
        ran = room.play(["--workers", "0"], source=path)
        cutter.join()
        refused = ran.status == 3 and ran.said.startswith(b"formula: score refused: ") and ran.out is None
        played = ran.status == 0 and ran.said == b"" and (ran.out or b"")[:4] == b"MThd"
        room.judge("a text that shrinks", refused or played, described(ran))
        room.clear()


def with_limit(kind: int, limit: int, user: Optional[int] = None) -> Before:
    """Returns what gives a run this limit, and lets it be of this user."""

    def before() -> None:
        resource.setrlimit(kind, (limit, limit))
        if user is not None:
            os.setgroups([])
            os.setgid(user)
            os.setuid(user)

    return before


def try_descriptors(room: Room) -> None:
    """With too few of them the program is not loaded, or IN can't be opened. Then all is well: IN is closed before OUT is
    opened, so one is enough for both."""
    ends = [(127, b"", None), (2, READ, None), (0, b"", room.file)]
    for way, words in WAYS.items():
        seen = [0]
        for most in range(3, 12):
            ran = room.play(words, with_limit(resource.RLIMIT_NOFILE, most))
            found = next((place for place, end in enumerate(ends) if end == (ran.status, ran.said, ran.out)), -1)
            room.judge(f"{most} descriptors at most, {way}", found >= max(seen), described(ran))
            seen.append(found)
            room.clear()
        room.judge(f"few descriptors, {way}", seen[1] < 2 <= seen[2], f"these ends were seen: {seen[1:]}")


def try_threads(room: Room) -> None:
    """No more threads than a few."""
    if os.getuid() != 0:
        room.count.not_tried("no threads left", "only root may run it as another user")
        return
    for threads in range(1, 7):
        for way, words in WAYS.items():
            workers = [] if "--workers" in words else ["--workers", "16"]
            ran = room.play([*words, *workers], with_limit(resource.RLIMIT_NPROC, threads, NOBODY))
            room.ends(f"{threads} threads at most, {way}", ran, 0, b"", room.file)


def try_address_space(room: Room) -> None:
    """From the least space in which the program runs to one with room enough, in twenty steps."""
    least = next((pages for pages in range(64, 4096)
                  if room.play([], with_limit(resource.RLIMIT_AS, pages << 14), source="/").status == 6), None)
    if least is None:
        room.count.not_tried("little address space", "the program is loaded at none")
        return
    blanks = room.put("blanks", b"formula 1; note c4 1/4;" + b" " * 1_000_000)
    cases: dict[str, tuple[str, list[str], bytes, int]] = {
        "a score": (room.long, [], room.file, 1),
        "a text of a megabyte": (blanks, [], room.file_of([blanks]), 12),
        "a large score": ("none", ["--generate", "0"], room.file_of(["none"], ["--generate", "0"]), 1),
    }
    for way, words in WAYS.items():
        for what, (source, more, wanted, wide) in cases.items():
            seen = set()
            for step in range(20):
                space = (least + step * wide) << 14
                ran = room.play([*words, *more], with_limit(resource.RLIMIT_AS, space), source=source)
                is_well = is_out_of_memory(ran) or (ran.status, ran.out) == (0, wanted)
                room.judge(f"{space} bytes of address space, {what}, {way}", is_well, described(ran))
                seen.add(ran.status)
                room.clear()
            room.judge(f"little address space, {what}, {way}", seen == {0, 6}, f"only the statuses {seen} were seen")


def try_stack(room: Room) -> None:
    """The stack that the man page asks for is enough for 64 blocks; without one the program ends before it writes."""
    blocks = room.put("blocks", b"formula 1;" + b"if 1 {" * 64 + b"note c4 1/4;" + b"}" * 64)
    large, record = room.put("file", room.file_of([blocks])), room.put("record", room.file_of([blocks], ["--record"]))
    cases: dict[str, tuple[str, list[str]]] = {
        **{what: (blocks, words) for what, words in WAYS.items()}, "--parts": (blocks, ["--parts"]),
        "--from": (blocks, ["--from", "0", "--to", "100"]), "--record": (blocks, ["--record"]),
        "--audit": (record, ["--audit"]), "--list": (large, ["--list"]), "--generate": ("none", ["--generate", "0"])}
    for what, (source, words) in cases.items():
        size = STACKS.get(what, STACKS[""]) << 10
        ample = room.play(words, source=source)
        ran = room.play(words, with_limit(resource.RLIMIT_STACK, size), source=source)
        # a record depends on the run
        is_well = ran.status == 0 and (what == "--record" or ran == ample)
        room.judge(f"a stack of {size} bytes, {what}", is_well, described(ran))
        room.clear()
    ran = room.play([], with_limit(resource.RLIMIT_STACK, 16 << 10), source=blocks)
    room.judge("a stack of 16 KB", ran.status == -signal.SIGSEGV and ran.out is None, described(ran))


def try_signals(room: Room) -> None:
    """A signal in mid-run."""
    large = room.file_of(["none"], ["--generate", "24"])
    begun = large[:18] + bytes(4) + large[22:]
    for way, words in WAYS.items():
        for number in (signal.SIGTERM, signal.SIGINT):
            # a shell lets what it runs beside it ignore SIGINT
            running = subprocess.Popen([room.program, "none", room.out, *words, "--generate", "24"], stdout=subprocess.PIPE,
                                       preexec_fn=lambda: signal.signal(number, signal.SIG_DFL) and None)
            while running.poll() is None and (not os.path.exists(room.out) or os.path.getsize(room.out) < 100_000):
                time.sleep(0.001)
            running.send_signal(number)
            said = running.communicate()[0]
            written = held(room.out) or b""
            is_well = running.returncode == -number and said == b"" and len(written) < len(begun) and begun.startswith(written)
            room.judge(f"{number.name}, {way}", is_well,
                       f"status {running.returncode}, {said!r}, {len(written)} of {len(begun)} bytes")
            room.clear()


def try_many_at_a_time(room: Room) -> None:
    """Ten runs at a time."""
    ways = [*WAYS.values()]
    for _ in range(10):
        runs = []
        for place in range(10):
            words, out = ways[place % len(ways)], room.path(f"out/{place}")
            runs.append((out, words, subprocess.Popen([room.program, room.long, out, *words], stdout=subprocess.PIPE)))
        for out, words, running in runs:
            said = running.communicate()[0]
            is_well = running.returncode == 0 and said == b"" and held(out) == room.file
            room.judge(f"ten at a time, {words}", is_well, f"status {running.returncode}, {said!r}")
        room.clear()


TRIES: tuple[Callable[[Room], None], ...] = (
    try_sizes, try_full_disks, try_reader_that_goes, try_text_that_shrinks, try_descriptors, try_threads, try_address_space,
    *allocations.TRIES, try_stack, try_signals, try_many_at_a_time)


def main() -> int:
    """Tries them all: for scripts/faults, which reads the last line."""
    program = harness.find(harness.parser(__doc__).parse_args().program)
    count = harness.Count()
    with tempfile.TemporaryDirectory() as folder:
        room = Room(folder, program, count)
        for attempt in TRIES:
            attempt(room)
    return count.end()


if __name__ == "__main__":
    sys.exit(main())
