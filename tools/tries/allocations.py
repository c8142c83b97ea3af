"""Each allocation of the program refused in turn, for scripts/faults. It needs a C compiler and the GNU C library."""

from __future__ import annotations

import pathlib
import subprocess
from typing import Callable, Optional, Sequence

from harness import TOP, Ran, content, held
from room import LONGEST, WAYS, Room, described, is_out_of_memory

NOTES = b"par { branch { note c4 1/2; } branch { note e4 1/4; } branch { } } note g4 1/4;"
PHRASE = b"phrase p { gate 50 { par { branch { note c4 1/4; } branch { warp s { note e4 1/8; } } } } } repeat 3 { do p; }"
LARGE = b"".join(b"repeat 2 { note c4, e4 %d/64; loud [64, %d] { note key (60 + n0) 1/8; } }\n" % (number, number)
                 for number in range(1, 120))
#: Free threads may make some more allocations in another run.
MORE = 8
#: So where two runs are compared, the least of so many counts.
TURNS = 5


class Refusing:
    """The program with one of its allocations refused, and how many there are."""

    def __init__(self, room: Room):
        self.room, self.shim, self.counter = room, room.path("refuse.so"), room.put("made_so_far", bytes(8))
        source = TOP / "tools" / "tries" / "refuse.c"
        compiled = subprocess.run(["cc", "-O2", "-shared", "-fPIC", "-o", self.shim, source], check=False)
        self.is_there = compiled.returncode == 0

    def run(self, words: Sequence[str], number: int) -> tuple[Ran, int]:
        """Runs with the allocation of this number refused, none for 0, and returns that and how many were made."""
        env = {"LD_PRELOAD": self.shim, "COUNT": self.counter, "REFUSE": str(number)}
        ran = self.room.run(words, timeout=LONGEST, env=env)
        return ran, int.from_bytes(content(self.counter)[:8], "little")


def refuse_each(refusing: Refusing, name: str, words: Sequence[str], is_well: Callable[[Ran, Ran], bool]) -> None:
    """Refuses each allocation of a run on these words in turn.

    A run has to be out of memory, and one at least is; or it ends well beside one in which none is refused."""
    room, statuses = refusing.room, set()
    whole, most = refusing.run(words, 0)
    room.clear()
    for number in range(1, most + MORE):
        ran = refusing.run(words, number)[0]
        room.judge(f"allocation {number} refused, {name}", is_out_of_memory(ran) or is_well(ran, whole), described(ran))
        statuses.add(ran.status)
        room.clear()
    room.judge(f"allocations refused, {name}", 6 in statuses, f"only the statuses {statuses} were seen")


def is_same(ran: Ran, whole: Ran) -> bool:
    """Whether a run ended as the other one."""
    return (ran.status, ran.said, ran.out) == (whole.status, whole.said, whole.out)


def try_each_allocation(room: Room) -> None:
    """Each allocation refused in turn: out of memory with OUT untouched, or the end that comes without it."""
    refusing = Refusing(room)
    if not refusing.is_there:
        room.count.not_tried("refused allocations", "there is no C compiler")
        return
    notes = room.put("notes", b"formula 1; " + NOTES)
    phrase = room.put("phrase", b"formula 1; shape s = slope 1/1 by 1000 to 1200; " + PHRASE)
    large = room.put("large", b"formula 1; " + LARGE)
    broken = room.put("broken", b"formula 1; }")
    record = room.path("record")
    subprocess.run([room.program, notes, record, "--record", "--workers", "1"], check=True)
    midi = room.put("midi", room.file_of([phrase]))
    cases = [(f"{what}, {way}", [text], words) for what, text in (("branches", notes), ("a fork in a phrase", phrase))
             for way, words in WAYS.items()]
    cases += [
        ("a large text", [large], ["--workers", "0"]),
        ("a fault", [broken], []),
        ("a large score", ["none"], ["--generate", "0", "--workers", "0"]),
        ("a large score on free threads", ["none"], ["--generate", "0"]),
        ("words that are refused", [notes, "third"], []),
        ("a listing", [midi], ["--list"]),
        ("parts", [phrase], ["--parts"]),
        ("an excerpt", [phrase], ["--from", "100"]),
        ("a tick", [phrase], ["--locate", "100", "--process", "1"]),
        ("an audit", [record], ["--audit"]),
    ]
    for what, names, words in cases:
        refuse_each(refusing, what, [names[0], room.out, *names[1:], *words], is_same)


def try_allocations_on_record(room: Room) -> None:
    """Each allocation of a performance on record refused in turn: out of memory with OUT untouched, or a record that is
    accepted. The tape grows while threads play, so a record without its last steps would be one that is not."""
    refusing = Refusing(room)
    if not refusing.is_there:
        room.count.not_tried("refused allocations on record", "there is no C compiler")
        return

    def is_accepted(ran: Ran, _: Ran) -> bool:
        return (ran.status, ran.said) == (0, b"") and audited(room) == room.file

    for words in (["--workers", "1", "--room", "64"], ["--lead", "0"]):
        refuse_each(refusing, f"a record, {' '.join(words)}", [room.long, room.out, "--record", *words], is_accepted)


def audited(room: Room) -> Optional[bytes]:
    """The file that an audit makes of the record in OUT; None if it makes none."""
    path = room.path("audited")
    subprocess.run([room.program, room.out, path, "--audit"], check=False, stdout=subprocess.DEVNULL)
    file = held(path)
    pathlib.Path(path).unlink(missing_ok=True)
    return file


def try_memory_while_playing(room: Room) -> None:
    """Nine times the events of the same processes take as many allocations.

    A thread that begins before another one ended takes one more for itself, so the least of some runs counts."""
    refusing = Refusing(room)
    if not refusing.is_there:
        room.count.not_tried("allocations while playing", "there is no C compiler")
        return
    text = b"formula 1; par { branch { repeat %d { note c4 1/4; } } branch { repeat %d { note e4 1/8; } } }"
    paths = [room.put(f"repeated_{count}", text % (count, count)) for count in (1000, 9000)]
    for way, words in WAYS.items():
        if way != "rounds":
            few, whole = (min(refusing.run([path, room.out, *words], 0)[1] for _ in range(TURNS)) for path in paths)
            room.judge(f"allocations while playing, {way}", few == whole, f"{few} for a ninth of the events, and then {whole}")
        room.clear()


TRIES: tuple[Callable[[Room], None], ...] = (try_each_allocation, try_allocations_on_record, try_memory_while_playing)
