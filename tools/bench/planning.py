"""The largest texts and plans: what each part of the work takes, and how it grows with the text, the processes and the room."""

from __future__ import annotations

from typing import Optional

import texts
from measuring import Bench, Figures, head, row

#: The aims.
MOST_MILLISECONDS = 80
MOST_GROWTH = 4.5
MOST_OF_BEFORE = 0.75
MOST_GROWTH_OF_PROCESSES = 4.5
MOST_GROWTH_OF_LITTLE_ROOM = 4.5
MOST_OF_MUCH_ROOM = 10
MOST_BYTES_A_BYTE = 100
MOST_BYTES_AN_OPERATION = 64

WAYS: dict[str, list[str]] = {"0 workers": ["--workers", "0"], "rounds": ["--rounds"], "by default": []}


def stages(bench: Bench, shape: texts.Shape, size: int, refused: bytes,
           is_planned: bool) -> tuple[Figures, Figures, Figures, float]:
    """The figures until a text is read, checked and planned, and how they grow from a quarter of it."""
    read = bench.play(shape(size, texts.UNREAD), [], wanted=3)
    checked = bench.play(shape(size, refused), [], wanted=3)
    ending, out, wanted = (b"", bench.nowhere, 4) if is_planned else (refused, bench.out, 3)
    whole, _, growth = bench.growth(shape(size, ending), shape(size // 4, ending), [], out, wanted)
    return read, checked, whole, growth


def whole_texts(bench: Bench) -> None:
    """Texts of 1 MiB in the worst shapes: what each part of the work takes, and how it grows."""
    columns = ["read ms", "check ms", "plan ms", "all ms", "growth", "read B/B", "all B/B"]
    head("TEXTS OF 1 MiB, cpu, bytes a byte", *columns)
    size = texts.MEBIBYTE
    aimed: list[float] = []
    growths: list[float] = []
    read_memory: list[float] = []
    memory: list[float] = []
    rows = [(name, shape, texts.REFUSED, True) for name, shape in texts.SHAPES.items()]
    rows.insert(3, ("phrases, brought in", texts.SHAPES["phrases"], texts.BROUGHT_IN, False))
    for name, shape, refused, is_planned in rows:
        read, checked, whole, growth = stages(bench, shape, size, refused, is_planned)
        growths.append(growth)
        read_memory.append(1024 * read.peak / size)
        memory.append(1024 * max(read.peak, checked.peak, whole.peak) / size)
        if name in texts.AIMED:
            aimed.append(whole.cpu)
        check = max(0.0, checked.cpu - read.cpu)
        plan = max(0.0, whole.cpu - checked.cpu)
        last = growths[-1], read_memory[-1], memory[-1]
        row("  " + name, read.cpu, check, plan, whole.cpu, *last)
    shapes = ", ".join(texts.AIMED)
    bench.aim(f"1 MiB read, checked and planned ({shapes}), ms", aimed, MOST_MILLISECONDS, "{:.0f}")
    bench.aim("the worst growth from 256 KiB to 1 MiB", [max(growths)], MOST_GROWTH)
    for what, values in (("read", read_memory), ("read, checked and planned", memory)):
        what = f"the most memory for a byte of a text that is {what}"
        bench.aim(what, [max(values)], MOST_BYTES_A_BYTE, "{:.0f}")


def texts_and_before(bench: Bench) -> None:
    """Texts of 1 MiB until they are planned, by this program and by the one before it, by turns."""
    if bench.before is None:
        return
    head("TEXTS OF 1 MiB, cpu, and before", "ms", "before", "ratio", "peak KiB", "before", "ratio")
    ratios: list[float] = []
    for name in texts.COMPARED:
        turns = bench.and_before(texts.SHAPES[name](texts.MEBIBYTE), [], bench.nowhere, 4)
        now, before = turns.first, turns.second
        ratios.append(turns.cpu)
        row("  " + name, now.cpu, before.cpu, turns.cpu, int(now.peak), int(before.peak), now.peak / before.peak)
    bench.aim(f"to the time before ({', '.join(texts.COMPARED)})", ratios, MOST_OF_BEFORE)


def plans(bench: Bench) -> None:
    """The largest plans of short texts, at their size and at a quarter of it."""
    head("LARGEST PLANS, cpu", "count", "ms", "a quarter", "growth", "peak KiB", "bytes each")
    most, processes = texts.MOST_OPERATIONS, texts.MOST_PROCESSES
    weights: list[float] = []
    for name, text, count, quarter in (
        ("  operations", texts.operations, most, most // 4),
        ("  operations that are loops", texts.loops_written_out, most, most // 4),
        ("  operations that are rounds", texts.rounds_written_out, most, most // 4),
        ("  processes of one fork", texts.branches, processes, processes // 4),
        ("  processes in turn", texts.forks_in_turn, processes - 1, processes // 4 - 1),
        ("  processes that fork in two", texts.forks_in_branches, 3_070, 766),
    ):
        large = bench.play(text(count), [], bench.nowhere, 4)
        small = bench.play(text(quarter), [], bench.nowhere, 4)
        weight = 1024 * (large.peak - small.peak) / (count - quarter)
        row(name, count, large.cpu, small.cpu, large.cpu / small.cpu, int(large.peak), int(weight))
        if count == most:
            weights.append(weight)
    rounds = [
        bench.play(texts.rounds_over_text(texts.MEBIBYTE, count), [], bench.nowhere, 4)
        for count in (1_000, 250)
    ]
    growth = rounds[0].cpu / rounds[1].cpu
    cells = rounds[0].cpu, rounds[1].cpu, growth, int(rounds[0].peak)
    row("  rounds over a long text", 1_000, *cells)
    bench.aim("memory for an operation, bytes", weights, MOST_BYTES_AN_OPERATION, "{:.0f}")


def processes(bench: Bench) -> None:
    """The most processes of a score of version 2, beside a quarter of them, in turn and side by side, each way to play."""
    head("16,384 PROCESSES", "count", "cpu ms", "a quarter", "growth", "peak KiB", "a quarter", "growth")
    most = texts.MOST_PROCESSES_OF_2
    times: list[float] = []
    peaks: list[float] = []
    for name, text in (("in turn", texts.sounding_in_turn), ("side by side", texts.sounding_branches)):
        for way, options in WAYS.items():
            large, small, growth = bench.growth(text(most), text(most // 4), options)
            times.append(growth)
            peaks.append(large.peak / small.peak)
            row(f"  {name}, {way}", most, large.cpu, small.cpu, times[-1], int(large.peak), int(small.peak), peaks[-1])
    bench.aim("four times the processes, time", times, MOST_GROWTH_OF_PROCESSES)
    bench.aim("four times the processes, memory", peaks, MOST_GROWTH_OF_PROCESSES)


#: Rooms of an outbox, the largest one first.
ROOMS = (64, 2, 1)


def little_room(bench: Bench) -> None:
    """Many branches of one note with little room, beside a quarter of them and beside much room, each way to play."""
    head("16,384 BRANCHES, LITTLE ROOM", "room", "cpu ms", "a quarter", "growth", "to room 64")
    most = texts.MOST_PROCESSES_OF_2
    for name, text in (("ends later", texts.sounding_branches), ("ends at once", texts.tied_branches)):
        for way, options in WAYS.items():
            growths: list[float] = []
            ratios: list[float] = []
            reference: Optional[Figures] = None
            for room in ROOMS:
                words = options + ["--room", str(room)]
                large, small, growth = bench.growth(text(most), text(most // 4), words)
                reference = reference or large
                growths.append(growth)
                ratios.append(large.cpu / reference.cpu)
                row(f"  {name}, {way}", room, large.cpu, small.cpu, growth, ratios[-1])
            what = f"four times the branches of a note that {name}, {way}, rooms 64, 2 and 1"
            bench.aim(f"{what}, time", growths, MOST_GROWTH_OF_LITTLE_ROOM)
            bench.aim(f"a note that {name}, {way}, room 1 to room 64, processor time", ratios[-1:], MOST_OF_MUCH_ROOM)
