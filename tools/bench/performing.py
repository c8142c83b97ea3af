"""Performances of many events: beside their writes, the memory that they ask for, other kinds, and both versions."""

from __future__ import annotations

import os
import subprocess

import texts
from measuring import Bench, Cell, compiled, head, row

#: The aims.
MOST_OF_FLOOR = 1.3
MOST_OF_ALONE = 1.1

#: How often memory is asked for to start a thread, which may happen beside the first write.
MOST_TAKEN_FOR_A_THREAD = 3


def performances(bench: Bench) -> None:
    """Scores of many events, alone and on threads, against their writes."""
    head("PERFORMANCES", "events", "wall ms", "cpu ms", "us/event", "ratio", "peak KiB")
    of_floor: list[float] = []
    of_alone: list[float] = []
    peaks: dict[str, list[float]] = {}
    for number in (3, 30, 124):
        events = 32000 * (number + 1)
        alone = bench.generate(number, ["--workers", "0"])
        floor = bench.floor()
        row("  writes alone, in C", events, floor.wall, floor.cpu, 1000 * floor.cpu / events)
        for name, options in (
            ("  0 workers (ratio: cpu to floor)", ["--workers", "0"]),
            ("  4 workers (ratio: wall to 0)", ["--workers", "4"]),
            ("  4 workers, --rounds (the same)", ["--workers", "4", "--rounds"]),
        ):
            figures = alone if options[1] == "0" else bench.generate(number, options)
            ratio = figures.wall / alone.wall
            if figures is alone:
                ratio = alone.cpu / floor.cpu
                of_floor.append(ratio)
            elif "--rounds" not in options:
                of_alone.append(ratio)
            peaks.setdefault(" ".join(options), []).append(figures.peak)
            per_event = 1000 * figures.cpu / events
            row(name, events, figures.wall, figures.cpu, per_event, ratio, int(figures.peak))
        # The rest is what the writes take, all but the way into the kernel and back.
        figures = bench.generate(number, ["--workers", "0"], "/dev/null")
        per_event = 1000 * figures.cpu / events
        row("  0 workers, into /dev/null", events, figures.wall, figures.cpu, per_event)
    bench.aim("0 workers to the floor, processor time", of_floor, MOST_OF_FLOOR)
    bench.aim("4 workers to 0 workers, wall time", of_alone, MOST_OF_ALONE)
    for title, kept in peaks.items():
        what = f"{title}, peak memory, 4,000,000 events less 128,000, KiB"
        bench.aim(what, [kept[-1] - kept[0]], 1024, "{:.0f}")


def memory(bench: Bench) -> None:
    """How often memory is asked for in front of the first write to OUT, when a board is opened, and behind it."""
    head("MEMORY ASKED FOR, TIMES", "events", "before", "behind")
    counts = bench.path("taken")
    library = compiled("taken.c", bench.path("taken.so"), "-shared", "-fPIC")
    for workers in (0, 1, 4, 16):
        whole: list[int] = []
        behind: list[int] = []
        for number in (0, 3, 30):
            words = [bench.program, "none", bench.out, "--generate", str(number), "--workers", str(workers)]
            loaded = dict(os.environ, LD_PRELOAD=library, TAKEN=counts)
            subprocess.run(words, env=loaded, stdout=subprocess.DEVNULL, check=True)
            with open(counts, encoding="ascii") as file:
                before, after = map(int, file.read().split())
            whole.append(before + after)
            behind.append(after)
            row(f"  {workers} workers", 32_000 * (1 + number), before, after)
        most = MOST_TAKEN_FOR_A_THREAD * workers
        bench.aim(f"memory asked for behind the first write, {workers} workers, times", behind, most, "{:.0f}")
        more = max(whole) - min(whole)
        bench.aim(f"the same for more events, {workers} workers, times", [more], 0, "{:.0f}")


def other_performances(bench: Bench) -> None:
    """Performances of other kinds, on one thread; and of one process on several."""
    head("OTHERS, 0 workers", "count", "wall ms", "cpu ms", "us each", "to floor", "peak KiB")
    for name, text, count in (
        ("  events of one process", texts.notes(4_000_000), 4_000_000),
        ("  chords that cut each other", texts.overlapping_chords(4_000_000), 4_000_000),
        ("  overlapping through 256 parts", texts.overlapping_in_parts(1_000_000), 1_000_000),
        ("  rests up to the last tick", texts.long_rests(), 1_099_512),
        ("  steps without an event", texts.silent_steps(16_000_000), 16_000_000),
        ("  levels of 256 parts", texts.levels(1_000_000), 1_000_000),
        ("  processes in turn", texts.forks_in_turn(1_023), 1_023),
        ("  processes in turn", texts.forks_in_turn(4_095), 4_095),
        ("  steps while 4,000 processes wait", texts.steps_before_forks(2_000_000), 2_000_000),
    ):
        figures = bench.play(text, ["--workers", "0"])
        floor = bench.floor()
        ratio: Cell = figures.cpu / floor.cpu if floor.cpu > 1 else "-"
        per_event = 1000 * figures.cpu / count
        row(name, count, figures.wall, figures.cpu, per_event, ratio, int(figures.peak))
    head("ONE PROCESS, 4 workers", "count", "wall ms", "cpu ms", "us each", "wall to 0", "peak KiB")
    ratios: list[float] = []
    for name, text, count in (
        ("  events", texts.notes(400_000), 400_000),
        ("  steps without an event", texts.silent_steps(2_000_000), 2_000_000),
    ):
        alone = bench.play(text, ["--workers", "0"])
        figures = bench.play(text, ["--workers", "4"])
        ratios.append(figures.wall / alone.wall)
        per_event = 1000 * figures.cpu / count
        row(name, count, figures.wall, figures.cpu, per_event, ratios[-1], int(figures.peak))
    bench.aim("one process, 4 workers to 0 workers, wall time", ratios, MOST_OF_ALONE)


def versions(bench: Bench) -> None:
    """The same performance in both versions: with running status a file is shorter."""
    head("VERSIONS 1 AND 2", "events", "cpu ms", "of 2 ms", "to 1", "bytes", "of 2", "to 1")
    for name, number in (("  16 voices", 0), ("  16 voices", 30)):
        first = bench.play(texts.generated(number), ["--workers", "0"])
        long = os.path.getsize(bench.out)
        second = bench.play(texts.generated(number).replace(b"formula 1;", b"formula 2;", 1), ["--workers", "0"])
        short = os.path.getsize(bench.out)
        count = 32_000 * (1 + number % 125)
        row(name, count, first.cpu, second.cpu, second.cpu / first.cpu, long, short, short / long)
    for name, text in (("  one voice", texts.notes(400_000)), ("  chords of one voice", texts.overlapping_chords(400_000))):
        first = bench.play(text, ["--workers", "0"])
        long = os.path.getsize(bench.out)
        second = bench.play(text.replace(b"formula 1;", b"formula 2;", 1), ["--workers", "0"])
        short = os.path.getsize(bench.out)
        row(name, 400_000, first.cpu, second.cpu, second.cpu / first.cpu, long, short, short / long)
