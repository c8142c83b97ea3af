"""What else is made of a score or a file: listings, positions, tracks, excerpts, records and audits, beside playing."""

from __future__ import annotations

import os

import texts
from measuring import Bench, head, row

#: The aims.
MOST_OF_A_LISTING_IN_C = 4
MOST_OF_PLAYING_LOCATED = 1
MOST_OF_PLAYING_SPLIT = 2
MOST_OF_PLAYING_CUT = 2.5
MOST_OF_PLAYING_RECORDED = 3
MOST_OF_PLAYING_AUDITED = 5
MOST_KIB_OF_A_FILE_IN_MEMORY = 33_800

WAYS: tuple[list[str], ...] = (["--workers", "0"], [])
RECORDED: tuple[list[str], ...] = ([], ["--workers", "1", "--room", "64"])


def listings(bench: Bench) -> None:
    """The listing of files of many events, against a plain program."""
    head("LISTINGS", "events", "wall ms", "cpu ms", "us/event", "to C", "peak KiB")
    ratios: list[float] = []
    file = bench.path("listed.mid")
    for number in (3, 30, 124, None):
        if number is None:
            name, events = "  the longest file", texts.longest_file(file)
        else:
            name, events = "  a file of the command", 32000 * (number + 1)
            bench.generate(number, ["--workers", "0"], file)
        figures = bench.wanted([file, bench.out, "--list"], 0)
        plain = bench.list_in_c(file)
        ratios.append(figures.cpu / plain.cpu)
        row("  in C", events, plain.wall, plain.cpu, 1000 * plain.cpu / events, "", int(plain.peak))
        row(name, events, figures.wall, figures.cpu, 1000 * figures.cpu / events, ratios[-1], int(figures.peak))
    bench.aim("a listing to one in C, processor time", ratios, MOST_OF_A_LISTING_IN_C)


def positions(bench: Bench) -> None:
    """Where a tick lies in the last process, against playing all of them into nowhere on one thread."""
    head("POSITIONS", "events", "wall ms", "cpu ms", "us/event", "to play", "peak KiB")
    ratios: list[float] = []
    for name, text, process, events in (
        ("  16 voices in 8 levels", texts.deep_branches(16, 8_000), 17, 256_000),
        ("  992,000 events of 16 voices", texts.generated(30), 17, 992_000),
        ("  processes in turn", texts.forks_in_turn(4_095), 4_000, 4_095),
    ):
        played = bench.play(text, ["--workers", "0"], "/dev/null")
        options = ["--locate", "1000000", "--process", str(process)]
        figures = bench.play(text, options)
        ratios.append(figures.cpu / played.cpu)
        row(name, events, figures.wall, figures.cpu, 1000 * figures.cpu / events, ratios[-1], int(figures.peak))
    bench.aim("--locate to playing into nowhere, processor time", ratios, MOST_OF_PLAYING_LOCATED)


def tracks(bench: Bench) -> None:
    """Scores of many events split into a track for each channel, against playing them."""
    head("A TRACK FOR EACH CHANNEL", "events", "wall ms", "cpu ms", "us/event", "wall to play", "KiB more")
    ratios: list[float] = []
    more: list[float] = []
    for number in (3, 30, 124):
        for options in WAYS:
            events = 32000 * (number + 1)
            plain = bench.generate(number, options)
            figures = bench.generate(number, options + ["--parts"])
            ratios.append(figures.wall / plain.wall)
            more.append(figures.peak - plain.peak)
            name = "  " + (" ".join(options) or "by default")
            row(name, events, figures.wall, figures.cpu, 1000 * figures.cpu / events, ratios[-1], int(more[-1]))
    bench.aim("--parts to playing, wall time", ratios, MOST_OF_PLAYING_SPLIT)
    bench.aim("memory of --parts above that of playing, KiB", more, MOST_KIB_OF_A_FILE_IN_MEMORY, "{:.0f}")


def excerpts(bench: Bench) -> None:
    """Excerpts of scores of many events, against playing them."""
    head("EXCERPTS, 992,000 events", "wall ms", "cpu ms", "wall to play", "cpu to play", "KiB more")
    ratios: list[float] = []
    more: list[float] = []
    for options in WAYS:
        plain = bench.generate(30, options)
        for cut in (["--from", "0"], ["--to", "1000000"], ["--from", "2000000", "--to", "2001920"]):
            figures = bench.generate(30, options + cut)
            ratios.append(figures.wall / plain.wall)
            more.append(figures.peak - plain.peak)
            name = "  " + " ".join(cut + (options or ["by default"]))
            row(name, figures.wall, figures.cpu, ratios[-1], figures.cpu / plain.cpu, int(more[-1]))
    bench.aim("an excerpt to playing, wall time", ratios, MOST_OF_PLAYING_CUT)
    bench.aim("memory of an excerpt above that of playing, KiB", more, MOST_KIB_OF_A_FILE_IN_MEMORY, "{:.0f}")


def records(bench: Bench) -> None:
    """Records of scores of many events and their audits, against playing them on as many threads."""
    head("RECORDS", "events", "wall ms", "cpu ms", "wall to play", "KiB more", "MiB")
    recorded: list[float] = []
    audited: list[float] = []
    file = bench.path("in.record")
    for number in (3, 30, 124):
        events = 32000 * (number + 1)
        for options in RECORDED:
            plain = bench.generate(number, options)
            row("  played " + (" ".join(options) or "by default"), events, plain.wall, plain.cpu)
            figures = bench.generate(number, options + ["--record"], file)
            recorded.append(figures.wall / plain.wall)
            size = os.path.getsize(file) / texts.MEBIBYTE
            row("  --record", events, figures.wall, figures.cpu, recorded[-1], int(figures.peak - plain.peak), size)
            if os.path.getsize(file) > texts.MOST_RECORD:
                row("  --audit: the record is too long")
                continue
            figures = bench.wanted([file, bench.out, "--audit"], 0)
            audited.append(figures.wall / plain.wall)
            row("  --audit", events, figures.wall, figures.cpu, audited[-1], int(figures.peak - plain.peak))
    bench.aim("--record to playing, wall time", recorded, MOST_OF_PLAYING_RECORDED)
    bench.aim("--audit to playing, wall time", audited, MOST_OF_PLAYING_AUDITED)
