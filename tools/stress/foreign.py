"""Makes scores of MIDI files that other people wrote, and looks at how they read.

The files are those of Debian's packages freedoom, mma, simutrans-data, openttd-openmsx, pianobooster and
planetblupi-music-midi: apt-get install them. Each has to come in, with all events within their bounds, and with --exact
at their ticks. Then the scores are measured: how many branches they have, how many of their lengths are ticks, how long they
are, and what lint says of them. With --some N it tries N files alone. Last come files that MuseScore 3 and abc2midi write
from each example and step of the tutorial: apt-get install musescore3 abcmidi."""

from __future__ import annotations

import argparse
import contextlib
import gzip
import io
import os
import pathlib
import re
import shutil
import statistics
import subprocess
import tempfile
import zipfile
from collections import Counter, defaultdict
from typing import Iterator, NamedTuple, Optional

import harness
from formula_companion.verbs.program import main as companion
from formula_score.checks.lint import findings
from formula_score.reading.reader import read

#: How many branches the import before this one made of the files of each package, with the number of these files.
BEFORE = {"freedoom": (66, 944), "mma": (73, 1_239), "simutrans-data": (53, 2_998), "openttd-openmsx": (31, 358),
          "pianobooster": (28, 340), "planetblupi-music-midi": (10, 205)}
#: The bytes a note of its texts, in the median of the files.
BYTES_BEFORE = 18.2
#: At most as many branches, lengths as ticks and bytes a note, as parts of those before, or of all.
BRANCHES, TICKS, BYTES = 0.60, 0.25, 0.90
#: Of how large a part of the channels with notes there are at most as many branches as notes sound at once, and three.
CHANNELS = 0.98
FEW = 8
#: In how many of 100 lines of a score lint finds something, at most.
LINT = 2
SEVENTHS = re.compile(r"/(?:7|14|28|56)\b")


class File(NamedTuple):
    """A foreign file: its package, its name and its bytes."""

    package: str
    name: str
    data: bytes


class Look(NamedTuple):
    """How a score reads: its bytes, its branches and the notes of its file that sound at once by channels, how many lengths
    it has, how many of them are ticks, how many notes, and what lint says."""

    size: int
    branches: Counter[int]
    sounding: dict[int, int]
    lengths: int
    ticks: int
    notes: int
    lint: tuple[str, ...]


def of_package(package: str) -> Iterator[File]:
    """The files of a package that is installed, each once."""
    listed = subprocess.run(["dpkg", "-L", package], stdout=subprocess.PIPE, stderr=subprocess.DEVNULL, text=True, check=False)
    seen: set[bytes] = set()
    for path in sorted(filter(os.path.isfile, listed.stdout.splitlines())):
        for name, data in inside(path):
            if data[:4] == b"MThd" and data not in seen:
                seen.add(data)
                yield File(package, name, data)


def inside(path: str) -> Iterator[tuple[str, bytes]]:
    """The files in a file, by its name: an archive, the lumps of a game, or itself."""
    name = pathlib.Path(path).name
    if name.endswith((".mid", ".midi")):
        yield name, harness.content(path)
    elif name.endswith(".mid.gz"):
        yield name, gzip.decompress(harness.content(path))
    elif name.endswith(".wad"):
        data = harness.content(path)
        count, at = int.from_bytes(data[4:8], "little"), int.from_bytes(data[8:12], "little")
        for entry in (data[at + 16 * number:at + 16 * number + 16] for number in range(count)):
            begin, size = int.from_bytes(entry[:4], "little"), int.from_bytes(entry[4:8], "little")
            yield f"{name} {entry[8:].rstrip(bytes(1)).decode('latin-1')}", data[begin:begin + size]
    elif name.endswith(".zip"):
        with zipfile.ZipFile(path) as archive:
            for each in archive.namelist():
                inner = archive.read(each)
                if each.endswith(".zip"):
                    with zipfile.ZipFile(io.BytesIO(inner)) as within:
                        yield from ((deep, within.read(deep)) for deep in within.namelist())
                else:
                    yield each, inner


def some(count: int) -> list[File]:
    """So many of the files that are here, the shortest of each package in turn."""
    several = [sorted(of_package(package), key=lambda file: len(file.data)) for package in BEFORE]
    found = [files[at] for at in range(max(map(len, several), default=0)) for files in several if at < len(files)]
    return [file for file in found if len(file.data) > 1_000][:count]


def imported(data: bytes, *words: str) -> tuple[int, str, str]:
    """The status of an import, what it says, and the text that it wrote."""
    with tempfile.TemporaryDirectory() as folder:
        source, target = pathlib.Path(folder, "in.mid"), pathlib.Path(folder, "out.score")
        source.write_bytes(data)
        said = io.StringIO()
        with contextlib.redirect_stdout(said), contextlib.redirect_stderr(said):
            status = companion(["import", str(source), str(target), *words], "formula-score")
        return status, said.getvalue(), target.read_text() if target.exists() else ""


def sounding(data: bytes, program: str) -> tuple[int, dict[int, int]]:
    """How many notes a file has, and of each channel how many sound at once."""
    with tempfile.TemporaryDirectory() as folder:
        source, target = pathlib.Path(folder, "in.mid"), pathlib.Path(folder, "out.list")
        source.write_bytes(data)
        subprocess.run([program, source, target, "--list"], stdout=subprocess.DEVNULL, stderr=subprocess.DEVNULL, check=True)
        lines = [line.split(" ", 2) for line in target.read_text().splitlines()[1:]]
    waiting: dict[tuple[str, int, int], list[int]] = defaultdict(list)
    edges: dict[int, list[tuple[int, int]]] = defaultdict(list)
    notes = 0
    for track, tick, event in sorted(lines, key=lambda line: (int(line[1]), int(line[0]))):
        message = bytes.fromhex(event)
        key = track, message[0] & 15, message[1] if message[0] < 0xF0 else 0
        if message[0] >> 4 == 9 and message[2]:
            notes += 1
            waiting[key].append(int(tick))
        elif message[0] >> 4 in (8, 9) and waiting[key]:
            begin = waiting[key].pop(0)
            edges[key[1]] += [(begin, 1), (int(tick), -1)] if int(tick) > begin else []
    most = {}
    for channel, found in edges.items():
        now = most[channel] = 0
        for _, step in sorted(found):
            now += step
            most[channel] = max(most[channel], now)
    return notes, most


def look(text: str, file: bytes, program: str) -> Look:
    """How a score reads."""
    body = re.sub(r"shape .*?;", "", re.sub(r"#.*", "", text), flags=re.S)
    branches: Counter[int] = Counter()
    for part in body.split("branch {")[1:]:
        channel = re.match(r"\s*channel (\d+)", part)
        branches[int(channel[1]) if channel else 0] += 1
    notes, most = sounding(file, program)
    ticks = len(re.findall(r"\bticks \d+", body))
    lint = tuple(finding.what for finding in findings(read(text.encode())) if "strike key" not in finding.what)
    return Look(len(text), branches, most, ticks + len(re.findall(r"\b\d+/\d+", body)), ticks, notes, lint)


def tried(file: File, program: str, count: harness.Count, with_exact: bool = True) -> Optional[Look]:
    """Imports a file in both ways, and looks at the score; None where it did not come in."""
    for words, end in ((("--exact",), "events are at their ticks"), ((), "events are within these bounds")):
        if words and not with_exact:
            continue
        status, said, text = imported(file.data, *words)
        problem = "" if status == 0 and end in said else f"status {status}: {said}"
        if not count.judge(" ".join([file.package, file.name, *words]), problem):
            return None
    found = look(text, file.data, program)
    many = 100 * len(found.lint) > max(100, text.count("\n")) * LINT
    count.judge(f"{file.package} {file.name}, by lint", "; ".join(found.lint) if many else "")
    return found


def measured(looks: dict[File, Look], is_whole: bool, count: harness.Count) -> None:
    """Judges all scores together."""
    channels = [(branches, found.sounding.get(channel, 0)) for found in looks.values()
                for channel, branches in found.branches.items()]
    over = [pair for pair in channels if pair[1] and pair[0] > pair[1] + 3]
    sounds = [pair for pair in channels if pair[1]]
    count.judge("branches of channels", f"{len(over)} of {len(sounds)} have more than sound at once and three"
                if len(over) > (1 - CHANNELS) * len(sounds) else "")
    most = max((branches for branches, at_once in sounds if at_once <= FEW), default=0)
    count.judge("branches of a channel", f"{most}, where at most {FEW} notes sound" if most > FEW else "")
    ticks, lengths = (sum(getattr(found, name) for found in looks.values()) for name in ("ticks", "lengths"))
    print(f"  {len(looks)} files: {sum(pair[0] for pair in channels)} branches, {100 * ticks / max(1, lengths):.1f} percent of "
          f"lengths are ticks; {len(over)} of {len(sounds)} channels have more branches than sound at once and three")
    if is_whole:
        packages = {file.package for file in looks}
        before = sum(BEFORE[package][1] for package in packages)
        count.judge("branches", "" if sum(pair[0] for pair in channels) <= BRANCHES * before else f"{before} before")
        count.judge("lengths", "" if ticks <= TICKS * lengths else f"{ticks} of {lengths} are ticks")
    if is_whole and len(packages) == len(BEFORE):
        size = statistics.median(found.size / found.notes for found in looks.values() if found.notes)
        count.judge("bytes a note", "" if size <= BYTES * BYTES_BEFORE else f"{size:.1f}")
        print(f"  {size:.1f} bytes a note in the median, {BYTES_BEFORE} before")


def by_others(program: str, count: harness.Count) -> None:
    """Files that MuseScore 3 and abc2midi write of the examples come back without a length in ticks, but sevenths."""
    players = {"musescore3": ("here.musicxml", ["musescore3", "-o", "there.mid", "here.musicxml"]),
               "abc2midi": ("here.abc", ["abc2midi", "here.abc", "-o", "there.mid"])}
    for player, (name, words) in players.items():
        if not shutil.which(player):
            count.not_tried(player, "it is not installed")
            continue
        counts: Counter[bool] = Counter()
        for path in sorted(harness.EXAMPLES.glob("scores/*.score")) + sorted(harness.EXAMPLES.glob("tutorial/*.score")):
            with tempfile.TemporaryDirectory() as folder, contextlib.redirect_stdout(io.StringIO()):
                there = pathlib.Path(folder, "there.mid")
                if path.stem == "long_rests" or companion(["export", str(path), f"{folder}/{name}"], "formula-score"):
                    continue
                subprocess.run(words, cwd=folder, env={**os.environ, "QT_QPA_PLATFORM": "offscreen"}, timeout=120,
                               stdout=subprocess.DEVNULL, stderr=subprocess.DEVNULL, check=False)
                status, said, text = imported(there.read_bytes(), "--without", "2") if there.exists() else (1, "no file", "")
            wrong = f"status {status}: {said}" if status else ""
            if "ticks" in text and not SEVENTHS.search(path.read_text()):
                wrong = wrong or "a length comes back in ticks"
            count.judge(f"{path.stem} by {player}", wrong)
            counts["ticks" not in text] += 1
        print(f"  by {player}: {counts[True]} of {sum(counts.values())} scores come back without a length in ticks")


def arguments(parser: argparse.ArgumentParser) -> None:
    """What the verb takes."""
    parser.add_argument("--some", type=int, metavar="N", help="so many of the files alone, and no other programs")


def run(program: str, asked: argparse.Namespace) -> harness.Count:
    """Tries all of them."""
    os.environ["FORMULA"] = program
    count = harness.Count()
    files = some(asked.some) if asked.some else [file for package in BEFORE for file in of_package(package)]
    for package, (number, _) in BEFORE.items():
        here = sum(file.package == package for file in files)
        if not asked.some and here != number:
            count.not_tried(f"{number - here} files of {package}", "they are not here")
    looks = {file: found for file in files if (found := tried(file, program, count))}
    measured(looks, not asked.some, count)
    if not asked.some:
        by_others(program, count)
    return count
