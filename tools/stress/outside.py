"""Compares how other programs read our files with how we do, and how we read theirs.

Compared is the listing of each file, event by event, with what midicsv reads in it: the files of all example scores,
those with a track for each channel, files that other programs write (abc2midi, mma and lilypond, from small pieces in
tools/stress/outside.py), and those that are named. Then timidity, fluidsynth, mido and MuseScore open files of format 1,
and the tracks that they see are counted. It prints what is not installed, and leaves it out. On Debian: apt-get install
midicsv abcmidi mma lilypond timidity freepats fluidsynth fluid-soundfont-gm python3-mido musescore3."""

from __future__ import annotations

import argparse
import csv
import io
import os
import re
import shutil
import subprocess
import sys
import tempfile
from typing import Callable, Iterator, Optional, Sequence, Union

import harness
from harness import EXAMPLES, content

# Scores with several channels, of which other programs count the tracks.
SPLIT = ("scores/canon", "tutorial/8_end", "scores/fork_and_join")

ABC = """X:1
T:A round
M:4/4
L:1/4
Q:1/4=110
K:F
%%MIDI program 73
V:1
F G A F | A B c2 | "Bb"F G A F | A B c2 |]
V:2
z4 | F G A F | A B c2 | (3FGA c2 |]
"""
MMA = """Tempo 96
Groove Swing
1 Am7
2 D7
3 Gmaj7
4 C6
"""
LILYPOND = """\\version "2.24.0"
\\score {
  << \\new Staff { \\tempo 4 = 72 \\time 3/4 \\key g \\major
       d'8 g'16 a' b'4\\f \\< <g' b'> \\! \\grace c''16 b'4 a' r \\bar "|." }
     \\new Staff { \\clef bass g2. d4 e fis } >>
  \\midi { }
}
"""

# What midicsv calls an event, the kind of its status byte, and how many data bytes it has; the bend is one number.
CHANNEL = {"Note_off_c": (8, 2), "Note_on_c": (9, 2), "Poly_aftertouch_c": (10, 2), "Control_c": (11, 2),
           "Program_c": (12, 1), "Channel_aftertouch_c": (13, 1), "Pitch_bend_c": (14, 1)}
TEXTS = {"Text_t": 1, "Copyright_t": 2, "Title_t": 3, "Instrument_name_t": 4, "Lyric_t": 5, "Marker_t": 6,
         "Cue_point_t": 7}
NUMBERS = {"Channel_prefix": (0x20, (1,)), "MIDI_port": (0x21, (1,)), "Tempo": (0x51, (3,)),
           "SMPTE_offset": (0x54, (1, 1, 1, 1, 1)), "Time_signature": (0x58, (1, 1, 1, 1)),
           "Sequence_number": (0, (2,))}


class Unknown(Exception):
    """Something that midicsv prints and this script does not know."""


def quantity(number: int) -> bytes:
    """A variable-length quantity."""
    out = [number % 128]
    while number := number // 128:
        out.insert(0, 128 + number % 128)
    return bytes(out)


def meta(kind: int, data: bytes) -> bytes:
    """A meta event."""
    return bytes([0xFF, kind]) + quantity(len(data)) + data


def text_of(field: str) -> bytes:
    """The bytes of a text, which midicsv writes with octal numbers for what is no plain character."""
    return re.sub(rb"\\(\\|[0-7]{3})", lambda match: match[1] if match[1] == b"\\" else bytes([int(match[1], 8)]),
                  field.encode("latin-1"))


def event_of(kind: str, fields: Sequence[str]) -> bytes:
    """The bytes of an event as midicsv prints it."""
    if kind in CHANNEL:
        status, count = CHANNEL[kind]
        channel, *data = map(int, fields)
        if kind == "Pitch_bend_c":
            data = [data[0] % 128, data[0] // 128]
        return bytes([16 * status + channel, *data])
    if kind in TEXTS:
        return meta(TEXTS[kind], text_of(fields[0]))
    if kind in NUMBERS:
        number, sizes = NUMBERS[kind]
        return meta(number, b"".join(int(field).to_bytes(size, "big") for field, size in zip(fields, sizes)))
    if kind == "Key_signature":
        return meta(0x59, bytes([int(fields[0]) % 256, int(fields[1] == "minor")]))
    if kind == "End_track":
        return meta(0x2F, b"")
    if kind in ("System_exclusive", "System_exclusive_packet"):
        packet = bytes(map(int, fields[1:]))
        return bytes([0xF0 if kind == "System_exclusive" else 0xF7]) + quantity(int(fields[0])) + packet
    if kind == "Sequencer_specific":
        return meta(0x7F, bytes(map(int, fields[1:])))
    if kind == "Unknown_meta_event":
        return meta(int(fields[0]), bytes(map(int, fields[2:])))
    raise Unknown(kind)


def read_by_midicsv(path: str) -> list[str]:
    """The lines of the listing, as midicsv reads the file."""
    done = subprocess.run(["midicsv", path], stdout=subprocess.PIPE, stderr=subprocess.PIPE, check=False)
    if done.returncode or done.stderr:
        raise Unknown(done.stderr.decode("latin-1").strip() or f"midicsv ended with {done.returncode}")
    lines: list[str] = []
    head, tracks = "", 0
    for row in csv.reader(io.StringIO(done.stdout.decode("latin-1")), skipinitialspace=True):
        track, tick, kind, fields = int(row[0]), int(row[1]), row[2], row[3:]
        if kind == "Header":
            head = f"format {int(fields[0])} tracks TRACKS division {int(fields[2])}"
        elif kind == "Start_track":
            tracks += 1
        elif kind != "End_of_file":
            lines.append(f"{track - 1} {tick} {event_of(kind, fields).hex(' ').upper()}")
    return [head.replace("TRACKS", str(tracks)), *lines]


class Tries:
    """Runs of the program, and which files were compared."""

    def __init__(self, program: str, folder: str):
        self.runs, self.count = harness.Runs(program, folder), harness.Count()
        self.path, self.judge = self.runs.path, self.count.judge
        self.compared: list[str] = []

    def run(self, *words: str) -> tuple[int, str]:
        """The status and the line of a run."""
        ran = self.runs.run(words)
        return ran.status, ran.said.decode().strip()

    def compare(self, name: str, file: str) -> None:
        """The listing of the file is what midicsv reads."""
        listing = self.path("listing")
        status, said = self.run(file, listing, "--list")
        if status:
            self.judge(name, f"status {status}: {said}")
            return
        ours = content(listing).decode("ascii").splitlines()
        try:
            theirs = read_by_midicsv(file)
        except Unknown as problem:
            print(f"not compared: {name}: {problem}")
            return
        different = next((pair for pair in zip(ours, theirs) if pair[0] != pair[1]), None)
        if different is None and len(ours) != len(theirs):
            different = f"{len(ours)} lines", f"{len(theirs)} lines"
        self.judge(name, f"listed is {different[0]!r}, and midicsv reads {different[1]!r}" if different else "")
        self.compared.append(f"{name} ({len(ours) - 1} events)")


def has(*names: str) -> Optional[str]:
    """The first of these names of a program that is installed."""
    for name in names:
        if shutil.which(name):
            return name
    print(f"not tried: {names[0]}, which is not installed")
    return None


def scores() -> Iterator[str]:
    """The example scores, each with its folder and without its ending."""
    for folder in ("scores", "tutorial"):
        for name in sorted(os.listdir(os.path.join(EXAMPLES, folder))):
            if name.endswith(".score"):
                yield f"{folder}/{name[:-len('.score')]}"


def others(tries: Tries) -> Iterator[tuple[str, str]]:
    """Files that other programs write: a name and a path each."""
    for name, text, words in (
        ("abc2midi", ABC, ["abc2midi", "in", "-o", "out.mid"]),
        ("mma", MMA, ["mma", "-f", "out.mid", "in"]),
        ("lilypond", LILYPOND, ["lilypond", "--silent", "-o", "out", "in"]),
    ):
        if has(name):
            folder = tries.path(name)
            os.mkdir(folder)
            with open(os.path.join(folder, "in"), "w", encoding="ascii") as file:
                file.write(text)
            subprocess.run(words, cwd=folder, stdout=subprocess.DEVNULL, stderr=subprocess.DEVNULL, check=False)
            files = [os.path.join(folder, file) for file in sorted(os.listdir(folder)) if file.endswith((".mid", ".midi"))]
            if not files:
                tries.judge(name, "it wrote no file")
            yield from ((f"a file of {name}", file) for file in files)


#: How many tracks a program sees, or what is wrong; None if it is not installed.
Seen = Union[int, str, None]


def tracks_by_midicsv(file: str) -> Seen:
    """How many tracks midicsv lists."""
    if not shutil.which("midicsv"):
        return None
    return int(read_by_midicsv(file)[0].split()[3])


def tracks_by_mido(file: str) -> Seen:
    """How many tracks the Python library mido reads."""
    python = next((path for path in ("/usr/bin/python3", sys.executable) if subprocess.run(
        [path, "-c", "import mido"], stderr=subprocess.DEVNULL, check=False).returncode == 0), None)
    if python is None:
        return None
    done = subprocess.run([python, "-c", "import mido, sys; print(len(mido.MidiFile(sys.argv[1]).tracks))", file],
                          stdout=subprocess.PIPE, check=True)
    return int(done.stdout)


def tracks_by_timidity(file: str) -> Seen:
    """What timidity prints of the header; it has to play the file to its end too, with no instruments."""
    if not shutil.which("timidity"):
        return None
    done = subprocess.run(["timidity", "-c", os.devnull, "-idvv", "-Or", "-s", "8000", "-o", os.devnull, file],
                          stdout=subprocess.PIPE, stderr=subprocess.STDOUT, check=False)
    found = re.search(rb"Tracks?: ([0-9]+)", done.stdout)
    return int(found[1]) if found and done.returncode == 0 else f"it ended with {done.returncode} and printed none"


COUNTED: tuple[tuple[str, Callable[[str], Seen]], ...] = (
    ("midicsv", tracks_by_midicsv), ("mido", tracks_by_mido), ("timidity", tracks_by_timidity))


def count(tries: Tries, name: str, file: str, wanted: int) -> None:
    """How many tracks other programs see."""
    for program, tracks in COUNTED:
        seen = tracks(file)
        if seen is None:
            print(f"not tried: {program}, which is not installed")
        else:
            tries.judge(f"{name}, by {program}", None if seen == wanted else f"{seen} tracks in place of {wanted}")
            tries.compared.append(f"{name} by {program}: {seen} tracks")


def opened(tries: Tries, name: str, file: str, wanted: int) -> None:
    """That MuseScore opens the file, with as many parts as there are channels; and that fluidsynth plays it."""
    program = has("musescore3", "mscore3", "mscore")
    if program:
        target = tries.path("out.musicxml")
        subprocess.run([program, "-o", target, file], env={**os.environ, "QT_QPA_PLATFORM": "offscreen"},
                       stdout=subprocess.DEVNULL, stderr=subprocess.DEVNULL, check=False)
        parts = 0
        if os.path.exists(target):
            parts = content(target).count(b"<score-part ")
            os.remove(target)
        tries.judge(f"{name}, by {program}", None if parts == wanted - 1 else f"{parts} parts in place of {wanted - 1}")
        tries.compared.append(f"{name} by {program}: {parts} parts")
    font = "/usr/share/sounds/sf2/FluidR3_GM.sf2"
    if not os.path.exists(font):
        print(f"not tried: fluidsynth, since {font} is not there")
    elif has("fluidsynth"):
        sound = tries.path("out.wav")
        done = subprocess.run(["fluidsynth", "-ni", "-F", sound, font, file], stdout=subprocess.DEVNULL,
                              stderr=subprocess.DEVNULL, check=False)
        loud = done.returncode == 0 and os.path.getsize(sound) > 100_000
        tries.judge(f"{name}, by fluidsynth", None if loud else f"it ended with {done.returncode}")
        tries.compared.append(f"{name} by fluidsynth")


def arguments(parser: argparse.ArgumentParser) -> None:
    """What the verb takes."""
    parser.add_argument("files", nargs="*", metavar="FILE.mid", help="files to be compared besides")


def run(program: str, asked: argparse.Namespace) -> harness.Count:
    """Compares all of them."""
    with tempfile.TemporaryDirectory() as folder:
        tries = Tries(program, folder)
        csv_is_there = has("midicsv")
        for name in scores():
            score = os.path.join(EXAMPLES, name + ".score")
            whole, split = tries.path("whole.mid"), tries.path("split.mid")
            ways: tuple[tuple[str, list[str]], ...] = ((whole, []), (split, ["--parts"]))
            for file, options in ways:
                status, said = tries.run(score, file, *options)
                if status:
                    tries.judge(name, f"status {status}: {said}")
                elif csv_is_there:
                    tries.compare(" ".join([name, *options]), file)
            if name in SPLIT:
                wanted = int.from_bytes(content(split)[10:12], "big")
                count(tries, name, split, wanted)
                opened(tries, name, split, wanted)
        if csv_is_there:
            for name, file in [*others(tries), *((file, file) for file in asked.files)]:
                tries.compare(name, file)
    for line in tries.compared:
        print("  " + line)
    return tries.count
