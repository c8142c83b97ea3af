"""Scores from MIDI files that are made here: what is written, and whether tools/score_model plays the file's events.

FILES names another number of random files.
"""

from __future__ import annotations

import importlib
import os
import pathlib
import random
import re
import sys
import tempfile
import unittest
from collections import defaultdict
from typing import Any, Iterable

from .companion import Answer, score
from .midi_files import meta, midi, notes, track
from .program import TOP, needs_program, score_model

from formula_companion.importer.going import imported as made
from formula_companion.importer.grid import Grid, clock_of, shift_of
from formula_companion.importer.moved import Choices, few_velocities
from formula_companion.importer.words import key_of, names_of
from formula_score.reading.playing import Listing, listed

sys.path.insert(0, str(TOP / "tools" / "file_model"))

file_model: Any = importlib.import_module("file_model")

FILES = int(os.environ.get("FILES", "15"))
#: Messages with their ticks.
Events = list[tuple[int, bytes]]


def imported(file: bytes, *words: object) -> tuple[Answer, Any]:
    """What the verb answers, and the text that it wrote."""
    with tempfile.TemporaryDirectory() as folder:
        source, target = pathlib.Path(folder, "in.mid"), pathlib.Path(folder, "out.score")
        source.write_bytes(file)
        answer = score("import", source, target, *words)
        return answer, target.read_text() if target.exists() else None


def played(text: str) -> tuple[Events, int]:
    """The events of a text by the model, and its end."""
    events, end = score_model.played(text.encode())
    return sent((tick, bytes(message)) for tick, _, _, message in events), end


def sent(events: Iterable[tuple[int, bytes]]) -> Events:
    """Events sorted, note-offs by their keys."""
    off = [(tick, message[:2] if message[0] >> 4 == 8 else message) for tick, message in events]
    return sorted((tick, bytes([message[0] - 16, message[1]]) if message[0] >> 4 == 9 and message[2] == 0 else message)
                  for tick, message in off)


def listing(file: bytes) -> Listing:
    """The listing of a file by the model."""
    return listed(file_model.listing(file_model.read(file)).decode().splitlines())


def body(text: str) -> str:
    """The lines of a text behind its version."""
    return text.partition("formula 2;\n")[2]


WALTZ = midi(96, [
    track([(0, meta(0x58, bytes([3, 2, 24, 8]))), (0, meta(0x51, (400_000).to_bytes(3, "big")))], 96 * 12),
    track([(0, meta(0x03, b"Flute")), (0, bytes([0xC0, 73]))]
          + notes(0, *((tick, tick + 86, 72 + tick // 96 % 3, 64) for tick in range(0, 96 * 12, 96))), 96 * 12),
    track([(0, meta(0x03, b"Chords"))]
          + notes(1, *((tick, tick + 288, key, 50 + tick // 36) for tick in range(0, 96 * 12, 288)
                       for key in (48, 52, 55))), 96 * 12),
])


@needs_program
class GoingOn(unittest.TestCase):
    def test_a_waltz_is_written_as_one_would(self) -> None:
        answer, text = imported(WALTZ, "--velocities", "0")
        self.assertEqual((answer.status, answer.complaint), (0, ""))
        self.assertEqual(text, """\
# Made from in.mid by formula-score import
formula 2;
shape tempo = flat 500/1 by 800;
warp tempo { par {
  # Flute
  branch {
    program 73;
    repeat 4 { note c5 1/4; note cs5 1/4; note d5 1/4; }  # bars 1 to 4
  }
  # Chords
  branch { channel 1 { gate 100 {
    volume 50 { note c3, e3, g3 3/4; } volume 58 { note c3, e3, g3 3/4; }  # bars 1 to 2
    volume 66 { note c3, e3, g3 3/4; } volume 74 { note c3, e3, g3 3/4; }  # bars 3 to 4
  } } }
} }
""")
        self.assertIn("to the last note 4.40 s, in the file 4.40 s", answer.said)  # eleven quarter notes of 0.4 s

    def test_a_player_that_ends_each_note_a_tick_early_or_begins_it_late(self) -> None:
        line = [60, 62, 64, 65, 67, 69, 71, 72]
        early = [(at * 480, at * 480 + 479, key, 80) for at, key in enumerate(line)]
        late = [(at * 480 + 1, at * 480 + 480, key, 80) for at, key in enumerate(line)]
        for several in (early, late):
            answer, text = imported(midi(480, [track([*notes(0, *several)], 3840)]))
            self.assertEqual(answer.status, 0, answer)
            self.assertEqual(body(text), """par {
  # voice
  branch { gate 100 { volume 80 {
    note c4 1/4; note d4 1/4; note e4 1/4; note f4 1/4;
    note g4 1/4; note a4 1/4; note b4 1/4; note c5 1/4;
  } } }
}
""")

    def test_drums_are_few_branches_and_flats_are_flats(self) -> None:
        beat = [(at * 240 + off, at * 240 + off + length, key, 90) for at in range(16)
                for off, length, key in ((0, 30, 42), (0, 200 if at % 2 else 20, 36 + 2 * (at % 2)))]
        tune = [(at * 480, at * 480 + 470, key, 64) for at, key in enumerate((58, 60, 62, 63, 65, 67, 69, 70))]
        file = midi(480, [track([], 3840), track(notes(9, *beat), 3840), track(notes(0, *tune), 3840)])
        answer, text = imported(file)
        self.assertEqual(answer.status, 0, answer)
        self.assertLessEqual(text.count("branch {"), 3)
        self.assertIn("note bb3 1/4", text.replace("play bb3;", "note bb3 1/4;"))
        self.assertNotIn("ds4", text)
        self.assertNotIn("ticks", text)

    def test_a_swell_and_a_bend_are_loops_that_count(self) -> None:
        events = [*notes(0, (0, 1920, 60, 64), (1920, 3840, 62, 64)),
                  *((at * 120, bytes([0xB0, 11, 40 + 4 * at])) for at in range(16)),
                  *((1920 + at * 60, bytes([0xE0, 0, 64 + at])) for at in range(9))]
        file = midi(480, [track(sorted(events, key=lambda event: event[0]), 3840)])
        answer, text = imported(file)
        self.assertEqual(answer.status, 0, answer)
        self.assertIn("repeat 16 { control 11 (40 + 4 * n0); rest 1/16; }", text)
        self.assertIn("repeat 8 { bend (128 * n0); rest 1/32; }", text)
        self.assertEqual(text.count("branch {"), 2)
        self.assertEqual(played(text)[0], sent(events))

    def test_a_pedal_holds_what_it_held(self) -> None:
        # the note ends a tick before the pedal goes down: at one tick with it, it would be held
        file = midi(480, [track([(0, b"\x90\x3c\x40"), (479, b"\x80\x3c\x40"), (480, b"\xb0\x40\x7f"), (480, b"\x90\x3e\x40"),
                                 (900, b"\x80\x3e\x40"), (1920, b"\xb0\x40\x00")], 1920)])
        answer, text = imported(file)
        self.assertEqual(answer.status, 0, answer)
        order = [bytes(message)[:2] for tick, _, _, message in score_model.played(text.encode())[0] if tick in (479, 480)]
        self.assertLess(order.index(b"\x80\x3c"), order.index(b"\xb0\x40"))

    def test_each_note_has_its_program_where_two_take_turns_at_a_tick(self) -> None:
        events = [event for at in range(8) for event in (
            (at * 480, b"\xc0\x03"), (at * 480, b"\x90\x3c\x40"), (at * 480, b"\xc0\x05"), (at * 480, b"\x90\x43\x40"),
            (at * 480 + 400, b"\x80\x3c\x40"), (at * 480 + 400, b"\x80\x43\x40"))]
        answer, text = imported(midi(480, [track(events, 3840)]))
        self.assertEqual(answer.status, 0, answer)
        now = 0
        of_key: dict[int, set[int]] = defaultdict(set)
        for _, _, _, message in score_model.played(text.encode())[0]:
            now = message[1] if message[0] == 0xC0 else now
            if message[0] == 0x90:
                of_key[message[1]].add(now)
        self.assertEqual(of_key, {60: {3}, 67: {5}})

    def test_what_changes_nothing_is_left_out_and_counted(self) -> None:
        events = [(0, b"\xb0\x07\x64"), (0, b"\xb0\x07\x64"), *notes(0, (0, 480, 60, 64)), (480, b"\xb0\x07\x64"),
                  (480, b"\xb1\x07\x10")]
        file = midi(480, [track(events, 1920)])
        answer, text = imported(file)
        self.assertIn("3 message that changes nothing", answer.said)
        self.assertEqual(text.count("control"), 1)
        self.assertEqual(imported(file, "--all-messages")[1].count("control "), 3)  # two at one tick are one
        self.assertNotIn("control", imported(file, "--without", "7")[1])

    def test_a_part_on_no_grid_stays_and_the_grid_is_told_that_moves_it_least(self) -> None:
        draw = random.Random(1)
        begins = [max(0, at * 240 + draw.randrange(-40, 41)) for at in range(80)]
        file = midi(480, [track(notes(0, *((at, at + 100, 60 + at % 12, 64) for at in begins)), 80 * 240 + 480)])
        answer, text = imported(file)
        self.assertEqual(answer.status, 0, answer)
        self.assertRegex(answer.said, "its onsets stay; --grid 1/8 would move them by [0-9]+ ticks in the mean, 40 at most")
        self.assertEqual(sorted(tick for tick, message in played(text)[0] if message[0] == 0x90), sorted(begins))
        answer, text = imported(file, "--grid", "1/8")
        self.assertEqual(sorted(tick for tick, message in played(text)[0] if message[0] == 0x90),
                         [at * 240 for at in range(80)])

    def test_what_has_no_word_is_told(self) -> None:
        file = midi(480, [track([(0, meta(0x05, b"la")), (0, bytes([0x90, 60, 64])), (0, b"\xd0\x40"),
                                 (10, b"\xf0\x02\x01\xf7"), (240, bytes([0x80, 60, 7])), (240, bytes([0x80, 61, 64])),
                                 (480, bytes([0x90, 62, 64]))], 960)])
        for words in ((), ("--exact",)):
            answer, _ = imported(file, *words)
            self.assertEqual(answer.status, 0, answer.complaint)
            for line in ("1 lyric", "1 channel pressure", "1 system exclusive message", "1 note-off without a note",
                         "1 release velocity other than 64", "1 note without an end"):
                self.assertIn(line, answer.said)

    def test_bad_input_is_refused_with_a_sentence_and_the_old_file_stays(self) -> None:
        none = midi(480, [track([], 480)])
        odd = midi(480, [track([(0, meta(0x58, bytes([17, 5, 24, 8]))), *notes(0, (0, 480, 60, 64))], 1920)])
        for file, words, status in (
                (b"RIFF", (), 1), (none[:12] + b"\0\0" + none[14:], (), 1), (b"MThd" + bytes(9_000_000), (), 1),
                (none, ("--grid", "1/7"), 2), (none, ("--velocities", "x"), 2), (none, (), 0), (odd, (), 0)):
            with tempfile.TemporaryDirectory() as folder:
                source, target = pathlib.Path(folder, "in.mid"), pathlib.Path(folder, "out.score")
                source.write_bytes(file)
                target.write_text("kept")
                answer = score("import", source, target, *words)
                self.assertEqual((answer.status, target.read_text() == "kept"), (status, status != 0), answer)

    def test_divisions_from_1_to_32767(self) -> None:
        for division in (1, 89, 1024, 32_767):
            even = notes(0, *((at * division, (at + 1) * division, 60 + at, 64) for at in range(8)))
            answer, text = imported(midi(division, [track(even, 8 * division)]))
            self.assertEqual(answer.status, 0, answer)
            self.assertEqual([tick for tick, message in played(text)[0] if message[0] == 0x90], [at * 480 for at in range(8)])


@needs_program
class Exactly(unittest.TestCase):
    def test_the_waltz_plays_its_events_and_its_tempo_is_a_shape(self) -> None:
        answer, text = imported(WALTZ, "--exact")
        self.assertEqual((answer.status, answer.complaint), (0, ""))
        self.assertIn("put `warp tempo {` and `}` round the `par`.\nformula 2; division 96;\nshape tempo = flat 500/1 by 800;", text)
        wanted = [(event.tick, event.message) for event in listing(WALTZ).events if event.message[0] < 0xF0]
        self.assertEqual(played(text), (sent(wanted), 96 * 12))

    def test_its_comments_count_its_bars(self) -> None:
        for words in ((), ("--exact",)):
            with tempfile.TemporaryDirectory() as folder:
                path = pathlib.Path(folder, "waltz.score")
                path.write_text(imported(WALTZ, *words)[1])
                answer = score("bars", path, "--meter", "3/4")
            self.assertEqual(answer.status, 0, answer.said)

    def test_a_division_that_a_score_cannot_have(self) -> None:
        even = notes(0, (0, 512, 60, 64), (1024, 2048, 62, 64))
        answer, text = imported(midi(1024, [track(even, 2048)]), "--exact")
        self.assertIn("written with 512; no event moves", answer.said)
        self.assertEqual(played(text)[0], sent((tick // 2, message) for tick, message in even))
        odd = notes(0, (0, 511, 60, 64), (1024, 2047, 62, 64))
        answer, text = imported(midi(1024, [track(odd, 2048)]), "--exact")
        self.assertIn("written with 512, each length 2 times as long; no tick moves", answer.said)
        self.assertIn("formula 2; division 512;\nshape tempo = flat 488/1 by 500;\n", text)  # 999,424 ticks
        self.assertEqual(played(text)[0], sent(odd))
        prime = notes(0, (0, 1021, 60, 64), (1022, 2041, 62, 64))
        answer, text = imported(midi(1021, [track(prime, 2042)]), "--exact")
        self.assertEqual((answer.status, text), (1, None))
        self.assertIn("without --exact they move", answer.complaint)

    def test_a_file_of_silence_is_longer_than_any_length(self) -> None:
        answer, text = imported(midi(480, [track([], 3_000_001)]), "--exact")
        self.assertEqual(answer.status, 0, answer.said)
        self.assertEqual(text.split("\n")[-3:], ["repeat 3 { rest 3125/6; }", "rest ticks 1;", ""])

    def test_what_differs_first_is_told(self) -> None:
        late = re.sub(rb"\x90\x49\x40", b"\x90\x4a\x40", WALTZ)
        found = made(listing(WALTZ), "in.mid", Choices(is_exact=True), lambda text: listing(late), lambda what: None)
        self.assertFalse(found.is_good)
        self.assertIn("first tick 96, channel 0, note-on 73 64: not played", " ".join(found.lines))


class Steps(unittest.TestCase):
    def test_the_nearest_place_of_a_grid(self) -> None:
        self.assertEqual([Grid().nearest(tick, 480) for tick in (0, 1, 29, 61, 41, 95, 479)], [0, 0, 30, 60, 40, 96, 480])
        self.assertEqual([Grid((16, 24)).nearest(tick, 480) for tick in (100, 101)], [80, 120])
        self.assertEqual(Grid((4,)).nearest(1, 1), 480)

    def test_a_grid_that_begins_elsewhere(self) -> None:
        self.assertLessEqual(abs(shift_of([at * 120 + 17 for at in range(64)], 480) - 17), 2)
        self.assertEqual(shift_of([at * 120 for at in range(64)], 480), 0)

    def test_the_clock_of_a_converter(self) -> None:
        clock = clock_of([round(at * 26.25) for at in range(300) if at % 3 != 1], 89)
        assert clock is not None
        self.assertAlmostEqual(clock.step, 26.25, 2)
        draw = random.Random(3)
        self.assertIsNone(clock_of(sorted({draw.randrange(89 * 100) for _ in range(300)}), 89))

    def test_velocities_are_few_and_near(self) -> None:
        found = few_velocities([60, 61, 62, 63, 64, 64, 90, 101], 4)
        self.assertEqual(found, {60: 64, 61: 64, 62: 64, 63: 64, 64: 64, 90: 90, 101: 100} | {
            velocity: found[velocity] for velocity in found if abs(found[velocity] - velocity) <= 4})
        self.assertEqual(len({found[velocity] for velocity in (60, 61, 62, 63, 64)}), 1)
        self.assertEqual(few_velocities([60, 61], 0), {60: 60, 61: 61})
        self.assertEqual(few_velocities([60, 90, 120], 127), {60: 64, 90: 96, 120: 127})  # mp, f, fff

    def test_flats_and_sharps(self) -> None:
        f_major = [65, 67, 69, 70, 72, 74, 76]
        self.assertEqual(key_of(f_major, []), -1)
        self.assertEqual(key_of([key + 4 for key in f_major], []), 3)  # A major
        self.assertEqual(key_of(f_major, [2]), 2)
        self.assertEqual([names_of(-1, f_major)[key] for key in (70, 63, 66)], ["bb4", "eb4", "fs4"])
        self.assertEqual([names_of(3, [])[key] for key in (61, 66, 68, 5)], ["cs4", "fs4", "gs4", "key 5"])


class Maker:
    """Random files: lines, chords, notes that overlap or have no length, and messages among them."""

    def __init__(self, seed: int):
        self.random = random.Random(seed)

    def line(self, channel: int, division: int) -> Events:
        draw = self.random
        tick, found = draw.choice([0, 0, draw.randrange(division)]), []
        step = draw.choice([division // 4, division // 2, division, 7])
        loud = draw.choice([[64], [80, 60], list(range(1, 127))])
        pattern = [(draw.randrange(30, 90), draw.choice([step, 2 * step, step // 2, 1, 0, step - 1, 5 * step]))
                   for _ in range(draw.randrange(1, 9))]
        for at in range(draw.randrange(1, 60)):
            key, sounds = pattern[at % len(pattern)]
            for high in draw.choice([(0,), (0,), (0, 4, 7)]):
                found.append((tick, tick + sounds, key + high, draw.choice(loud)))
            tick += draw.choice([step, step, 2 * step, draw.randrange(1, 50)])
        events = notes(channel, *found)
        for _ in range(draw.choice([0, 2, 30])):
            at = draw.randrange(tick + 1)
            message = draw.choice([bytes([0xB0 | channel, draw.randrange(120), draw.randrange(128)]),
                                bytes([0xC0 | channel, draw.randrange(128)]),
                                bytes([0xE0 | channel, draw.randrange(128), draw.randrange(128)])])
            events.append((at, message))
        return sorted(events, key=lambda event: event[0])

    def file(self) -> tuple[bytes, Events, int, int]:
        """The bytes of a file, its events, its ticks a quarter note, and its end."""
        draw = self.random
        division = draw.choice([24, 96, 120, 480, 89, 960])
        tracks = [self.line(draw.randrange(16), division) for _ in range(draw.randrange(1, 5))]
        end = max(tick for events in tracks for tick, _ in events) + draw.choice([0, 1, division])
        head = [(0, meta(0x58, bytes([draw.choice([2, 3, 4, 7]), 2, 24, 8])))] if draw.random() < 0.7 else []
        if len(tracks) == 1:
            return midi(division, [track(head + tracks[0], end)]), tracks[0], division, end
        whole = [track(head, end), *(track(events, end) for events in tracks)]
        return midi(division, whole), [event for events in tracks for event in events], division, end


@needs_program
class RandomFiles(unittest.TestCase):
    def test_the_score_plays_the_files_events(self) -> None:
        for seed in range(FILES):
            file, events, _, end = Maker(seed).file()
            for words in ((), ("--no-phrases",)):
                answer, text = imported(file, "--exact", *words)
                self.assertEqual(answer.status, 0, f"{seed}: {answer}")
                self.assertEqual(played(text), (sent(events), end), seed)

    def test_each_note_begins_within_ten_ticks_of_480(self) -> None:
        for seed in range(FILES):
            file, events, division, _ = Maker(seed).file()
            answer, text = imported(file, "--keep-clock", "--velocities", "0")
            self.assertEqual(answer.status, 0, f"{seed}: {answer}")
            shift = re.search("the whole is ([0-9]+) tick", answer.said)
            ons: tuple[dict[bytes, list[float]], ...] = defaultdict(list), defaultdict(list)
            for number, several in enumerate((events, played(text)[0])):
                for tick, message in several:
                    if message[0] >> 4 == 9 and message[2]:
                        ons[number][message].append(tick if number else tick * 480 / division)
            self.assertEqual(ons[0].keys(), ons[1].keys(), seed)
            for message, ticks in ons[0].items():
                for wanted, got in zip(sorted(ticks), sorted(ons[1][message])):
                    self.assertLessEqual(abs(wanted - got), 10.5 + (int(shift[1]) * 480 / division if shift else 0), seed)


if __name__ == "__main__":
    unittest.main()
