"""What is told of words, of places, and of files of other kinds."""

from __future__ import annotations

import pathlib
import re
import tempfile
import unittest

from formula_score.explaining.explain import (
    FilePlace, Place, bytes_round, excerpt, explanation, file_place_of, file_refusal, place_of, record_place_of,
    refusal,
)
from formula_score.explaining.faults import FAULTS, FILE_FAULTS, RECORD_FAULTS
from formula_score.explaining.words import read

from .program import TOP

# Lines of words, with a `|` between two words; those of crates/fm_file_tests/src/words.rt.
REFUSED = (
    "a|b|--rounds=", "a|b|--rounds=1", "a|b|--rounds|--rounds", "a|b|--lead=", "a|b|--lead|", "a|b|--lead",
    "a|b|--lead|--", "--lead|--|a|b", "a|b|--lead|--rounds", "a|b|--lead|-", "a|b|--lead|5_0", "a|b|--lead| 5",
    "a|b|--lead|+", "a|b|--lead|++5", "a|b|--lead=5=6", "a|b|--lead|-5", "a|b|--lead=-5", "a|b|--lead=-0",
    "a|b|--lead|1000001", "a|b|--lead|18446744073709551616", "a|b|--workers|17", "a|b|--room|0", "a|b|--room|65",
    "a|b|--lead|5|--lead|5", "a|b|--lead=5|--lead|6", "a|b|--workers=1|--workers=1", "a|b|--room=1|--room=1",
    "--help", "a|b|--help", "a|b|-h", "a|b|--version", "a|b|-V", "a|b|--lea|5", "a|b|-w|5", "a|b|--ROUNDS",
    "a|b|-rounds", "a|b|--generate", "a|b|--generate=", "a|b|--generate|--rounds", "a|b|--generate|1000000000",
    "a|b|--generate|-1", "a|b|--generate|5|--generate|5", "a|b|--gen|5", "a|--generate|5", "-5|b", "a|b|--=5",
    "a|b|---", "--|a|b|--", "a|b|c", "a", "a|\udcff", "a|b|--list|--list", "a|b|--list=", "a|b|--parts=1",
    "a|b|--list|1", "a|b|--parts|--parts", "a|b|--LIST", "a|--list", "a|b|--locate", "a|b|--locate|--list",
    "a|b|--locate|1099511627777", "a|b|--process|16384", "a|b|--process|-1", "a|b|--locate|5|--locate=5",
    "a|b|--from", "a|b|--from|1099511627777", "a|b|--to|-1", "a|b|--to|5|--to|5", "a|b|--from|--to|5",
    "a|b|--record=1", "a|b|--audit|--audit", "a|b|--record|--record", "a|b|--audit=",
)
TAKEN = (
    ("a|b", "a", "b"), ("a|b|--rounds", "a", "b"), ("a|b|--lead|+5", "a", "b"), ("a|b|--lead|007", "a", "b"),
    ("a|b|--lead=0", "a", "b"), ("a|b|--lead|1000000", "a", "b"), ("a|b|--workers|16", "a", "b"),
    ("a|b|--room|64", "a", "b"), ("--lead|5|a|b", "a", "b"), ("a|--room|3|b|--rounds", "a", "b"),
    ("--lead=+5|a|--rounds|--workers|007|--|-b", "a", "-b"), ("|b", "", "b"), ("-|b", "-", "b"), ("--|a|b", "a", "b"),
    ("a|b|--", "a", "b"), ("--|--|b", "--", "b"), ("--|a|--", "a", "--"), ("--|--lead|5", "--lead", "5"),
    ("a|--rounds|--generate|124|b|--workers|0", "a", "b"), ("--|--generate|5", "--generate", "5"),
    ("a|b|--list", "a", "b"), ("--parts|a|--list|b|--generate|0", "a", "b"), ("--|--list|--parts", "--list", "--parts"),
    ("a|b|--locate=1099511627776|--process|007", "a", "b"), ("--process=16383|a|b", "a", "b"),
    ("a|b|--from|0|--to=1099511627776", "a", "b"), ("--to|7|a|b", "a", "b"),
    ("a|b|--record|--audit", "a", "b"),
)


class Words(unittest.TestCase):
    def test_refused_words_have_a_reason_and_others_none(self) -> None:
        for line in REFUSED:
            self.assertIsNotNone(read(line.split("|")).wrong, line)
        self.assertIsNotNone(read([]).wrong)
        for line, source, target in TAKEN:
            asked = read(line.split("|"))
            self.assertEqual((asked.files, asked.wrong), ((source, target), None), line)

    def test_the_task_that_counts(self) -> None:
        for line, task in (("a|b|--rounds", None), ("a|b|--parts|--list", "--list"), ("a|b|--parts", "--parts"),
                           ("a|b|--process|1", None), ("a|b|--parts|--locate|1", "--locate"),
                           ("a|b|--to|1|--from|2", "--from"), ("a|b|--to|1", "--to"), ("a|b|--to|1|--parts", "--parts"),
                           ("a|b|--locate|1|--record", "--record"), ("a|b|--list|--audit", "--audit"),
                           ("a|b|--record|--list", "--list")):
            self.assertEqual(read(line.split("|")).task, task, line)
        self.assertEqual(read("a|b|--locate|+60|--process=007".split("|")).numbers, {"--locate": 60, "--process": 7})

    def test_the_first_wrong_word_is_told(self) -> None:
        self.assertEqual(read("a|b|--lea|5|--room|0".split("|")).wrong, "there is no option '--lea'")
        self.assertEqual(read(["a", "b", "c"]).wrong, "'c' is a third file, and there are IN and OUT alone")


class Places(unittest.TestCase):
    def test_the_caret_stands_under_the_place(self) -> None:
        rows = (
            (b"formula 1;\nNote c4", Place(2, 1, 1), "2 | Note c4\n  | ^"),
            (b"\tNote", Place(1, 2, 1), "1 | \tNote\n  | \t^"),
            ("# é\n é N".encode(), Place(2, 5, 1), "2 |  é N\n  |    ^"),
            ("日本 N".encode(), Place(1, 8, 1), "1 | 日本 N\n  |      ^"),
            (b"\xff N\r\n", Place(1, 3, 1), "1 | \N{REPLACEMENT CHARACTER} N\n  |   ^"),
            (b"x" * 100 + b"N" + b"y" * 100, Place(1, 101, 1), "1 | …" + "x" * 60 + "N" + "y" * 59 + "…\n  | "
             + " " * 61 + "^"),
            (b"", Place(1, 1, 3), "1 |\n  | ^"),
        )
        for text, place, lines in rows:
            self.assertEqual(excerpt(text, place), lines)

    def test_a_line_of_the_command_is_read(self) -> None:
        self.assertEqual(place_of("formula: score refused: 12:3 fault 18\n"), Place(12, 3, 18))
        self.assertIsNone(place_of("formula: read fault"))

    def test_each_refused_example_is_explained(self) -> None:
        for console in sorted(pathlib.Path(TOP, "examples", "refused").glob("*.console")):
            place = place_of(console.read_text())
            assert place
            text = console.with_suffix(".score").read_bytes()
            lines = refusal("a.score", text, place).split("\n")
            # a `;` that is missing at the end of a line is shown there
            shown = "3:12" if console.stem == "not_expected" else f"{place.line}:{place.column}"
            self.assertRegex(lines[0], rf"^a\.score:{shown}: .+ \(fault {place.number}\)$")
            if place.number in (4, *range(9, 19)):
                self.assertIn(FAULTS[place.number].means, lines[0])
            self.assertEqual(len(lines), 4, console)

    def test_each_refused_file_is_explained(self) -> None:
        names = sorted(pathlib.Path(TOP, "examples", "files", "refused").glob("*.console"))
        places = [place for name in names for place in [file_place_of(name.read_text())] if place]
        self.assertEqual(len(places), len(names))
        self.assertEqual({place.number for place in places}, set(FILE_FAULTS) - {35})
        with tempfile.NamedTemporaryFile() as file:
            for name, place in zip(names, places):
                digits = re.sub(r"#.*", "", name.with_suffix(".hex").read_text())
                pathlib.Path(file.name).write_bytes(bytes.fromhex(digits))
                lines = file_refusal(file.name, place).split("\n")
                fault = FILE_FAULTS[place.number]
                means = ("this is a packed file, as .mxl and .mscz are, and not a MIDI file" if name.stem == "not_midi"
                         else fault.means)
                self.assertEqual(lines[0], f"{file.name}: byte {place.byte}: {means} (fault {fault.number})")
                self.assertEqual((lines[-1], len(lines)), (fault.do, 4 if digits.strip() else 2), name)

    def test_each_refused_record_is_explained(self) -> None:
        numbers = set()
        with tempfile.NamedTemporaryFile() as file:
            for name in sorted(pathlib.Path(TOP, "examples", "records", "refused").glob("*.console")):
                data = bytes.fromhex(re.sub(r"#.*", "", name.with_suffix(".hex").read_text()))
                pathlib.Path(file.name).write_bytes(data)
                lines = explanation(3, name.read_text(), [file.name, "out", "--audit"]).split("\n")
                place = record_place_of(name.read_text())
                if place is None:
                    self.assertTrue(lines[0].startswith(f"{file.name}, its score:1:11: "), lines)
                    continue
                fault = RECORD_FAULTS[place.number]
                numbers.add(place.number)
                self.assertTrue(lines[0].startswith(f"{file.name}: "), lines)
                self.assertEqual(len(lines), {44: 3, 45: 2}.get(place.number, 4), name)
                if name.stem != "no_record":
                    self.assertTrue(lines[0].endswith(f"{fault.means} (fault {fault.number})"), lines)
                    self.assertEqual(lines[-1], fault.do, name)
                if name.stem == "end_that_is_not_recorded":
                    self.assertEqual(lines[1], "1 4 Give seat 0 process 0 taken 0 computed 0 clock 0 ended")
        self.assertEqual(numbers, set(RECORD_FAULTS) - {46})

    def test_a_file_of_another_kind_is_told(self) -> None:
        score, file, record = b"# A tune\nformula 1; note c4 1/4;", b"MThd\0\0\0\6", b"FMR1\1"
        text, listed, audited = "formula: score refused: 1:1 fault 1", "formula: file refused: byte 0 fault 22", \
            "formula: record refused: 0 fault 41"
        rows: tuple[tuple[bytes, str, list[str], str, str], ...] = (
            (file, text, [], "this is a MIDI file, and not a score", "add `--list`, which lists its events"),
            (record, text, [], "this is the record of a run, and not a score",
             "add `--audit`, which checks it and makes its file"),
            (score, listed, ["--list"], "this is a score, and not a MIDI file",
             "take `--list` away, and the score is played into a MIDI file"),
            (record, listed, ["--list"], "this is the record of a run, and not a MIDI file",
             "write `--audit` in place of `--list`, which checks it and makes its file"),
            (score, audited, ["--audit"], "this is a score, and not the record of a run",
             "write `--record` in place of `--audit`, which makes the record of a run, and audit that"),
            (file, audited, ["--audit"], "this is a MIDI file, and not the record of a run",
             "write `--list` in place of `--audit`, which lists its events"),
            (b"<?xml version='1.0'?><score-partwise/>", text, [],
             "this is a file of XML, as MusicXML is, and not a score",
             "write the score as a text that begins with `formula 1;`"),
            (b"\xef\xbb\xbfformula 1;", text, [], "this is a text with a byte order mark",
             "save the score as plain text, in ASCII or UTF-8 without a byte order mark"),
        )
        with tempfile.TemporaryDirectory() as folder:
            name = pathlib.Path(folder, "in")
            for data, said, words, heading, do in rows:
                name.write_bytes(data)
                lines = explanation(3, said, [str(name), "out", *words]).split("\n")
                self.assertIn(f": {heading} (fault ", lines[0])
                self.assertEqual(lines[-1], do)

    def test_the_caret_stands_under_the_byte(self) -> None:
        rows = (
            (b"MThd", 0, "0 | 4D 54 68 64\n  | ^^"),
            (bytes(range(40)), 20, "8 | " + bytes(range(8, 32)).hex(" ").upper() + "\n  | " + 36 * " " + "^^"),
            (bytes(3), 3, "0 | 00 00 00\n  |          ^^"),
        )
        for data, place, lines in rows:
            self.assertEqual(bytes_round(data, place), lines)
        self.assertEqual(file_place_of("formula: file refused: byte 0 fault 35\n"), FilePlace(0, 35))
        self.assertIsNone(file_place_of("formula: score refused: 1:1 fault 18"))

    def test_other_statuses(self) -> None:
        missing = str(TOP / "examples" / "none.score")
        self.assertEqual(explanation(0, "", ["a", "b"]), "")
        self.assertIn("No such file", explanation(2, "formula: read fault", [missing, "b"]))
        self.assertIn("Is a directory", explanation(4, "formula: write fault", ["a", str(TOP)]))
        self.assertIn("no process 3", explanation(7, "formula: no such process", "a b --locate 1 --process 3".split()))


if __name__ == "__main__":
    unittest.main()
