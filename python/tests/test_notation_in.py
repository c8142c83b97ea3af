"""Notation in: a MusicXML file by hand, with the notes that it has; files that are none; ABC; what MuseScore plays."""

from __future__ import annotations

import io
import pathlib
import re
import shutil
import tempfile
import unittest
import zipfile
from fractions import Fraction
from typing import Optional, Union

from formula_score.reading.reader import read
from formula_score.reading.walk import Played

from .companion import Answer, score
from .program import needs_program


def note(step: str, octave: int, duration: int, inside: str = "", alter: int = 0, before: str = "") -> str:
    """A note of a file."""
    said = f"<alter>{alter}</alter>" if alter else ""
    return (f"<note>{before}<pitch><step>{step}</step>{said}<octave>{octave}</octave></pitch><duration>{duration}</duration>"
            f"{inside}</note>")


def measure(inside: str) -> str:
    """A measure of a file."""
    return f"<measure number=\"1\">{inside}</measure>"


HEAD = ('<score-partwise version="3.1"><work><work-title>A Song</work-title></work><identification><creator type="composer">'
        'N. N.</creator></identification><part-list><score-part id="P1"><part-name>Clarinet in B♭</part-name><midi-instrument '
        'id="I1"><midi-channel>3</midi-channel><midi-program>72</midi-program></midi-instrument></score-part></part-list>')
FIRST = ("<attributes><divisions>6</divisions><key><fifths>-1</fifths></key><time><beats>2</beats><beat-type>4</beat-type></time>"
         "<transpose><diatonic>-1</diatonic><chromatic>-2</chromatic></transpose></attributes>"
         '<direction><direction-type><dynamics><f/></dynamics></direction-type><sound tempo="60"/></direction>')
BARS = (
    FIRST + note("C", 5, 6) + note("E", 5, 6, before="<chord/>") + note("F", 5, 2, alter=1) + note("G", 5, 2) + note("A", 5, 2),
    '<barline location="left"><ending number="1" type="start"/></barline><note><grace/><pitch><step>B</step><octave>4</octave>'
    '</pitch></note>' + note("D", 5, 12, '<tie type="start"/>') +
    '<barline location="right"><ending number="1" type="stop"/><repeat direction="backward"/></barline>',
    '<barline location="left"><ending number="2" type="start"/></barline>' + note("D", 5, 12, '<tie type="start"/>') +
    '<barline location="right"><ending number="2" type="discontinue"/></barline>',
    note("D", 5, 3, '<tie type="stop"/>') + note("B", 4, 3, "<notations><articulations><staccato/></articulations></notations>",
                                                 -1) + note("E", 4, 6, alter=-1))
FILE = HEAD + f'<part id="P1">{"".join(map(measure, BARS))}</part></score-partwise>'
#: From where to where each note is, in quarter notes, and its name: a whole tone lower than written, the first bar twice.
ONCE = (("0", "1", "bb4"), ("0", "1", "d5"), ("1", "4/3", "e5"), ("4/3", "5/3", "f5"), ("5/3", "2", "g5"))
NOTES = [*ONCE, ("2", "4", "c5"), *((str(Fraction(begin) + 4), str(Fraction(end) + 4), name) for begin, end, name in ONCE),
         ("6", "17/2", "c5"), ("17/2", "9", "ab4"), ("9", "10", "db4")]


def imported(data: Union[str, bytes], suffix: str, *words: object) -> tuple[Answer, Optional[str]]:
    """What the verb answers, and the text that it wrote."""
    with tempfile.TemporaryDirectory() as folder:
        source, target = pathlib.Path(folder, f"in{suffix}"), pathlib.Path(folder, "out.score")
        source.write_bytes(data.encode() if isinstance(data, str) else data)
        answer = score("import", source, target, *words)
        return answer, target.read_text() if target.exists() else None


def notes_of(text: Optional[str]) -> list[tuple[str, str, str]]:
    """The notes of a text, as of the file above."""
    walk = Played(read((text or "").encode()))
    walk.run()
    quarter = walk.reading.division
    return [(str(Fraction(each.begin, quarter)), str(Fraction(each.end, quarter)), name)
            for each in walk.happenings if each.statement.word in ("note", "play") for name in each.statement.names]


def boxed(name: str, data: str) -> bytes:
    """A container with a file."""
    out = io.BytesIO()
    with zipfile.ZipFile(out, "w") as box:
        box.writestr("META-INF/container.xml", f'<container><rootfiles><rootfile full-path="{name}"/></rootfiles></container>')
        box.writestr(name, data)
    return out.getvalue()


class MusicXml(unittest.TestCase):
    @needs_program
    def test_notes_repeats_and_what_is_left_out(self) -> None:
        files: list[tuple[Union[str, bytes], str]] = [(FILE, ".musicxml"), (boxed("song.xml", FILE), ".mxl")]
        for data, suffix in files:
            answer, text = imported(data, suffix)
            self.assertEqual((answer.status, answer.complaint), (0, ""))
            self.assertEqual(sorted(notes_of(text)), sorted(NOTES))
            for words in ("# title: A Song\n", "# composer: N. N.\n", "# Clarinet in B♭\n", "channel 2 {", "program 71;",
                          "by 2000;", "volume 96 {", "gate 50 { note ab4 1/8; }"):
                self.assertIn(words, text or "")
            self.assertIn("not played, or not as they are meant: 1 grace note", answer.said)

    def test_a_file_that_is_none_says_where_and_writes_nothing(self) -> None:
        bomb = '<?xml version="1.0"?><!DOCTYPE x [<!ENTITY a "aaaa"><!ENTITY b "&a;&a;">]><score-partwise>&b;</score-partwise>'
        cut = FILE.replace("<measure", "\n<measure").encode()[:-400]
        files: list[tuple[Union[str, bytes], str, str]] = [
                (bomb, ".musicxml", "line 1: it declares the entity 'a'"), (cut, ".musicxml", "line 5, column "),
                ("<score-timewise/>", ".xml", "it is <score-timewise>"), (b"PK\3\4", ".mxl", "the container cannot be read"),
                (boxed("song.xml", FILE)[:300], ".mxl", "the container cannot be read"),
                (FILE.replace("<divisions>6", "<divisions>0"), ".xml", "<divisions> is 0"),
                (FILE.replace("<duration>12", "<duration>long"), ".xml", "<duration> is no number: 'long'"),
                (HEAD + "</score-partwise>", ".xml", "it has no note")]
        for data, suffix, said in files:
            answer, text = imported(data, suffix)
            self.assertEqual((answer.status, answer.said, text), (1, "", None), said)
            self.assertIn(said, answer.complaint)


@needs_program
class Others(unittest.TestCase):
    def test_abc_comes_in_by_abc2midi_with_the_names_of_its_voices(self) -> None:
        if not shutil.which("abc2midi"):
            self.skipTest("NOT TRIED: apt-get install abcmidi")
        tune = ('X:1\nT:A tune\nM:2/4\nL:1/8\nQ:1/4=120\nV:one name="Tin whistle"\nV:two nm="Fiddle" clef=bass\nK:C\n'
                "V:one\nC2 E2 | G4 |]\nV:two\nC,4 | E,2 G,2 |]\n")
        answer, text = imported(tune, ".abc")
        self.assertEqual(answer.status, 0, answer.complaint)
        self.assertEqual(re.findall("^  # (.*)$", text or "", re.M), ["Tin whistle", "Fiddle"])
        self.assertEqual(notes_of(text), [("0", "1", "c4"), ("1", "2", "e4"), ("2", "4", "g4"), ("0", "2", "c3"),
                                          ("2", "3", "e3"), ("3", "4", "g3")])

    def test_by_musescore_is_what_musescore_plays(self) -> None:
        if not shutil.which("musescore3"):
            self.skipTest("NOT TRIED: apt-get install musescore3")
        answer, text = imported(FILE, ".musicxml", "--by", "musescore")
        self.assertEqual(answer.status, 0, answer.complaint)
        keys = {"bb4": 70, "d5": 74, "e5": 76, "f5": 77, "g5": 79, "c5": 72, "ab4": 68, "db4": 61}
        wanted = {(begin, keys[name]) for begin, _, name in NOTES}
        walk = Played(read((text or "").encode()))
        walk.run()
        found = {(str(Fraction(each.begin, walk.reading.division)), key) for each in walk.happenings
                 if each.statement.word in ("note", "play") for key in each.values}
        # the grace note takes its time from the note behind it
        self.assertLessEqual(wanted - {("2", 72)}, found)
        self.assertNotIn("control 2 ", text or "")


if __name__ == "__main__":
    unittest.main()
