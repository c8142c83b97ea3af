"""Files of other kinds, which are given where a score, a MIDI file or a record is asked for."""

from __future__ import annotations

import re
from typing import NamedTuple, Optional


class Kind(NamedTuple):
    """What a file is, and what to do with it where a score is asked for."""

    what: str
    do: str


SCORE = Kind("a score", "")
MIDI = Kind("a MIDI file", "add `--list`, which lists its events")
RECORD = Kind("the record of a run", "add `--audit`, which checks it and makes its file")
_OWN = "write the score as a text that begins with `formula 1;`"
_TEXT = "save the score as plain text, in ASCII or UTF-8 without a byte order mark"

_KINDS = (
    (rb"MThd", MIDI),
    (rb"RIFF....RMID", Kind("a MIDI file in a wrapper (RMID)", _OWN)),
    (rb"FMR1", RECORD),
    (rb"PK\x03\x04", Kind("a packed file, as .mxl and .mscz are", _OWN)),
    (rb"\x1f\x8b", Kind("a packed file (gzip)", "unpack it first, by `gunzip`")),
    (rb"%PDF", Kind("a PDF file", _OWN)),
    (rb"\{\\rtf", Kind("a text of a word processor (RTF)", _TEXT)),
    (rb"(?:\xef\xbb\xbf)?\s*<(?:\?xml|score-|!DOCTYPE|museScore)", Kind("a file of XML, as MusicXML is", _OWN)),
    (rb"(?:%[^\n]*\n|\s)*\\(?:version|relative|score|header|language|include)",
     Kind("a text for LilyPond", "let lilypond make a MIDI file of it, by a `\\midi` block")),
    (rb"(?:%[^\n]*\n|\s)*X: ?[0-9]", Kind("a tune in ABC", "let abc2midi make a MIDI file of it")),
    (rb"\xff\xfe|\xfe\xff", Kind("a text in UTF-16", _TEXT)),
    (rb"\xef\xbb\xbf", Kind("a text with a byte order mark", _TEXT)),
    (rb"(?:[ \t\r\n]|#[^\n]*\n)*formula\s*[0-9]", SCORE),
)


#: Kinds with a head that a score may be given by mistake, and what only a score has behind it.
_HEADED = ("a text for LilyPond", "a tune in ABC")
_STATEMENT = re.compile(rb"(?:^|[;{}\s])(?:(?:note|play|rest) [^;{}\n]*;|formula [12]\b)")


def kind_of(data: bytes) -> Optional[Kind]:
    """What a file is, by how it begins; None where that is not known."""
    kind = next((kind for pattern, kind in _KINDS if re.match(pattern, data[:4096], re.S)), None)
    return None if kind and kind.what in _HEADED and _STATEMENT.search(data[:4096]) else kind


def not_a(wanted: str, data: bytes) -> Optional[tuple[str, str]]:
    """Heading and cure, where the file is known to be of another kind than the one that is asked for."""
    kind = kind_of(data)
    if kind is None or kind.what == wanted:
        return None
    heading = f"this is {kind.what}" + ("" if kind.do == _TEXT else f", and not {wanted}")
    return heading, _DO.get((wanted, kind.what), kind.do if wanted == SCORE.what else "")


_DO = {
    (MIDI.what, SCORE.what): "take `--list` away, and the score is played into a MIDI file",
    (MIDI.what, RECORD.what): "write `--audit` in place of `--list`, which checks it and makes its file",
    (RECORD.what, SCORE.what):
        "write `--record` in place of `--audit`, which makes the record of a run, and audit that",
    (RECORD.what, MIDI.what): "write `--list` in place of `--audit`, which lists its events",
}

#: What a verb of the companion says in place of an option of the program.
BY_VERBS = {
    MIDI.do: "the verb `show` lists its events, and `import` writes a score of it",
    RECORD.do: "the verb `show` prints its steps, and `formula --audit RECORD OUT` makes its file",
    _DO[MIDI.what, SCORE.what]: "play it into a MIDI file first, by `formula SCORE OUT`",
    _DO[MIDI.what, RECORD.what]: "make its MIDI file first, by `formula --audit RECORD OUT`",
}
