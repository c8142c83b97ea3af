"""Words of other languages, signs and comments."""

from __future__ import annotations

import re
import unicodedata
from typing import Optional

from ..row import Row, row
from ..spelling import plain
from .helpers import DIGITS, P, spell



def word(to: str, others: str, example: str, places: str = "") -> Row:
    """A row for a word of the language, by what others call it."""
    return row(f"word for {to}", rf"(?:{'|'.join(others.split())})(?![a-zA-Z0-9_])", to, 1.1, places,
               f"the word here is `{to}`", example)


#: What else says a number: a digit, and letters that are read as digits.
_DIGITS = str.maketrans("oOlIà", "00110")
#: Signs that look like those of the language, beside the wide ones.
_SIGNS = str.maketrans("−–—、∕⁄÷", "---,///")
_JOINED = ("note", "repeat", "channel", "volume", "rhythm", "phrase", "branch", "control", "program")


def _digits(found: "re.Match[str]") -> Optional[str]:
    """A number in which letters are typed for digits."""
    return None if found[0].isdigit() or found[0][0] not in "0123456789O" else found[0].translate(_DIGITS)


ROWS = (
    row("letters with marks!", r"[A-Za-z]*[^\W\d_a-zA-Z]\w*", spell(plain), 0.5, "",
        "words have the letters a to z alone", "phrase ‹été→ete› { }"),
    row("a word twice", rf"({P}|[a-z]+) \1(?![a-z0-9])", r"\1", 0.9, "", "it is here twice", "note c4 ‹c4 →›1/4;"),
    word("note", "n note_on noteon pitch sound tone nota beep", "‹tone→note› c4 1/4;"),
    word("rest", "silence wait sleep pause r rests", "‹silence→rest› 1/4;"),
    word("program", "instrument patch preset voice prog program_change pc midi_program", "‹patch→program› 5;"),
    word("control", "cc controller control_change ctrl ctl midi_cc", "‹cc→control› 7 100;"),
    word("bend", "pitchbend pitch_bend pitchwheel wheel", "‹pitchbend→bend› 100;"),
    word("set", "let var int const local val define def", "‹let→set› r0 = 5;"),
    word("repeat", "loop for times do repeats iterate rpt", "‹loop→repeat› 4 { note c4 1/4; }"),
    word("do", "call run perform play use goto gosub insert", "phrase a { note c4 1/4; } ‹call→do› a;"),
    word("volume", "velocity vel vol dynamic dynamics loudness amp", "‹vel→volume› 90 { note c4 1/4; }"),
    word("gate", "legato staccato articulation duration quant", "‹quant→gate› 50 { note c4 1/4; }"),
    word("channel", "chan ch track midi_channel instrument part staff", "‹ch→channel› 1 { note c4 1/4; }"),
    word("par", "parallel together simultaneous concurrently both voices sim",
        "‹together→par› { branch { note c4 1/4; } }"),
    word("branch", "voice thread in_thread part staff track layer", "par { ‹voice→branch› { note c4 1/4; } }"),
    word("phrase", "pattern section def function fn func macro proc define sub motif melody music part theme sequence "
        "block voice", "‹pattern→phrase› a { note c4 1/4; }"),
    word("warp", "tempo stretch timewarp shape use with apply", "shape a = flat 1/1 by 900; ‹with→warp› a { note c4 "
        "1/4; }"),
    word("else", "otherwise elsif elseif", "if r0 { note c4 1/4; } ‹otherwise→else› { rest 1/4; }"),
    word("pick", "random rand rnd randint choose rrand", "set r0 = ‹rnd→pick›(12);"),
    word("seed", "random_seed use_random_seed set_seed randomize srand", "‹srand→seed› 5;"),
    word("slope", "ramp linear line glide ritardando rit rallentando accelerando accel",
        "shape a = ‹ramp→slope› 1/1 by 900 to 800;"),
    word("pause", "fermata hold wait", "shape a = ‹fermata→pause› 1/4;"),
    word("by", "at x times factor from with", "shape a = flat 1/1 ‹at→by› 900;"),
    word("to", "until till ot", "shape a = slope 1/1 by 900 ‹until→to› 800;"),
    word("}", "end endif done fi od", "repeat 2 { note c4 1/4; ‹end→}›"),
    row("capital letters!", r"[A-Za-z]*[A-Z]\w*", lambda f: f[0].lower(), 0.4, "", "words have small letters alone",
        "‹Note→note› c4 1/4;"),
    row("word and number in one!",
        r"(note|play|rest|channel|volume|gate|program|repeat|control|bend|formula|seed|do|set|warp)"
        rf"({P}|[0-9]+|[rn][0-9])",
        r"\1 \2", 0.7, "", "a blank is after the word", "‹notec4→note c4› 1/4;"),
    row("comment in marks", r"/\*.*?\*/|<!--.*?-->|\{-.*?-\}", "", 1.4, "", "a comment begins with `#`",
        "‹/* a tune */ →›note c4 1/4;"),
    row("text in quotes", r"[\^_]?[\"“„«'][^\"”“»';{}]*[\"”“»']", "", 1.3, "", "text is not in the file",
        "‹\"A tune\" →›note c4 1/4;"),
    row("bar line", r"\|[|\]]?(?! ?:)", "", 1.0, "", "a bar line is not in the file", "‹| →›note c4 1/4;"),
    row("head of others!", r"(?:[Ff]ormul[ae]?|version|score|language)[ :=]*v?([12])(?:\.[0-9]+)? ?;?", r"formula \1;",
        1.0, "formula", "a score begins with its head", "‹version→formula› 1;"),
    row("head missing!", r"(?=[a-z])(?!formula)", "formula 1;", 1.6, "formula", "a score begins with its head",
        "‹→formula 1; ›note c4 1/4;"),
    row("ellipsis", r"\.\.+|…", "", 1.5, "", "nothing is meant by it", "note c4 1/4;‹ ..→›"),
    row("number in words!", rf"({'|'.join(DIGITS)})(?![a-z0-9])", lambda f: str(DIGITS[f[1]]), 1.0, "",
        "a number has digits", "repeat ‹four→4› { }"),
    row("number of another base!", r"0x[0-9a-fA-F]+|[0-9]+e[0-9]+",
        lambda f: str(int(f[0], 16) if f[0][1] == "x" else int(float(f[0]))), 0.6, "", "numbers are decimal",
        "seed ‹0x2A→42›;"),
    row("letter in a number!", r"[0-9]*[0-9oOlIà]+(?![a-zA-Z_])", _digits, 0.9, "", "a number has digits alone",
        "volume ‹8O→80› { }"),
    row("word in two!", r"([a-z]+) ([a-z]+)", lambda f: f[1] + f[2] if f[1] + f[2] in _JOINED else None, 0.9, "",
        "no blank is within a word", "‹re peat→repeat› 4 { }"),
    row("division of version 1", r"1 ?; ?division", "2; division", 1.2, "version", "a division belongs to version 2",
        "formula ‹1→2›; division 96;"),
    row("fences of a page!", r"`+(?:[a-z]+)?", "", 0.9, "formula statement", "fences of a page are no part of a score",
        "‹```score→›\nformula 1;"),
    row("blank of another kind!", "[\u00a0\u00ad\u2000-\u200f\u2028-\u202f\u205f\u2060\u3000\ufeff\x0b\x0c\x85]+", " ",
        0.3, "", "this is a blank of another kind, or none that is seen", "note c4‹ → ›1/4;"),
    row("word and name in one", r"(do|warp|phrase|shape)([a-z]\w*)", r"\1 \2", 1.2, "", "a blank is after the word",
        "phrase tune { } ‹dotune→do tune›;"),
    row("label", r"\[[A-Za-z][a-z][A-Za-z0-9 ]*\]|[A-Z][A-Za-z]* ?[0-9]* ?:|[0-9]+[.)](?= )", "", 1.4, "statement",
        "a label is written after `#`", "‹[Verse] →›note c4 1/4;"),
    row("sign of another kind!", "[−–—，、；;∕⁄÷｛｝（）［］＝＋＊]",
        lambda f: unicodedata.normalize("NFKC", f[0]).translate(_SIGNS), 0.6, "", "this sign is typed for another one",
        "note c4 1/4‹；→;›"),
)
