"""What is known of a place, and is no change of the statement: nothing tries these, so each has its place."""

from __future__ import annotations

from ...language.index import musical
from ..row import fact
from .helpers import tempo_outside

COMMAND = "commands of LilyPond are none here: write by the words of the language what it does, or leave it out"

FACTS = (
    fact("seed in another place", r"seed\b", "`seed` is once, directly after the head of the score or its division: "
        "move it there", "statement", "note c4 1/4; seed 7;", first=True),
    fact("division in another place", r"division ?[0-9]", "`division` is directly after `formula 2;`: move it there",
        "statement", "formula 2; seed 5; division 96;"),
    fact("branch alone", r"branch\b", "branches are in a `par`: `par { branch { .. } branch { .. } }`", "statement",
        "branch { note c4 1/4; }", first=True),
    fact("else alone", r"else ?\{", "an `else` is directly after the block of its `if`: `if r0 { .. } else { .. }`",
        "statement", "else { note c4 1/4; }", first=True),
    fact("two channels", r",", "a setting has one number: a voice on another channel is a branch, as in `par { branch "
        "{ .. } branch { channel 1 { .. } } }`", "block", "channel 1, 2 { note c4 1/4; }"),
    fact("da capo", r"\\?(?:[Dd]\. ?[CcSs]\.|dal? segno|da_?capo|al fine|fine|coda)(?![a-z])",
        "what comes again is a phrase, as in `phrase theme { .. } do theme; do middle; do theme;`", "statement",
        "D.C. al Fine", first=True),
    fact("random list", r"\(? ?(?:choose|pick|sample|random\.choice)? ?\(? ?\[", "a value is one number: `pick(3)` "
        "draws 0, 1 or 2, and an `if` chooses by it, as in `if same(pick(3), 0) { .. }`", "value",
        "set r0 = [60, 62, 64];"),
    fact("repeat of bars", r"\|:|:\||::|\|? ?\[?[12]\.?(?= ?(?:note|do|play|rest)\b)", "a repeat is a block, as in "
        "`repeat 2 { .. }`; a second ending is an `if n0 { .. } else { .. }` in it", "statement end",
        "|: note c4 1/4; :|", first=True),
    fact("key signature", r"\\?(?:key|K ?:|key_?sig(?:nature)?) ?[A-Ga-g](?:is|es|[#b])?(?: "
        r"?\\?(?:maj|min|dur|moll|m)\w*)?(?![0-9a-z])", "a key signature is not in the file: each pitch has its sharp "
        "or flat, as in `note fs4 1/4;`", "statement", "key g major;", first=True),
    fact("octave that holds", r"[<>](?= ?(?:note|[a-g]\b))|o[0-9](?= ?[;a-g])", "no octave holds for what follows: "
        "each pitch has its own, as in `note c5 1/4;`", "statement", "> note c4 1/4;", first=True),
    fact("transposing", r"(?:use_|with_|\\)?transpos\w*|(?:up|down|higher|lower)(?![a-z])|[+-] ?[0-9]+(?= ?;)",
        "no word moves what follows: add a register to each key, as in `set r0 = 5; note key (r0 + 60) 1/4;`",
        "statement end", "use_transpose -7;", first=True),
    fact("fermata", r"\\?(?:fermata|fermate|H)(?![a-z])", "a fermata is a pause of a shape, as in `shape hold = flat "
        "1/4 by 1000, pause 1/2; warp hold { note c4 1/2; }`", "end", "note c4 1/2 fermata;", first=True),
    fact("grace note", r"\\?(?:grace|acciaccatura|appoggiatura)(?![a-z])|\{(?= ?[A-Ga-g][sb]?[0-9]* ?[}/])",
        "a grace note is a short note of its own, as in `note d4 1/32; note c4 7/32;`", "statement",
        "{d4} note c4 1/4;", first=True),
    fact("ornament", r"\\?(?:trill|mordent|turn|tr)(?![a-z])", "an ornament is written as it is played, as in `repeat "
        "6 { note e4 1/32; note d4 1/32; }`", "end statement", "note c4 1/4 trill;", first=True),
    fact("tempo in a block", r"[\\(]?(?:use_bpm|tempo|bpm)!?[ =:]*(?:1?/?4 ?= ?)?([0-9]+)", tempo_outside, "statement",
        "volume 80 { tempo 96; }"),
    fact("tempo in words", r"\\?tempo\b(?![ :=(]*[0-9♩])", "a tempo is a shape: 120,000 divided by the quarter notes a "
        "minute, as in `shape ninety = flat 500/1 by 1333;`\nand `warp ninety { .. }` round the piece", "statement",
        "tempo allegro;", first=True),
    fact("time of a clock", r"[0-9.]+ ?(?:s|secs?|seconds?)(?![a-z])", "a length is a part of a whole note, and no "
        "time: at 120 quarter notes a minute `1/4` is half a second", "near", "note c4 2 seconds;"),
    fact("two values", r"\)", "`min`, `max`, `less` and `same` take two values, as in `max(r1, 0)`", "operator",
        "set r0 = max(r1);"),
    fact("computed setting", r"\(|[rn][0-9]", "this number is written, and never computed: a list gives each note its "
        "own, as in `loud [60, 70, 80] { .. }`", "setting entry", "volume (60 + 4) { }"),
    fact("chords by name", r"\\?(?:chordmode|chords|gchord)(?![a-z])", "a chord is written by its pitches, as in "
        "`note c4, e4, g4, bb4 1/1;`", "statement", "\\chordmode { c1:7 }", first=True),
    fact("velocity of a note", r",? ?(?:vel|velocity|amp|release|attack|sustain)(?![a-z])",
        "a loudness holds for a block, as in `volume 80 { note c4 1/4; }`", "end", "note c4 1/4, release: 2;"),
    fact("loop with a condition", r"(?:while|until|forever|loop)(?![a-z])", "a loop has a count and no condition, as "
        "in `repeat 4 { .. }`", "statement count", "while 1 { }"),
    fact("other file", r""
        r"\\?(?:import|include|require|print|println|printf|puts|return|echo|log|exit|stop|break|continue)(?![a-z_])",
        "a score prints nothing, reads no other file and ends by itself: take this statement away", "statement",
        "import midi;"),
    fact("one of two values", r"[?]|if(?![a-z])", "a value has no two cases, and an `if` has: `if r1 { set r0 = 5; } "
        "else { set r0 = 6; }`", "end operator value", "set r0 = r1 ? 60 : 62;"),
    fact("value without a sign", r"abs ?\(", "`max(E, -E)` is the value without its sign", "value",
        "set r0 = abs(r1);"),
    fact("chord of letters", r"[\[<(] ?[A-Ga-g]{2,}", "the pitches of a chord have commas between them, as in `note "
        "c4, e4, g4 1/4;`", "pitch", "note [CEG] 1/4;"),
    fact("chord by its name", r"[A-Ga-g][#b♯♭]?(?:maj|min|dim|aug|sus|m|M)[0-9]*(?:/[A-G])?(?![a-z])|[A-G]7|chord\b",
        "a chord is written by its pitches, as in `note c4, e4, g4 1/2;`", "pitch", "note Cmaj7 1/2;"),
    fact("third case", r"el(?:se)? ?if|elsif", "a third case is an `if` in the block, as in `else { if r1 { .. } }`",
        "statement", "elif r1 { }", first=True),
    fact("two voices", r"<<|&&?|\\\\\\\\", "voices are branches, as in `par { branch { note c5 1/1; } branch { channel "
        "1 { note c4 1/1; } } }`", "statement", "<< { } >>", first=True),
    fact("live loop", r"live_loop|in_thread", "a loop has a count, as in `repeat 4 { .. }`, and voices are branches of "
        "a `par`", "statement", "live_loop :beat do"),
    fact("power", r"\*|\^", "there is no power: write a product, as in `2 * 2 * 2`", "value operator",
        "set r1 = 2 ** 3;", first=True),
    fact("bare voice", r"(?:note|play|rest|do|channel|volume|repeat)(?![a-z])", "each voice of a `par` is a `branch`: "
        "`par { branch { .. } branch { .. } }`", "branch", "par { note c4 1/4; }"),
    fact("bars of a rest", r"[0-9]+ ?(?:bars?|measures?|beats?)", "a length is a part of a whole note: a bar of 4/4 is "
        "`1/1`, two bars are `2/1`", "near", "rest 2 bars;"),
    fact("drum channel", r"drums?", "the drums are `channel 9` here, since channels count from 0", "near",
        "channel 10 drums { }"),
    fact("letters of ABC", r"(?:[A-Ga-gz](?:is|es|[sb#+-])?[0-9,\'/]* ){3,}|[A-G]{3,}|[a-gz0-9]{6,}(?![a-z])",
        "if these are notes, each is a statement with its octave and its length, as in `note e4 1/4;`", "statement",
        "cdefgabc"),
    fact("mark of staccato", r"-\.|-? ?\^(?= ?;)|\\?stacc\w*", "short notes are in a `gate`, as in `gate 50 { note c4 "
        "1/4; }`", "end", "note c4 1/4-.;", first=True),
    fact("mark of legato", r"\\?(?:legato|tenuto|ten|slur)(?![a-z])|--(?= ?;)", "connected notes are in a `gate`, as "
        "in `gate 100 { note c4 1/4; }`", "end", "note c4 1/4 tenuto;", first=True),
    fact("mark of an accent", r"-? ?>(?= ?;)|\\?(?:accent|marcato|sfz|sf)(?![a-z])", "an accent is an entry of a "
        "`loud` list, as in `loud [100, 64] { .. }`", "end", "note c4 1/4->;", first=True),
    fact("lyrics", r"\\?(?:lyrics|lyricmode|addlyrics|title|composer|header)(?![a-z])", "words and titles are not in "
        "the file: write them after `#`", "statement", "title \"Sonata\";", first=True),
    fact("sound", r"(?:use_|with_)?(?:synth|fx|sample|sf2|soundfont|reverb|echo)(?![a-z])",
        "sounds are chosen by a program, 0 to 127, as in `program 73;`, and effects by `control`", "statement",
        "with_fx :echo { }"),
    fact("function with values", r"\( ?[a-z0-9]", "a phrase takes no values: set a register before `do`, as in `set r0 "
        "= 5; do tune;`", "name end@do", "do tune(5, 6);"),
    fact("block alone", r"\{", "a block belongs to a word, as in `repeat 2 { .. }`: if none is missing, take this `{` "
        "and its `}` away", "statement", "{ note c4 1/4; }"),
    fact("length alone", r"[0-9]+/[0-9]+(?= ?(?:;|[a-z]))", "a length is in a statement, as in `rest 1/4;`, and a time "
        "signature is not in the file", "statement", "4/4 note c4 1/4;"),
    fact("variable", r"(?:const|var|let|int|float|double)\b", "only registers, `r0` to `r7`, have values, as in `set "
        "r0 = 5;`", "statement", "const a, b;"),
    fact("hands", r"(?:left|right|upper|lower)[ _-]?(?:hand|staff)|(?:lh|rh|soprano|alto|tenor|bass)(?= ?[:{])",
        "voices are branches, as in `par { branch { .. } branch { channel 1 { .. } } }`", "statement",
        "left hand { note c4 1/4; }", first=True),
    fact("endless loop", r"(?:inf|infinite|infinity|forever|always|-1)(?![a-z])", "a loop has a number of rounds: "
        "write a great one, as in `repeat 1000 { .. }`", "count", "repeat inf { note c4 1/4; }", first=True),
    fact("draw", r"(?:rand\w*|random\w*|choose|shuffle)", "a number at random is `pick(12)`, from 0 to 11", "value",
        "set r0 = random();"),
    fact("broken rhythm", r"[<>]{1,2}(?= ?note)", "a dotted rhythm is written by its lengths, as in `note c4 3/16; "
        "note d4 1/16;`, and an accent is an entry of `loud [100, 64]`", "end", "note a4 1/8 > note b4 1/8;",
        first=True),
    fact("swell of LilyPond", r"\\\\?[<>!]", "a crescendo is a `loud` list with an entry for each note, as in `loud [50, 60, "
        "70] { .. }`", "here", "note c4 1/4\\<;", first=True),
    fact("staccato of ABC", r"\.(?=[A-Ga-g][sb]?[0-9])", "marks are not in the file: short notes are in a `gate`, as in "
        "`gate 50 { note c4 1/4; }`", "pitch", "note .c4 1/4;", first=True),
    fact("voices by a sign", r"&(?= ?(?:note|play|rest)\b)", "voices are branches, as in `par { branch { .. } branch { "
        "channel 1 { .. } } }`", "end statement", "note c5 1/1 & note e4 1/2;", first=True),
    fact("mark before a note", r"[.~^_!+](?= ?note)", "marks are not in the file: short notes are in a `gate`, as in "
        "`gate 50 { note c4 1/4; }`", "statement", ".note g4 1/8;", first=True),
    fact("long number", r"[0-9]{10,}", "a number has at most nine digits", "here", "seed 20261201093000;", first=True),
    fact("number that adds", r"[+-] ?[0-9]", "a setting is a number of its own, and adds nothing to that of a block "
        "round it, as in `volume 80 { .. }`", "setting", "volume +10 { note c4 1/4; }", first=True),
    fact("part of its own", r"\\new\b|[A-Z][A-Za-z]+ ?(?:[0-9]+ ?)?\{", "a part of its own is a channel, as in "
        "`channel 1 { .. }`, and parts side by side are branches of a `par`", "statement",
        "\\new Staff { note c4 1/4; }", first=True),
    fact("sign of a repeat", r"[a-z]+ repeat\b|repeat (?:start|begin|end|sign)",
        "a repeat is a block, as in `repeat 2 { .. }`", "statement", "start repeat;", first=True),
    fact("command of LilyPond", r"\\\\?([a-zA-Z]+)", lambda f: None if musical(f[1].lower()) else COMMAND, "here",
        r"\override note c4 1/4;"),
    fact("setting as a register", r"(?:channel|volume|gate|tempo|program|velocity|bpm)\b",
        "a setting is no register: it is a block, as in `volume 80 { .. }`", "register", "set volume = 80;",
        first=True),
    fact("voice with a number", r"V ?:? ?[0-9]+ ?:?|voice[ _]?[0-9]+", "voices are branches, as in `par { branch { .. "
        "} branch { channel 1 { .. } } }`", "statement", "V:2 clef=bass", first=True),
    fact("volume that changes", r"(?:to|-|\.\.+|>|<|bis)(?![a-z])", "a crescendo is a `loud` list with an entry for "
        "each note, as in `loud [50, 60, 70, 80] { .. }`", "block@volume", "volume 60 to 90 { note c4 1/4; }",
        first=True),
)
