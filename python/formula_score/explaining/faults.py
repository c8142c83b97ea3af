"""What the command's refusals mean: the tables behind `bin/formula`, this library's exceptions
and those of docs/LANGUAGE.md, docs/MIDI_FILE.md and docs/RECORDS.md (which `scripts/pages` writes)."""

from __future__ import annotations

from typing import NamedTuple


class Fault(NamedTuple):
    """A fault of a text, of a file or of a record, by its number."""

    number: int
    means: str
    stands_at: str
    do: str


FAULTS = {fault.number: fault for fault in (
    Fault(1, "a byte that begins no token", "the byte",
          "write small letters; put other text behind `#`; numbers have no decimal point; at 1:1 of a text "
          "that begins well, save it without a byte order mark"),
    Fault(2, "a number of ten digits or more, or one that a letter or `_` follows, as `1x`",
          "its first digit", "write at most nine digits, and a blank between a number and a word"),
    Fault(3, "a token that no score has there",
          "the token; the end of the text, where it ends too early",
          "look before it, often at the end of the line above, for a missing `;`, `,`, `{`, `}` or number; "
          "`formula 1;` comes first; at the end of the text a `}` is missing, perhaps far above"),
    Fault(4, "a token that a score may have there, but that needs a 65th open brace or a 65th token of an expression",
          "the token that needs it: the word of a block, the operator, the word of a function",
          "nest less deeply; take a part of the expression into a register"),
    Fault(5, "the name of a shape or phrase that an earlier one has", "the name", "choose another name"),
    Fault(6, "`do` of no earlier phrase, `warp` of no earlier shape", "the name",
          "write its `phrase` or `shape` above; a phrase cannot bring in itself"),
    Fault(7, "a number out of its range, a 257th part or entry, a 17th pitch",
          "the number or its `-`, of `a/b` the a; of a 257th entry or part its number; the 17th pitch",
          "velocities are 1 to 127, channels 0 to 15, gates 0 to 400, keys, controllers, values and programs 0 to 127, "
          "stretches 1 to 1,000,000, divisions 24 to 960, lengths (in ticks), counts and what follows `max` 0 to "
          "1,000,000; the version is 1 or 2"),
    Fault(8, "a length `a/b` that is no whole number of ticks, as `1/7`", "the a",
          "let b divide the ticks of a whole note, 1,920 or four times the division, times a, as in `1/6`, `1/64` "
          "or `1/5`, or write `ticks N`"),
    Fault(9, "a `par` inside an `if` or a loop of a computed count", "the `par`; in a phrase the `do`",
          "of a loop write the count as a number, and put an `if` into the branches"),
    Fault(10, "a `play` or `skip` outside every `rhythm`", "the word; in a phrase the `do`",
          "put a `rhythm` round it, or write `note` or `rest`"),
    Fault(11, "`n0` to `n15` where not so many loops are open",
          "the statement's word; in a phrase the `do`",
          "put a loop round it, or count from the innermost loop, which is `n0`"),
    Fault(12, "a ninth open warp, a 17th open loop or list, both counted together, or a 65th block (a `do` "
              "counts as one)",
          "the word of the block or `do`", "nest less deeply"),
    Fault(13, "more than 4,096 processes, in version 2 more than 16,384",
          "the statement with which the limit is passed", "fork less often, or begin with `formula 2;`"),
    Fault(14, "more than 262,144 operations, once phrases and forking loops are written out", "the same",
          "repeat phrases in loops that do not fork"),
    Fault(15, "an end past 2^40 ticks", "the same", "shorten the score"),
    Fault(16, "more than 4,000,000 events", "the same", "repeat less"),
    Fault(17, "more than 16,777,216 steps", "the same", "repeat less"),
    Fault(18, "more than 1,048,576 bytes", "1:1", "shorten the text; use phrases and loops"),
)}

#: Of a file that is read, with `--list`; places are bytes, counted from 0.
FILE_FAULTS = {fault.number: fault for fault in (
    Fault(21, "the bytes begin with `RIFF`: a wrapper (RMID) encloses the file", "0",
          "take the `data` chunk out of the wrapper; most players save a plain file"),
    Fault(22, "the bytes begin otherwise than with `MThd`", "0",
          "check the name: it is another kind of file, an empty one, or a compressed one"),
    Fault(23, "the bytes end too early: a chunk passes the end of the file, or an event the end of its track; or "
              "one to seven bytes follow the last chunk",
          "that end",
          "copy or download the file again; where the program that wrote it was stopped, write it again; cut off "
          "what follows the last chunk, as a line end"),
    Fault(24, "the header says a length below 6", "4",
          "save the file again with another program"),
    Fault(25, "the format is 2, of tracks that play one after another", "8",
          "export the patterns as files of format 0 or 1, one each"),
    Fault(26, "the format is above 2", "8",
          "look for a damaged header; there is no such format"),
    Fault(27, "the division counts frames of SMPTE time", "12",
          "export with ticks (PPQ) as the time base"),
    Fault(28, "bit 7 is set in the fourth byte of a delta-time or a length", "that byte",
          "look for a damaged byte shortly before; in a sound file no quantity has five bytes"),
    Fault(29, "a status byte `F1` to `F6` or `F8` to `FE`, which no file has", "that byte",
          "it is a stream as it comes from a cable: record it with a program that writes files"),
    Fault(30, "a data byte or the type of a meta event is above `7F`", "that byte",
          "look for a message cut short before it"),
    Fault(31, "a data byte where no status is in force: at the start of a track, or behind a sysex or meta event",
          "that byte",
          "let the program that wrote it write all status bytes (no running status)"),
    Fault(32, "a track ends without End of Track", "the track's end",
          "save the file again; a track of length 0 is left where a run of `formula` ended with status 4"),
    Fault(33, "a byte follows End of Track", "that byte",
          "save the file again: the track's length is too great, or two tracks were joined"),
    Fault(34, "no chunk is a track", "the file's end",
          "save the file again with a track"),
    Fault(35, "more than 33,554,432 bytes came, which is tested before all else", "0",
          "save the file without what is no music, as samples in sysex events, or some of its tracks at a time"),
)}

#: Of a record that is audited.
RECORD_FAULTS = {fault.number: fault for fault in (
    Fault(41, "the head is not whole, or one of its numbers out of its range",
          "the byte at which that field begins: 0 `FMR1`, 4 the seats, 5 the room, 6 the lead, 10 the length of the "
          "text",
          "check the name: it is another kind of file, or a record that was cut within its text"),
    Fault(43, "no step begins here: the kind is unknown, the step is cut, or `ended` is above 1",
          "the byte, counted from the first step",
          "copy the record again, or make it anew: it was cut or damaged at this step or before it"),
    Fault(44, "this step is not allowed there: the steps are not those of a run over this score",
          "the number of the step, counted from 0",
          "make the record anew; `formula-score show` prints its steps, and docs/SCHEDULER.md says where each is "
          "allowed"),
    Fault(45, "the steps end before every event is out and every process at its end", "how many steps there are",
          "copy the record again, or make it anew: its end is missing"),
    Fault(46, "more than 67,108,864 bytes came, which is tested before all else", "0",
          "record a shorter score, or with more room and fewer workers: a longer record is written, and not audited"),
)}
