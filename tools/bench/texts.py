"""Score texts of any size, in the worst shapes that are known for each part of the command.

Each function gives a text as bytes. Those that take a size give a text of at most that many bytes,
those that take a count a short text that stands for so much."""

from __future__ import annotations

from typing import Callable, Protocol


class Shape(Protocol):
    """A text of at most this size, with this ending."""

    def __call__(self, size: int, ending: bytes = b"") -> bytes: ...



MEBIBYTE = 1_048_576
MOST_OPERATIONS = 262_144
MOST_PROCESSES = 4_096
MOST_PROCESSES_OF_2 = 16_384
MOST_FILE = 33_554_432
MOST_RECORD = 67_108_864

# What a text ends with so that the command stops behind a part of its work: a brace too many is
# found by the parser, a total past its limit by the last walk of the checker.
UNREAD = b"}"
REFUSED = b"repeat 1000000{repeat 16{}}"


def generated(number: int) -> bytes:
    """The stated score of 32,000 * (number mod 125 + 1) events."""
    slope = 500 + number % 1000
    rounds = 1000 * (1 + number % 125)
    lines = [
        "formula 1;",
        f"seed {number};",
        f"shape a = slope 1/1 by 1000 to {slope}, breath 1/16, flat 2/1 by {slope};",
        "shape b = pause 1/8, flat 4/1 by 1500;",
        "par {",
    ]
    for channel in range(16):
        loop = f"repeat {rounds} {{ note key (36 + pick(60)) 1/16; }}"
        if channel % 2 == 1:
            loop = f"warp b {{ {loop} }}"
        lines.append(f"branch {{ channel {channel} {{ warp a {{ {loop} }} }} }}")
    lines.append("}")
    return "".join(line + "\n" for line in lines).encode()


def filled(size: int, head: bytes, unit: bytes, tail: bytes, ending: bytes = b"") -> bytes:
    """The unit as often as it fits between the head and what ends the text."""
    room = size - len(head) - len(tail) - len(REFUSED)
    return head + unit * (room // len(unit)) + tail + ending


def repeated(head: bytes, unit: bytes, tail: bytes) -> Shape:
    """A shape of one unit, as a function of size and ending."""

    def text(size: int, ending: bytes = b"") -> bytes:
        return filled(size, head, unit, tail, ending)

    return text


def numbered(head: bytes, unit: Callable[[int], bytes], tail: bytes = b"") -> Shape:
    """A shape whose units differ by their number, as a function of size and ending."""

    def text(size: int, ending: bytes = b"") -> bytes:
        pieces: list[bytes] = []
        left, number = size - len(head) - len(tail) - len(REFUSED), 0
        while True:
            piece = unit(number)
            left -= len(piece)
            if left < 0:
                return head + b"".join(pieces) + tail + ending
            pieces.append(piece)
            number += 1

    return text


def in_phrase(unit: bytes) -> Shape:
    """Statements in a phrase that nothing brings in: they are read, checked and kept, and add
    nothing to any total."""
    return repeated(b"formula 1;phrase p{", unit, b"}")


def tower(word: bytes, count: int, inside: bytes) -> bytes:
    """Blocks in one another."""
    return (word + b"{") * count + inside + b"}" * count


def base36(number: int) -> str:
    """A number in digits and letters."""
    digits = "0123456789abcdefghijklmnopqrstuvwxyz"
    text = ""
    while number or not text:
        text = digits[number % 36] + text
        number //= 36
    return text


def name(number: int) -> bytes:
    """A short name for a number."""
    return ("x" + base36(number)).encode()


def named_phrase(number: int) -> bytes:
    """Short names, each defined and brought in once."""
    return b"phrase " + name(number) + b"{}do " + name(number) + b";"


def long_named_phrase(number: int) -> bytes:
    """The same, with names that differ in their last letters alone."""
    long_name = b"x" * 200 + name(number)
    return b"phrase " + long_name + b"{}do " + long_name + b";"


def doubling_phrase(number: int) -> bytes:
    """Each phrase brings in the one before it twice."""
    if number == 0:
        return b"phrase x0{}"
    before = b"do " + name(number - 1) + b";"
    return b"phrase " + name(number) + b"{" + before + before + b"}"


def slopes(count: int, part: bytes) -> bytes:
    """A shape of so many equal parts."""
    return b"shape a=" + b",".join([part] * count) + b";"


# 256 parts that are all passed by a body of 300 ticks, which they leave as long as it is.
PARTS = slopes(256, b"slope ticks 1 by 1000 to 1001")

LONG_PARTS = slopes(256, b"slope ticks 1000 by 1000 to 1001")

# 63 and 64 tokens.
SUM = b"set r0=" + b"1+" * 31 + b"1;"
SIGNS = b"set r0=" + b"-" * 63 + b"1;"
BRACKETS = b"set r0=" + b"(" * 31 + b"1" + b")" * 31 + b";"

# The shapes of texts by name. Each is a function of the size in bytes and of the ending.
SHAPES = {
    "flat": repeated(b"formula 1;rhythm[1/4]{", b"skip;", b"}"),
    "deepest": repeated(b"formula 1;", tower(b"gate 9", 64, b"rest 0/1;"), b""),
    "phrases": numbered(b"formula 1;", doubling_phrase),
    "sums": repeated(b"formula 1;", SUM, b""),
    "signs": repeated(b"formula 1;", SIGNS, b""),
    "brackets": repeated(b"formula 1;", BRACKETS, b""),
    "choices": in_phrase(b"if 1{}"),
    "deep choices": in_phrase(tower(b"if 1", 63, b"")),
    "loops": in_phrase(b"repeat 1{}"),
    "deep loops": in_phrase(tower(b"repeat 1", 16, b"set r0=n15;")),
    "lists": in_phrase(b"artic[1]{}"),
    "long lists": in_phrase(b"artic[" + b"1," * 255 + b"1]{}"),
    "rhythms": in_phrase(b"rhythm[" + b"1/1," * 255 + b"1/1]{}"),
    "chords": in_phrase(b"note " + b"c4," * 15 + b"c4 0/1;"),
    "computed chords": in_phrase(b"note " + b"key(1)," * 15 + b"key(1) 0/1;"),
    "bends": in_phrase(b"bend(1);"),
    "forks": in_phrase(b"par{branch{}branch{}branch{}branch{}}"),
    "names": numbered(b"formula 1;", named_phrase),
    "long names": numbered(b"formula 1;", long_named_phrase),
    "shapes": numbered(
        b"formula 1;", lambda number: PARTS.replace(b" a=", b" " + name(number) + b"=")
    ),
    "deformations": repeated(
        b"formula 1;" + PARTS, tower(b"warp a", 8, b"rest ticks 300;"), b""
    ),
    "comments": repeated(b"formula 1;", b"#\n", b""),
}

# The shapes that the aim on 1 MiB is measured on.
AIMED = ["flat", "deepest", "phrases", "names"]
COMPARED = [*AIMED, "deep choices", "computed chords"]

# At the end of the phrases: one of them is brought in, and stands for 2^40 others.
BROUGHT_IN = b"do x40;"


def operations(count: int) -> bytes:
    """About so many operations of one process, all of phrases that are written out."""
    size = int(count**0.5) - 1
    body = b"rest 0/1;" * size
    return b"formula 1;phrase q{" + body + b"}" + b"do q;" * (count // (size + 1) - 1)


def loops_written_out(count: int) -> bytes:
    """About so many operations, all of loops inside fourteen loops."""
    body = b"repeat 1{}" * 500
    times = (count - 32) // 1001
    return (
        b"formula 1;phrase q{" + body + b"}" + tower(b"repeat 1", 14, b"do q;" * times)
    )


def rounds_written_out(count: int) -> bytes:
    """So many operations in the totals: rounds of a loop inside fourteen loops, all written out."""
    inner = b"repeat %d{repeat 0{par{branch{}}}}" % ((count - 32) // 2)
    return b"formula 1;" + tower(b"repeat 1", 14, inner)


def rounds_over_text(size: int, rounds: int) -> bytes:
    """A text of at most this size: a loop of so many rounds, in which stands a loop that is never
    entered, whose fork comes at the end of a long block."""
    head = b"formula 1;repeat %d{repeat 0{rhythm[1/1]{" % rounds
    return filled(size, head, b"skip;", b"}par{branch{}}}}")


def branches(count: int) -> bytes:
    """So many processes, all of one fork."""
    return b"formula 1;par{" + b"branch{}" * (count - 2) + b"}"


def forks_in_turn(count: int) -> bytes:
    """So many processes, one after another."""
    return b"formula 1;repeat %d{par{branch{}}}" % ((count - 1) // 2)


def sounding_branches(count: int) -> bytes:
    """So many processes of version 2, all of one fork, with a note each."""
    return b"formula 2;par{" + b"branch{note c4 ticks 9;}" * (count - 2) + b"}"


def tied_branches(count: int) -> bytes:
    """So many processes of version 2, all of one fork, with a note each whose note-off comes at the tick of its note-on:
    with room for one event each of them waits until those before it are at their ends."""
    return b"formula 2;par{" + b"branch{note c4 ticks 1;}" * (count - 2) + b"}"


def sounding_in_turn(count: int) -> bytes:
    """So many processes of version 2, or one less, one after another, with a note in each second one."""
    return b"formula 2;repeat %d{par{branch{note c4 ticks 9;}}}" % ((count - 1) // 2)


def forks_in_branches(count: int) -> bytes:
    """So many processes, 3 * 2^depth - 2 for some depth, in branches that fork in two."""
    depth = ((count + 2) // 3).bit_length() - 1
    phrases = b"phrase p0{}" + b"".join(
        b"phrase p%d{par{branch{do p%d;}branch{do p%d;}}}" % (level, level - 1, level - 1)
        for level in range(1, depth + 1)
    )
    return b"formula 1;" + phrases + b"do p%d;" % depth


def notes(count: int) -> bytes:
    """So many events of one process."""
    return b"formula 1;repeat 2{repeat %d{note c4 ticks 1;}}" % (count // 4)


def overlapping_chords(count: int) -> bytes:
    """So many events of one process: chords of sixteen pitches, each of which cuts the one before it."""
    pitches = b"c3,d3,e3,f3,g3,a3,b3,c4,d4,e4,f4,g4,a4,b4,c5,d5"
    return b"formula 1;gate 400{repeat %d{note %b ticks 1;}}" % (count // 32, pitches)


def overlapping_in_parts(count: int) -> bytes:
    """So many events of one process, whose notes sound on over those behind them through 256 parts."""
    return b"formula 1;" + LONG_PARTS + b"warp a{gate 400{repeat %d{note c4 ticks 1;}}}" % (count // 2)


def long_rests() -> bytes:
    """1,100,000 rests that end at the last tick."""
    rests = b"repeat 1000000{rest ticks 1000000;}repeat 99511{rest ticks 1000000;}"
    return b"formula 1;" + rests + b"rest ticks 627776;"


def silent_steps(count: int) -> bytes:
    """About so many steps of one process without an event."""
    return b"formula 1;repeat %d{repeat 1000000{rest ticks 0;}}" % (count // 2_000_000)


def levels(count: int) -> bytes:
    """So many times in and out of a deformation of 256 parts."""
    inner = b"repeat %d{warp a{rest ticks 300;}}" % (count // 4)
    return b"formula 1;" + PARTS + b"repeat 4{" + inner + b"}"


def deep_branches(branches: int, rounds: int) -> bytes:
    """Branches of so many notes with computed keys and lengths, each eight deformations of 256 parts deep."""
    note = b"note key (36 + (pick(60) * 7 + n0 %% 13 * 5) / 9) ticks (40 + n0 %% 5) max 44;"
    inner = b"repeat %d{%s}" % (rounds, note.replace(b"%%", b"%"))
    for _ in range(8):
        inner = b"warp a{" + inner + b"}"
    return b"formula 1;" + LONG_PARTS + b"par{" + b"".join(b"branch{" + inner + b"}" for _ in range(branches)) + b"}"


def sparse_branches(branches: int, rounds: int) -> bytes:
    """The same where each round draws whether it is a note or, in fifteen of sixteen, a rest: much to compute, little
    to write."""
    note = b"note key (36 + (pick(60) * 7 + n0 % 13 * 5) / 9) ticks (40 + n0 % 5) max 44;"
    rest = b"rest ticks (40 + (pick(60) * 7 + n0 % 13 * 5) % 5) max 44;"
    inner = b"repeat %d{" % rounds + b"if less(pick(16), 1){" + note + b"}else{" + rest + b"}}"
    for _ in range(8):
        inner = b"warp a{" + inner + b"}"
    return b"formula 1;" + LONG_PARTS + b"par{" + b"".join(b"branch{" + inner + b"}" for _ in range(branches)) + b"}"


def steps_before_forks(count: int) -> bytes:
    """About so many steps of one process, before which 4,000 others wait."""
    start = b"par{branch{repeat %d{repeat 1000000{rest ticks 0;}}}}" % (count // 2_000_000)
    return b"formula 1;" + start + b"repeat 2000{par{branch{}}}"


def longest_file(path: str) -> int:
    """Writes a MIDI file of the greatest size that is read: notes with a status byte each, and in a second track
    without. Returns how many events it has."""
    whole, running = bytes.fromhex("00903C4030803C40"), bytes.fromhex("003C40003C00")
    end = bytes.fromhex("00FF2F00")
    count = MOST_FILE // 2 // len(whole)
    first = count * whole + end
    begin = bytes.fromhex("00903C40")
    left = MOST_FILE - 14 - 2 * 8 - len(first) - len(begin) - len(end) - 4
    again = left // len(running)
    # a text takes what is left
    text = bytes.fromhex("00FF01") + bytes([left % len(running)]) + left % len(running) * b"-"
    second = begin + again * running + text + end
    with open(path, "wb") as file:
        file.write(bytes.fromhex("4D546864000000060001000201E0"))
        for body in (first, second):
            file.write(b"MTrk" + len(body).to_bytes(4, "big") + body)
    return 2 * count + 1 + 2 * again + 1 + 2
