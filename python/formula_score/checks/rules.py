"""The rules of lint: what each is called, how bad it is, what it says, and a text in which it finds something."""

from __future__ import annotations

from typing import NamedTuple

from .finding import REMARK, WARNING


class Rule(NamedTuple):
    """A rule. It finds something at a place of its example, which is a score behind `formula 1;` and a line end, or by
    itself."""

    name: str
    severity: str
    says: str
    example: str
    place: str
    changes: bool = False

    @property
    def text(self) -> bytes:
        """The example as a whole score."""
        return (self.example if self.example.startswith("formula") else f"formula 1;\n{self.example}").encode()


RULES = (
    # ---- what channels are sent
    Rule("drums-on-channel-10", WARNING, "drums on another channel than 9, as 10",
         "channel 10 { repeat 4 { note c2, fs2 1/8; note fs2 1/8; note d2, fs2 1/8; note fs2 1/8; } }", "2:1", True),
    Rule("melody-on-channel-9", WARNING, "on channel 9 a key that is no drum, or an instrument",
         "channel 9 { note c6 1/4; note d7 1/4; }", "2:26"),
    Rule("pedal-held", WARNING, "a pedal that goes down, and never up",
         "control 64 127; note c4 1/4; note e4 1/4;", "2:1", True),
    Rule("pedal-below-64", WARNING, "a pedal by values from 1 to 63, which are up",
         "control 64 1; note c4 1/4; control 64 0;", "2:1", True),
    Rule("bend-held", WARNING, "a bend that is never taken back", "note c4 1/4; bend 4096; note e4 1/4;", "2:14", True),
    Rule("silent-channel", WARNING, "notes while controller 7 or 11 of their channel is 0",
         "control 7 0; note c4 1/4;", "2:1"),
    Rule("channel-without-notes", WARNING, "messages to a channel that has no note",
         "channel 1 { program 40; } note c4 1/4;", "2:13"),
    Rule("bend-below-128", WARNING, "bends below 128, of 8192",
         "bend 2; note c4 1/4; bend 0; note c4 1/4;", "2:1", True),
    Rule("messages-at-one-tick", WARNING, "a loop of messages that takes no time",
         "repeat 4 { bend (n0 * 1000); } note c4 1/4; bend 0;", "2:12"),
    Rule("two-programs", WARNING, "a program that another one of its channel overtakes: which one wins, and where",
         "par { branch { program 40; note c5 1/1; } branch { program 42; note c3 1/1; } }", "2:16"),
    Rule("program-by-one", WARNING, "a program one above that of the instrument in a comment of its line",
         "program 74; # flute\nnote c5 1/4;", "2:1", True),
    # ---- keys
    Rule("key-in-two-branches", WARNING, "branches that strike a key of a channel while it sounds in another of them",
         "par { branch { note c4 1/2; } branch { note c4 1/4; } }", "2:1"),
    Rule("key-struck-again", WARNING, "a key that is struck anew while it sounds in its channel",
         "gate 200 { note c4 1/4; note c4 1/4; } rest 1/2;", "2:25"),
    Rule("pitch-twice", WARNING, "one key twice in a chord", "note c4, e4, c4 1/4;", "2:1", True),
    Rule("note-cut", WARNING,
         "a note that sounds on over the next ones, and is cut where its voice ends or by a seventeenth pitch",
         "gate 200 { note c4 1/4; }", "2:12"),
    Rule("sharp-for-flat", WARNING,
         "E sharp and A sharp (`es4`, `as4`) where the score has no other sharps that go with them: flats end in `b`",
         "note es4 1/4;", "2:6", True),
    # ---- what is computed
    Rule("register-before-par", WARNING, "a register that was set before a `par`, and is read in a branch or after it",
         "set r0 = 60; par { branch { note key (r0) 1/4; } branch { rest 1/4; } }", "2:29", True),
    Rule("register-never-set", WARNING, "a register that is read and never set", "note key (r3 + 60) 1/4;", "2:11"),
    Rule("set-not-read", WARNING, "a `set` whose value is never read",
         "repeat 4 { set r0 = 60; note key (r0) 1/8; set r0 = r0 + 2; }", "2:44"),
    Rule("register-overwritten", WARNING, "a phrase that sets a register for itself which its caller reads after it",
         "phrase a { set r0 = 60; note key (r0) 1/8; }\nset r0 = 50; note key (r0) 1/8; do a; note key (r0) 1/8;",
         "2:12"),
    Rule("draws-apart", REMARK, "a phrase that draws, in several branches which a comment calls alike",
         "phrase a { note key (60 + pick(9)) 1/4; }\npar { branch { do a; } # a canon\n"
         "branch { channel 1 { do a; } } }", "4:22"),
    Rule("length-rounded", WARNING, "a quotient as a length, with something left over",
         "repeat 7 { note c4 ticks (960 / 7) max 960; }", "2:12"),
    Rule("clamped", WARNING, "a computed key, value or bend out of its range",
         "repeat 8 { note key (60 + 12 * n0) 1/8; }", "2:12"),
    Rule("never-holds", WARNING, "a comparison or condition that never holds",
         "repeat 4 { if same(n0, 4) { note c5 1/4; } else { note c4 1/4; } }", "2:12"),
    Rule("if-below-0", REMARK, "an `if` of a difference that is below 0",
         "repeat 6 { if n0 - 3 { note c4 1/4; } else { rest 1/4; } }", "2:12"),
    Rule("always-the-same", WARNING, "an expression that can be one value alone",
         "repeat 4 { note key (60 + pick(1)) 1/4; }", "2:12"),
    Rule("seed-without-pick", REMARK, "a `seed` where nothing is drawn", "seed 7; note c4 1/4;", "2:1", True),
    # ---- blocks and lists
    Rule("unused-phrase", WARNING, "a phrase that nothing plays", "phrase a { note c4 1/4; }\nnote d4 1/4;",
         "2:8", True),
    Rule("unused-shape", WARNING, "a shape that nothing uses", "shape s = flat 1/1 by 900;\nnote d4 1/4;", "2:7", True),
    Rule("gate-below-10", WARNING, "gates below 10, which are percent", "gate 8 { note c4 1/4; }", "2:1", True),
    Rule("volume-below-10", WARNING, "velocities below 10, of 127", "volume 8 { note c4 1/4; }", "2:1", True),
    Rule("block-without-effect", WARNING, "a `volume`, `loud`, `gate`, `artic` or `rhythm` by which nothing sounds",
         "volume 90 { volume 50 { note c4 1/4; } }", "2:1", True),
    Rule("loud-list", WARNING,
         "a `loud` list that has more or fewer entries than its passage notes, and is no whole number of rounds of "
         "them; and one that rises or falls all along, and starts again",
         "loud [60, 70, 80] { repeat 4 { note c4 1/4; } }", "2:1"),
    Rule("loud-other-way", WARNING,
         "a list that gets softer where a comment or a name says louder, or the other way round",
         "loud [90, 80, 70, 60] { repeat 4 { note c4 1/4; } } # crescendo", "2:1", True),
    Rule("rhythm-left-over", WARNING, "a `rhythm` with one length over or one too few for its passage",
         "rhythm [1/4, 1/8, 1/8] { play c4; play d4; play e4; play f4; play g4; }", "2:1"),
    Rule("length-in-rhythm", WARNING,
         "a `rest` or `note` in a `rhythm` with a length of its own, which is the next one there",
         "rhythm [3/16, 1/16] { repeat 4 { play c4; rest 1/16; } }", "2:43", True),
    Rule("repeat-0", WARNING, "a loop that is played 0 times", "repeat 0 { note c4 1/4; } note d4 1/4;", "2:1", True),
    Rule("length-0", WARNING, "a note or a rest of length 0", "note c4 ticks 0; note d4 1/4;", "2:1"),
    Rule("ticks-of-480", WARNING, "ticks of a usual length at 480 a quarter note, where it has another number of them",
         "formula 2; division 96; note c4 1/4; note d4 ticks 480;", "1:38", True),
    Rule("empty-block", REMARK, "a block with nothing in it", "repeat 4 { } note d4 1/4;", "2:1", True),
    # ---- time
    Rule("branches-apart", WARNING, "branches that are equally long as written, and not as played",
         "shape hold = flat 1/4 by 1000, pause 1/4;\npar { branch { warp hold { note c4 1/2; } }\n"
         "branch { channel 1 { note e4 1/2; } } }", "4:1"),
    Rule("branches-uneven", REMARK, "a branch that ends less than a whole note before the longest one",
         "par { branch { note c4 4/1; } branch { channel 1 { note c3 15/4; } } }", "2:31"),
    Rule("tempo-inverse", WARNING, "a stretch that is upside down for the tempo of a name or a comment",
         "shape ninety = flat 500/1 by 750;\nwarp ninety { note c4 1/1; }", "2:7", True),
    Rule("tempo-in-tempo", WARNING, "a tempo inside another one: both act",
         "shape a = flat 500/1 by 1333;\nshape b = flat 500/1 by 750;\nwarp a { note c4 1/1; warp b { note c4 1/1; } }",
         "4:23"),
    Rule("outside-the-tempo", WARNING, "notes before or after the `warp` of a tempo",
         "shape a = flat 500/1 by 1333;\nwarp a { note c4 1/1; }\nnote d4 1/1;", "4:1"),
    Rule("breath-in-note", WARNING, "a breath inside a note",
         "shape air = flat 3/8 by 1000, breath 1/16;\nwarp air { note c4 1/4; note d4 1/4; }", "2:7"),
    Rule("shape-short", WARNING,
         "a shape that ends before its block, at another stretch than 1000; where the block is at least twice as long "
         "as the shape, and the shape ends in a slope, this is taken as meant",
         "shape s = flat 1/1 by 1250;\nwarp s { note c4 2/1; }", "3:1", True),
    Rule("shape-other-way", WARNING, "a shape whose name says slower, and that gets faster, or the other way round",
         "shape rit = slope 1/1 by 1500 to 1000;\nwarp rit { note c4 1/1; }", "2:7", True),
    Rule("shape-without-effect", WARNING, "a shape that changes nothing",
         "shape s = flat 1/1 by 1000;\nwarp s { note c4 1/1; }", "2:7"),
    Rule("part-not-reached", WARNING, "a pause after the end of the block, or a slope that goes on after it",
         "shape hold = flat 2/1 by 1000, pause 1/2;\nwarp hold { note c4 1/1; }", "2:7"),
    Rule("no-whole-beat", WARNING,
         "parts of a shape that are nearly whole beats: what they make, and by which numbers they are",
         "shape swing = flat 1/8 by 1333, flat 1/8 by 667;\nrepeat 4 { warp swing { note c4 1/8; note d4 1/8; } }",
         "2:7", True),
    Rule("stretch-below-10", WARNING, "stretches below 10, which are thousandths",
         "shape s = flat 1/1 by 2;\nwarp s { note c4 1/1; }", "2:7", True),
    Rule("beats-a-minute", WARNING,
         "a stretch from 30 to 300, which reads like beats a minute and is a number of thousandths",
         "shape s = flat 1/1 by 120;\nwarp s { note c4 1/1; }", "2:7", True),
    # ---- comments
    Rule("statement-in-comment", WARNING, "a statement in a comment after others",
         "note c4 1/4; # softly # note d4 1/4;", "2:14"),
    Rule("ignore-unknown", REMARK, "a comment that ignores a rule that is not there",
         "note c4 1/4; # lint: ignore nothing", "2:14"),
)

SEVERITIES = {rule.name: rule.severity for rule in RULES}
