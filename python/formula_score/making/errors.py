"""What goes wrong: in a score that is made, and in a run of the command.

Each exception keeps what it was made of, so that it can be copied, pickled and handed from process to process.
"""

from __future__ import annotations


class ScoreError(ValueError):
    """A score that the command would refuse, told where it is made."""


class BarError(ScoreError):
    """A bar that is longer or shorter than its time signature says: `bar` is its number, `why` what is wrong."""

    def __init__(self, bar: int, why: str):
        super().__init__(bar, why)
        #: its number, from 1
        self.bar = bar
        #: what is wrong with it
        self.why = why

    def __str__(self) -> str:
        return f"bar {self.bar} {self.why}"


class CommandError(RuntimeError):
    """A run of the command that ended above 0: its exit `status`, its line as `said`, and `why` in more words."""

    def __init__(self, status: int, said: str, why: str):
        super().__init__(status, said, why)
        #: the exit status
        self.status = status
        #: the command's own line
        self.said = said
        #: the same in more words
        self.why = why

    def __str__(self) -> str:
        return self.why or self.said or f"the command ended with status {self.status}"


class Refused(CommandError):
    """A score text that has a fault: its `line` and `column` from 1, a column a byte, and the fault's `number`."""

    def __init__(self, said: str, why: str, line: int, column: int, number: int):
        super().__init__(3, said, why)
        self.args = (said, why, line, column, number)
        #: where its first fault stands, each from 1; a column is a byte
        self.line, self.column = line, column
        #: the fault's number, a key of `formula_score.explaining.faults.FAULTS`
        self.number = number


class FileRefused(CommandError):
    """What is no MIDI file that is read: the `byte` of its first fault, from 0, and the fault's `number`."""

    def __init__(self, said: str, why: str, byte: int, number: int):
        super().__init__(3, said, why)
        self.args = (said, why, byte, number)
        #: where its first fault stands, in bytes from 0
        self.byte = byte
        #: the fault's number, a key of `formula_score.explaining.faults.FILE_FAULTS`
        self.number = number


class RecordRefused(CommandError):
    """What is no record of a run to its end: the `place`, in bytes or in steps, and the fault's `number`."""

    def __init__(self, said: str, why: str, place: int, number: int):
        super().__init__(3, said, why)
        self.args = (said, why, place, number)
        #: where it is refused, in bytes or in steps as the fault says
        self.place = place
        #: the fault's number, a key of `formula_score.explaining.faults.RECORD_FAULTS`
        self.number = number
