"""The resolved score and the played marks as plain values, of the definitions and of tools/score_model. What the model
reads as trees and names is put as in the definitions: expressions in postfix, phrases and shapes in place of names."""
from __future__ import annotations

from typing import Any

from values import NIL, Made, Pair

# What an operation of the model's trees is called among the nodes of an expression.
OPERATIONS = {"+": "Add", "-": "Subtract", "*": "Multiply", "/": "Divide", "%": "Remain", "min": "Min", "max": "Max",
              "less": "Less", "same": "Same", "negate": "Negate", "pick": "Pick"}
QUALITIES = {"volume": "loudness", "loud": "loudness", "gate": "articulation", "artic": "articulation",
             "rhythm": "duration"}
# Seed, greatest entry of a rhythm list, and statements.
Score = tuple[int, int, list[Any]]
# Process, index, message, onset, and the ending of a note-off.
Mark = tuple[int, int, "bytes | None", int, "int | None"]


# ---- of the definitions

def value(data: Any) -> Any:
    """A value without spots and proofs: a list, a name with its parts, or a number."""
    if isinstance(data, Made) and data.tag in ("item", "done"):
        return statements(data)
    if isinstance(data, Made) and data.tag in ("branch", "joined"):
        return branches(data)
    if isinstance(data, Made):
        return (data.tag, *map(value, data.args))
    if data is NIL or isinstance(data, Pair):
        return [value(part) for part in data]
    return getattr(data, "thousandths", data)


def statements(chain: Made) -> list[Any]:
    found = []
    while chain.tag == "item":
        found.append(value(chain.args[1]))
        chain = chain.args[2]
    return found


def branches(chain: Made) -> list[Any]:
    found = []
    while chain.tag == "branch":
        found.append(statements(chain.args[0]))
        chain = chain.args[1]
    return found


def setting(data: Any) -> Any:
    """What words ask for: a number or None, or the bytes of a name."""
    if isinstance(data, Made):
        return data.args[0] if data.tag == "Some" else None
    return value(data)


def score(record: Any) -> Score:
    return record.seed, record.longest, statements(record.passage)


def message_of(message: Made) -> bytes:
    """A message of the definitions as bytes, written apart from them."""
    kind = ("Off", "On", None, "Control", "Program", None, "Bend").index(message.tag)
    channel, *values = message.args
    if message.tag == "Off":
        values.append(64)
    if message.tag == "Bend":
        values = [values[0] & 127, values[0] >> 7]
    return bytes([128 + 16 * kind + channel, *values])


def marks(played: Any) -> list[Mark]:
    found = []
    for entry in played:
        message = message_of(entry.msg.args[0]) if entry.msg.tag == "Some" else None
        found.append(mark(entry.process, entry.index, message, entry.onset, entry.ending))
    return found


def mark(process: int, index: int, message: bytes | None, onset: int, ending: int) -> Mark:
    return process, index, message, onset, ending if message and message[0] >> 4 == 8 else None


# ---- of the model

class Model:
    """The statements of the model with phrases and shapes by their names."""

    def __init__(self, parsed: Any):
        seed, self.shapes, self.phrases, played = parsed
        self.longest = 0
        for body in self.phrases.values():
            # a list counts in a phrase that nothing brings in too
            self.block(body)
        played = self.block(played)
        self.score: Score = seed, self.longest, played

    def block(self, body: Any) -> list[Any]:
        return [self.statement(child) for child in body]

    def statement(self, data: Any) -> Any:
        kind, *parts = data
        if kind == "note":
            return "note", [draw(pitch) for pitch in parts[0]], span(parts[1])
        if kind == "rest":
            return "rest", span(parts[0])
        if kind == "control":
            return "send", ("control", parts[0]), draw(parts[1])
        if kind in ("program", "bend"):
            return "send", (kind,), draw(parts[0])
        if kind == "set":
            return "assign", parts[0], postfix(parts[1])
        if kind == "if":
            return "choice", postfix(parts[0]), self.block(parts[1]), self.block(parts[2])
        if kind == "repeat":
            times = ("times", parts[0]) if isinstance(parts[0], int) else ("at_most", postfix(parts[0][1]), parts[0][2])
            return "loop", times, self.block(parts[1])
        if kind == "do":
            return "phrase", self.block(self.phrases[parts[0]])
        if kind == "par":
            return "par", [self.block(branch) for branch in parts[0]]
        if kind == "warp":
            shape = [(name.capitalize(), *numbers) for name, *numbers in self.shapes[parts[0]]]
            return "warp", shape, self.block(parts[1])
        if kind == "channel":
            return "channel", parts[0], self.block(parts[1])
        if kind in ("volume", "gate"):
            return "steady", (QUALITIES[kind],), parts[0], self.block(parts[1])
        kind, entries, body = parts
        if kind == "rhythm":
            self.longest = max([self.longest, *entries])
        return "under", (QUALITIES[kind],), entries, self.block(body)


def draw(data: Any) -> Any:
    return ("given", data) if isinstance(data, int) else ("drawn", postfix(data))


def span(data: Any) -> Any:
    if data is None:
        return ("beat",)
    return ("ticks", data) if isinstance(data, int) else ("counted", postfix(data[1]), data[2])


def postfix(data: Any) -> list[Any]:
    kind, *parts = data
    if kind in ("number", "register", "index"):
        return [({"number": "Literal"}.get(kind, kind.capitalize()), parts[0])]
    return [node for part in parts for node in postfix(part)] + [(OPERATIONS[kind],)]


def model_score(model: Any, text: bytes) -> Score:
    """The score of a text by tools/score_model, which is given."""
    return Model(model.Text(text).score()).score


def model_marks(model: Any, text: bytes) -> list[Mark]:
    player, played = model.performed(text)
    return [mark(process, index, bytes(message) if message else None, onset, ending)
            for process, index, message, onset, ending in [*played, player.end()]]
