"""The messages of a piece: those that change nothing, those that hold notes, and those that change little by little."""

from __future__ import annotations

from collections import defaultdict

from .parts import Message, Part, Piece

PEDALS = range(64, 70)
#: Controllers that change little by little; between two of their messages nobody hears a 32nd.
_SMOOTH = frozenset((1, 2, 7, 8, 10, 11, 91, 93))
#: Controllers whose message acts each time: data entry, numbers of parameters, modes.
_ACTS = frozenset((6, 38, *range(96, 102), *range(120, 128)))
_MODES, _BANKS = 120, (0, 32)
#: More than a track has events: so places of all tracks have one order.
_TRACK = 100_000_000


def is_pedal(status: int, data: bytes) -> bool:
    """Whether a message may hold notes."""
    return status >> 4 == 0xB and data[0] in PEDALS


def is_smooth(status: int, data: bytes) -> bool:
    """Whether a message is one of many small steps."""
    return status >> 4 == 0xB and data[0] in _SMOOTH


def without_controllers(piece: Piece, controllers: frozenset[int]) -> int:
    """Takes out the messages of some controllers; gives how many there were."""
    before = sum(len(part.messages) for part in piece.parts)
    for part in piece.parts:
        part.messages = [each for each in part.messages if each.status >> 4 != 0xB or each.data[0] not in controllers]
    return before - sum(len(part.messages) for part in piece.parts)


def without_idle(piece: Piece) -> int:
    """Takes out messages that say again what holds already in their channel, or that stand in one without notes; gives
    how many there were."""
    order = sorted(((message.tick, part.track, message.place, number, message) for number, part in enumerate(piece.parts)
                    for message in part.messages), key=lambda item: item[:4])
    holds: dict[tuple[int, int], bytes] = {}
    idle: dict[int, set[int]] = defaultdict(set)
    for _, _, place, number, message in order:
        kind, channel, data = message.status >> 4, message.status & 15, message.data
        if kind == 0xB and data[0] in _ACTS:
            if data[0] >= _MODES:
                holds = {key: value for key, value in holds.items() if key[0] & 15 != channel}
            continue
        key = message.status, data[0] if kind == 0xB else -1
        if holds.get(key) == data:
            idle[number].add(place)
            continue
        holds[key] = data
        if kind == 0xB and data[0] in _BANKS:
            holds.pop((0xC0 | channel, -1), None)
    sounding = {part.channel for part in piece.parts if part.notes}
    for number, part in enumerate(piece.parts):
        if part.channel not in sounding:
            idle[number].update(message.place for message in part.messages)
    for number, places in idle.items():
        part = piece.parts[number]
        part.messages = [message for message in part.messages if message.place not in places]
    return sum(map(len, idle.values()))


def with_messages_together(piece: Piece) -> dict[int, tuple[Part, list[Message]]]:
    """Numbers the events of all tracks in one order, and gives the messages of a channel to its first part with notes, but
    pedals to its last one, behind whose notes they stand; gives this part and the pedals of each channel."""
    ends: dict[int, list[Part]] = {}
    for part in sorted(piece.parts, key=lambda part: not part.notes):
        ends.setdefault(part.channel, [part])
        ends[part.channel].append(part if part.notes else ends[part.channel][-1])
    together: dict[tuple[int, bool], list[Message]] = defaultdict(list)
    for part in piece.parts:
        base = part.track * _TRACK
        part.notes = [note._replace(on=base + note.on, off=base + note.off) for note in part.notes]
        for message in part.messages:
            together[part.channel, is_pedal(message.status, message.data)].append(
                message._replace(place=base + message.place))
        part.messages = []
    for (channel, is_behind), messages in together.items():
        messages.sort(key=lambda message: (message.tick, message.place))
        ends[channel][-1 if is_behind else 0].messages += messages
    for several in ends.values():
        several[-1].messages.sort(key=lambda message: (message.tick, message.place))
    return {channel: (several[-1], together[channel, True]) for channel, several in ends.items()}
