#!/usr/bin/env python3
"""Audits a record by the core, and makes one.

    audit.py RECORD                            the file in hexadecimal, or 'P fault N' of a record that is refused
    audit.py --make SEATS ROOM LEAD SCORE OUT  the record of a run of one seat among so many

The text of a record is played by tools/score_model and not judged: of a text that has a fault it may say anything.
"""
import os
import sys

TOP = os.path.dirname(os.path.dirname(os.path.dirname(os.path.abspath(__file__))))
sys.path[:0] = [os.path.join(TOP, "tools", name) for name in ("core_model", "score_model", "file_model")]
import core  # noqa: E402
import file_model  # noqa: E402
import score_model  # noqa: E402

KINDS = ("Look", "Claim", "Start", "Record", "Recall", "Give", "Publish", "Pace", "Release")
# How many bytes each field of a step has.
FIELDS = {"Give": (1, 2, 1, 2, 6, 1), "Publish": (), "Pace": (1,), "Release": (4,)}
MOST_BYTES, MOST_TEXT, MOST_LEAD, MOST_SEATS, MOST_ROOM = 67_108_864, 1_048_576, 1_000_000, 17, 64


class Fault(Exception):
    """Why a record is refused."""

    def __init__(self, place, number):
        super().__init__(f"{place} fault {number}")
        self.place, self.number = place, number


def parts(data):
    """Seats, room, lead, text and steps of a record."""
    if len(data) > MOST_BYTES:
        raise Fault(0, 46)
    number = int.from_bytes
    for place, end, holds in (
        (0, 4, lambda: data[:4] == b"FMR1"),
        (4, 5, lambda: 1 <= data[4] <= MOST_SEATS),
        (5, 6, lambda: 1 <= data[5] <= MOST_ROOM),
        (6, 10, lambda: number(data[6:10], "big") <= MOST_LEAD),
        (10, 14, lambda: number(data[10:14], "big") <= min(MOST_TEXT, len(data) - 14)),
    ):
        if len(data) < end or not holds():
            raise Fault(place, 41)
    end = 14 + number(data[10:14], "big")
    return data[4], data[5], number(data[6:10], "big"), data[14:end], data[end:]


def step_at(steps, at):
    """The step that begins at this place and the place behind it, or None."""
    if not 1 <= steps[at] <= len(KINDS):
        return None
    kind, values = KINDS[steps[at] - 1], []
    at += 1
    for width in FIELDS.get(kind, (1, 2)):
        if at + width > len(steps):
            return None
        values.append(int.from_bytes(steps[at:at + width], "big"))
        at += width
    if kind == "Give":
        if values[-1] > 1:
            return None
        values[-1] = values[-1] == 1
    return (kind, *values), at


def step_bytes(step):
    kind, *values = step
    return bytes([KINDS.index(kind) + 1]) + b"".join(
        int(value).to_bytes(width, "big") for value, width in zip(values, FIELDS.get(kind, (1, 2))))


def opened(lines, seats, room, lead):
    found = [core.Line([time for time, _ in events], waits, end) for events, waits, end in lines]
    return core.Setting(found, room, lead), core.State(len(found), seats)


def audit(data):
    """The file of a record that is accepted."""
    seats, room, lead, text, steps = parts(data)
    lines = score_model.lines(text)
    setting, state = opened(lines, seats, room, lead)
    at = count = 0
    while at < len(steps):
        found = step_at(steps, at)
        if found is None:
            raise Fault(at, 43)
        step, at = found
        if core.reason(setting, state, step) is not None:
            raise Fault(count, 44)
        core.EFFECTS[step[0]](setting, state, *step[1:])
        count += 1
    if not core.is_finished(setting, state):
        raise Fault(count, 45)
    found = [lines[process][0][index] for _, process, index in state.released]
    running, division = score_model.profile(text)
    return file_model.written(division, running, found, lines[-1][2])


def run(setting, state):
    """Steps of seat 0 alone, from the opening to the end: sweep, publish, visit each process, release."""
    def take(*step):
        core.EFFECTS[step[0]](setting, state, *step[1:])
        return step

    processes = range(len(state.tag))
    while not core.is_finished(setting, state):
        for process in processes:
            yield take("Look", 0, process)
        yield take("Publish")
        yield take("Pace", 0)
        for process in processes:
            yield take("Look", 0, process)
            if core.reason(setting, state, ("Start", 0, process)) is None:
                yield take("Start", 0, process)
            elif core.reason(setting, state, ("Claim", 0, process)) is None:
                yield take("Claim", 0, process)
            else:
                continue
            times, before = setting.lines[process].times, state.computed[process]
            taken, end = core.must_take(setting, state, 0, process), before
            while (end < len(times) and end - state.taken[process] - taken < setting.room
                   and core.under_lead(setting, state.floor, times[end]) and state.tag[process] == core.OUT):
                end += 1
            if end == len(times) and state.tag[process] == core.OUT:
                yield take("Record", 0, process)
            yield take("Give", 0, process, taken, end - before, core.upper(setting, process, end), end == len(times))
        yield take("Release", len(state.gather))


def recorded(text, seats, room, lead):
    setting, state = opened(score_model.lines(text), seats, room, lead)
    steps = b"".join(map(step_bytes, run(setting, state)))
    return (b"FMR1" + bytes([seats, room]) + lead.to_bytes(4, "big") + len(text).to_bytes(4, "big") + text + steps)


def content(name):
    with open(name, "rb") as file:
        return file.read()


def main(words):
    sys.setrecursionlimit(10_000)
    if words[0] == "--make":
        with open(words[5], "wb") as file:
            file.write(recorded(content(words[4]), *map(int, words[1:4])))
        return 0
    try:
        print(audit(content(words[0])).hex())
    except Fault as fault:
        print(fault)
        return 1
    return 0


if __name__ == "__main__":
    sys.exit(main(sys.argv[1:]))
