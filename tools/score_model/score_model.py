#!/usr/bin/env python3
"""Plays a score text by the language's definitions: prints the file's bytes in hexadecimal.

    score_model.py SCORE              the whole file
    score_model.py --events SCORE     a line for each event: tick, process, index, bytes
    score_model.py --locate T P SCORE where tick T lies in each level that is open where process P starts

It is a program apart from the command: it reads an accepted score by recursive descent, plays each
statement by its meaning on whole lists, maps the marks of a warp from the inside outwards, and sorts
all events at the end. It does not judge: of a text that is refused it may say anything.
"""
import sys

from score_player import LAST, Player, mapped
from score_text import Text, tokens

__all__ = ["events_of", "file_of", "lines", "located", "performed", "played", "profile", "tokens"]


def performed(data):
    """Who played it, and the marks."""
    seed, shapes, phrases, body = Text(data).score()
    player = Player(seed, shapes, phrases)
    player.start(0)
    return player, player.passage(body)


def come_out(marks, end):
    """The events of one process, each with its tick: note-offs wait, 16 at most, and the process ends at a tick."""
    events, waiting = [], []     # what waits stands in the order in which it began

    def due(tick):
        events.extend(sorted((mark for mark in waiting if mark[0] <= tick), key=lambda mark: mark[0]))
        waiting[:] = [mark for mark in waiting if mark[0] > tick]

    def cut(tick, most):
        while len(waiting) > most:
            events.append((tick, waiting.pop(0)[1]))

    for place, (message, onset, ending) in enumerate(marks):
        if message[0] >> 4 == 8:
            waiting.append((max(onset, ending), message))
            continue
        due(onset)
        if message[0] >> 4 == 9 and (place == 0 or marks[place - 1][0][0] >> 4 != 9):
            pitches = next((offset for offset, mark in enumerate(marks[place:]) if mark[0][0] >> 4 != 9), len(marks) - place)
            cut(onset, 16 - pitches)
        events.append((onset, message))
    due(end)
    cut(end, 0)
    return events


def events_of(player, marks):
    """The events of each process, each with its tick, and where each process ends."""
    own_marks, ends = [[] for _ in range(player.born)], {player.now.number: player.now.position}
    for process, _, message, onset, ending in marks:
        if message is None:
            ends[process] = onset
        else:
            own_marks[process].append((message, onset, ending))
    return [come_out(own, ends[process]) for process, own in enumerate(own_marks)], ends


def played(data):
    player, marks = performed(data)
    found, _ = events_of(player, marks)
    events = [(tick, process, index, message) for process, own in enumerate(found)
              for index, (tick, message) in enumerate(own)]
    return sorted(events), player.now.position


def lines(data):
    """Of each process its events as (tick, message), the processes behind which it starts, and its end."""
    player, marks = performed(data)
    found, ends = events_of(player, marks)
    return [[[(tick, bytes(message)) for tick, message in own], player.waits[process], ends[process]]
            for process, own in enumerate(found)]


# ---- positions

def located(data, tick, process):
    """The line of `--locate`, or None where there is no such process."""
    starts = performed(data)[0].starts
    if process >= len(starts):
        return None
    levels, start = starts[process]
    for begun, parts in reversed(levels):
        start = begun + mapped(parts, start, True)
    line = f"process {process} levels {len(levels)} start {start} "
    positions = []
    for number, (begun, parts) in enumerate(levels):
        if begun + mapped(parts, LAST, True) < tick:
            return line + f"never {number + 1}"
        low, high = 0, LAST
        while low < high:
            middle = (low + high) // 2
            if begun + mapped(parts, middle, True) < tick:
                low = middle + 1
            else:
                high = middle
        positions.append(low)
        tick = low
    return line + " ".join(["positions", *map(str, positions)])


# ---- the file

def quantity(value):
    out = [value & 127]
    while value := value >> 7:
        out.insert(0, 128 | value & 127)
    return bytes(out)


def delta(value):
    out = b""
    while value > 0x0FFFFFFF:
        out += bytes.fromhex("FFFFFF7FFF0100")
        value -= 0x0FFFFFFF
    return out + quantity(value)


def profile(data):
    """Whether a score's file has running status, and its ticks a quarter note."""
    text = Text(data)
    text.score()
    return text.running, text.division


def file_of(events, end, running=False, division=480):
    track, last, status = bytes.fromhex("00FF510307A120"), 0, None
    for time, _, _, message in events:
        again = running and status == message[0] and time - last <= 0x0FFFFFFF
        track += delta(time - last) + bytes(message[1:] if again else message)
        last, status = time, message[0]
    track += delta(end - last) + bytes.fromhex("FF2F00")
    head = bytes.fromhex("4D546864000000060000 0001")
    return head + division.to_bytes(2, "big") + b"MTrk" + len(track).to_bytes(4, "big") + track


def main(words):
    show = words[:1] == ["--events"]
    data = open(words[-1], "rb").read()
    sys.setrecursionlimit(10000)
    if words[:1] == ["--locate"]:
        print(located(data, int(words[1]), int(words[2])) or "no such process")
        return
    events, end = played(data)
    if show:
        for time, process, index, message in events:
            print(time, process, index, bytes(message).hex())
        print("end", end)
    else:
        print(file_of(events, end, *profile(data)).hex())


if __name__ == "__main__":
    main(sys.argv[1:])
