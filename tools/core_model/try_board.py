"""Explores the board: every interleaving of the atomic steps of two and three seats on small pieces.

    try_board.py            all pieces below, complete
    try_board.py NAME ..    these

From each state each seat makes each atomic step that the calls allow it. At every step these are checked: words,
slots and views stand for a state of the core; that state is sound; it is the one before, or what an allowed step of
the core leaves of it; no clock falls and no end is taken back. Where a line ends in `broken`, the steps follow.
"""
import sys
import time

import core
from board import Board, misspelt, released, spell, stands_for, steps, seen, IS_ENDED
from core import Line, Setting, State
from sound import broken

PLAIN = [Line([1], [], 1)]
LATE = [Line([0, 2], [], 3)]
PAIR = [Line([1], [], 2), Line([2], [0], 2)]
CHAIN = [Line([], [], 0), Line([1], [0], 1), Line([], [1], 1)]
JOIN = [Line([], [], 0), Line([], [0], 1), Line([1], [0, 1], 1)]
FORK = [Line([], [], 0), Line([0], [0], 0), Line([], [0], 0)]
SILENT_PAIR = [Line([], [], 1), Line([2], [0], 2)]

# a name; the lines, the room, the lead, the seats; the words of a place, whether seats but the first look, and
# whether seat 0 may halt
PIECES = {
    "plain": (PLAIN, 1, 0, 2, 9, True, True),
    "late": (LATE, 1, 0, 2, 9, True, False),
    "pair": (PAIR, 1, 0, 2, 2, False, False),
    "chain": (CHAIN, 1, 0, 2, 2, False, False),
    "join": (JOIN, 1, 0, 2, 2, False, False),
    "fork": (FORK, 1, 0, 2, 2, False, False),
    "plain_of_three_seats": (PLAIN, 1, 0, 3, 2, False, True),
    "late_of_three_seats": (LATE, 1, 1, 3, 2, False, False),
    "pair_of_three_seats": (SILENT_PAIR, 1, 0, 3, 2, False, False),
}


class Hall:
    """The core's states that boards stood for, each by its number."""

    def __init__(self, board):
        self.board, self.numbers, self.states, self.left = board, {}, [], {}

    def number(self, words):
        """The number of a state, and whether it is new."""
        number = self.numbers.setdefault(words, len(self.states))
        if number == len(self.states):
            self.states.append(words)
            return number, True
        return number, False

    def state(self, words):
        cells, floor, desks, due, visited, gathered, released = words
        state = State(len(cells), len(desks))
        state.tag, state.clock, state.seat, state.computed, state.taken, state.recorded = map(list, zip(*cells))
        state.floor, state.due, state.visited = floor, due, set(visited)
        state.sweep, state.paced = [list(sweep) for sweep, _ in desks], [paced for _, paced in desks]
        state.gather, state.released = list(gathered), list(released)
        return state

    def words(self, state):
        cells = zip(state.tag, state.clock, state.seat, state.computed, state.taken, state.recorded)
        desks = zip((tuple(sweep) for sweep in state.sweep), state.paced)
        return (tuple(cells), state.floor, tuple(desks), state.due, frozenset(state.visited), tuple(state.gather),
                tuple(state.released))

    def after(self, number, core_steps):
        """The number of the state that the steps leave, or the reason why one of them is refused."""
        key = number, core_steps
        if key not in self.left:
            state, found = self.state(self.states[number]), None
            for step in core_steps:
                found = core.reason(self.board.setting, state, step)
                if found:
                    break
                state = core.after(self.board.setting, state, step)
            self.left[key] = found or self.number(self.words(state))[0]
        return self.left[key]


def moves(board, state):
    """Each seat's atomic steps; and the release that seat 0 may come to owe, which is no step on a word."""
    for number in range(board.seats):
        for core_steps, new in steps(board, state, number):
            yield number, core_steps, new
    owing = released(board, state[2][0])
    if owing is not None:
        yield 0, None, (state[0], state[1], (owing,) + state[2][1:])


def turned_back(board, old, new):
    """Clocks that fall, and ends that are taken back."""
    found = []
    for process in range(board.count):
        at = board.word_at(process)
        if old[0][at] != new[0][at]:
            before, now = seen(old[0][at]), seen(new[0][at])
            found += ["clock falls"] if now[1] < before[1] else []
            found += ["end taken back"] if before[0] in IS_ENDED and now[0] not in IS_ENDED else []
    return found


def is_finished(board, state):
    return (core.piece(board.setting) == list(state[2][0].released) and not state[2][0].owes
            and all(seen(state[0][board.word_at(process)])[0] == core.DRAINED for process in range(board.count)))


class Search:
    """The states that were reached, each with the core's state and with the step that led there."""

    def __init__(self, board):
        self.board, self.hall = board, Hall(board)
        self.places, self.states, self.cores, self.came = {}, [], [], []
        self.step_count = self.finished = 0
        self.sound = set()

    def enter(self, state, came):
        """The place of a state; one that is new is looked at first."""
        place = self.places.setdefault(state, len(self.states))
        if place < len(self.states):
            return place, []
        self.states.append(state)
        self.came.append(came)
        found = misspelt(self.board, state)
        core_state = self.hall.number(stands_for(self.board, state))[0] if not found else None
        self.cores.append(core_state)
        if core_state is not None and core_state not in self.sound:
            self.sound.add(core_state)
            found = broken(self.board.setting, self.hall.state(self.hall.states[core_state]))
        return place, found

    def step(self, old, number, core_steps, new):
        """What a step breaks."""
        self.step_count += 1
        place, found = self.enter(new, (old, number, core_steps))
        if not found and core_steps is not None:
            left = self.hall.after(self.cores[old], tuple(core_steps))
            if left != self.cores[place]:
                found = [f"no step of the core: {left if isinstance(left, str) else core_steps}"]
            found += turned_back(self.board, self.states[old], new)
        return f"broken: {found}\n  {self.trace(old)}\n  seat {number}: {core_steps}" if found else None

    def trace(self, place):
        rows = []
        while self.came[place] is not None:
            place, number, core_steps = self.came[place]
            rows.append(f"seat {number}: {core_steps}")
        return "\n  ".join(reversed(rows))

    def run(self):
        if self.enter(self.board.opening(), None)[1]:
            return "broken at the opening"
        place = 0
        while place < len(self.states):
            state = self.states[place]
            self.finished += is_finished(self.board, state)
            for number, core_steps, new in moves(self.board, state):
                found = self.step(place, number, core_steps, new)
                if found:
                    return found
            place += 1
        counts = f"{place} states, {self.step_count} atomic steps, {len(self.sound)} sound states of the core"
        return counts if self.finished else f"{counts}; broken: the end is never reached"


def main(names):
    for name in names or PIECES:
        lines, room, lead, seats, words, looks, halts = PIECES[name]
        began = time.time()
        found = Search(Board(Setting(lines, room, lead), seats, words, looks, halts)).run()
        print(f"{name}: {found} ({time.time() - began:.1f} s)", flush=True)


if __name__ == "__main__":
    main(sys.argv[1:])
