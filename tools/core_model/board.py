"""The board as a small program: its words, its slots, what each seat knows, and the calls in atomic steps.

A state is a tuple (words, slots, seats), and nothing in it is changed in place. A seat makes one atomic step at
a time; what it does without a step on a word (a quantum, a take, a release) is done at the next one.
"""
from collections import namedtuple

import core
from core import DONE, DRAINED, ENDED, ENDED_OUT, EVERYTHING, FULL, HOME, OUT, UNBORN

TAGS = (UNBORN, HOME, FULL, OUT, ENDED, ENDED_OUT, DRAINED)
IS_ENDED = (ENDED, ENDED_OUT, DRAINED)
FLOOR_DONE = 2 ** 41

# what a seat holds: the counts as it was handed them, and where its strand is by now
Hold = namedtuple("Hold", "process computed taken clock was_ended recorded written given at")
# a seat between two atomic steps: the rest of the call that it is in, what it holds, and its view
Seat = namedtuple("Seat", "call holds paced sweep due visited gathered released owes halted")
# the slot of a process: how many events its strand gave, the strand's clock, and how many events were taken
Room = namedtuple("Room", "born given clock taken")


class Board:
    """What never changes: the setting, the number of seats, and how many words a place has."""

    def __init__(self, setting, seats, place_words=9, looks_of_all=True, halts=False):
        self.setting, self.seats, self.place_words = setting, seats, place_words
        self.looks_of_all, self.halts = looks_of_all, halts
        self.count = len(setting.lines)

    def word_at(self, process):
        return 1 + (1 + self.place_words) * process

    def place_at(self, process, word):
        return self.word_at(process) + 1 + word

    def halt_at(self):
        return self.word_at(self.count)

    def place(self, process):
        """The words of the place where a process ends: its position with its depth, and where levels begin."""
        line = self.setting.lines[process]
        return (line.end * 16 + 1,) + tuple(100 * process + level for level in range(1, self.place_words))

    def opening(self):
        words = [0] * (self.halt_at() + 1)
        words[self.word_at(0)] = spell(HOME, 0, 0)
        slots = tuple(Room(process == 0, 0, 0, 0) for process in range(self.count))
        seat = Seat((), None, 0, (), None, frozenset(), (), (), False, False)
        return tuple(words), slots, (seat,) * self.seats


def spell(tag, clock, seat):
    return clock * 256 + seat * 8 + TAGS.index(tag)


def seen(word):
    return TAGS[word % 8], word // 256, word % 256 // 8


def floor_word(floor):
    return FLOOR_DONE if floor == DONE else floor


def floor_seen(word):
    return DONE if word == FLOOR_DONE else word


def put(items, place, item):
    return items[:place] + (item,) + items[place + 1:]


def settled(seat):
    """The view once the release that it owes is made."""
    if not seat.owes:
        return seat
    return seat._replace(owes=False, due=None, gathered=(), released=seat.released + tuple(sorted(seat.gathered)))


def stands_for(board, state):
    """The state of the core, as plain tuples: cells, floor, desks, and what seat 0 keeps."""
    words, slots, seats = state
    cells = []
    for process in range(board.count):
        tag, clock, number = seen(words[board.word_at(process)])
        if tag in (OUT, ENDED_OUT):
            hold = seats[number].holds
            cells.append((tag, clock, number, hold.computed, hold.taken, hold.recorded or hold.was_ended))
        else:
            room = slots[process]
            cells.append((tag, clock, number, room.given, room.taken, tag in IS_ENDED))
    zero = seats[0]
    return (tuple(cells), floor_seen(words[0]), tuple((seat.sweep, seat.paced) for seat in seats),
            zero.due, zero.visited, zero.gathered, zero.released)


def misspelt(board, state):
    """What words, slots and views say that no state of the core can be read from."""
    words, slots, seats = state
    found = []
    for process, line in enumerate(board.setting.lines):
        tag, clock, number = seen(words[board.word_at(process)])
        held = tag in (OUT, ENDED_OUT)
        mine = [index for index, seat in enumerate(seats) if seat.holds is not None and seat.holds.process == process]
        found += ["holder"] if mine != ([number] if held else []) else []
        found += ["unborn clock"] if tag == UNBORN and clock else []
        room = slots[process]
        if not held:
            found += ["seat shown"] if number else []
            if room is None:
                found.append("not at home")
                continue
            found += ["born"] if room.born != (tag != UNBORN) else []
            found += ["strand's clock"] if room.clock != clock else []
        place = board.place(process)
        written = board.place_words if not held and tag in IS_ENDED else 0
        if held and mine == [number]:
            hold = seats[number].holds
            written = board.place_words if hold.recorded or hold.was_ended else hold.written
        for word in range(written):
            found += ["place"] if words[board.place_at(process, word)] != place[word] else []
    if words[board.halt_at()] == 1 and not seats[0].halted:
        found.append("halt")
    return found


def must_take(board, seat, number, process, computed, taken):
    """How many events of the outbox a give of this seat takes."""
    if number or process in seat.visited or seat.due is None:
        return 0
    times = board.setting.lines[process].times[taken:computed]
    return sum(seat.due == EVERYTHING or (time, process) <= seat.due for time in times)


def steps(board, state, number):
    """Every atomic step that this seat can make: the core's steps that it is, and the state that it leaves."""
    words, slots, seats = state
    owed = [("Release", len(seats[number].gathered))] if seats[number].owes else []
    seat = settled(seats[number])
    found = []

    def to(new, *core_steps, words=words, slots=slots):
        found.append((owed + list(core_steps), (words, slots, put(seats, number, new))))

    if seat.call:
        CALLS[seat.call[0]](board, words, slots, seat, number, to)
    else:
        for call in (look, pace, recall, claim, begin, hand_over, publish, halt):
            call(board, words, slots, seat, number, to)
    return found


def released(board, seat):
    """The seat once it owes a release, or None where it may not make one."""
    if seat.owes or seat.due is None or seat.call or len(seat.visited) < board.count:
        return None
    return seat._replace(owes=True)


# ---- calls of one step

def look(board, words, slots, seat, number, to):
    if number and not board.looks_of_all:
        return
    following = len(seat.sweep)
    for process in {0, following, following - 1}:
        if not 0 <= process < board.count:
            continue
        tag, clock, _ = seen(words[board.word_at(process)])
        sweep = () if process == 0 else seat.sweep
        if process == len(sweep):
            if tag == UNBORN:
                clock = max(sweep[predecessor][0] for predecessor in board.setting.lines[process].predecessors)
            sweep += ((clock, tag in IS_ENDED),)
        visited = seat.visited | {process} if number == 0 and tag in (UNBORN, DRAINED) else seat.visited
        to(seat._replace(sweep=sweep, visited=visited), ("Look", number, process))


def pace(board, words, slots, seat, number, to):
    to(seat._replace(paced=floor_seen(words[0])), ("Pace", number))


def publish(board, words, slots, seat, number, to):
    if number or seat.due is not None or len(seat.sweep) != board.count:
        return
    pair = core.least(seat.sweep)
    floor = DONE if pair is None else pair[0]
    to(seat._replace(sweep=(), due=EVERYTHING if pair is None else pair, visited=frozenset()), ("Publish",),
       words=put(words, 0, floor_word(floor)))


def halt(board, words, slots, seat, number, to):
    if board.halts and number == 0:
        to(seat._replace(halted=True), words=put(words, board.halt_at(), 1))


# ---- claim, and the exchange of the slot that follows it

def claim(board, words, slots, seat, number, to):
    if seat.holds is not None:
        return
    for process in range(board.count):
        tag, clock, _ = seen(words[board.word_at(process)])
        if tag == HOME or number == 0 and tag in (FULL, ENDED):
            new = spell(ENDED_OUT if tag == ENDED else OUT, clock, number)
            room = slots[process]
            hold = Hold(process, room.given, room.taken, clock, tag == ENDED, False, 0, room.given, room.clock)
            to(seat._replace(call=("take",), holds=hold), ("Claim", number, process),
               words=put(words, board.word_at(process), new))


def take(board, words, slots, seat, number, to):
    """The strand in the slot stays with the seat; of a process that was just begun the strand is new."""
    to(seat._replace(call=()), slots=put(slots, seat.holds.process, None))


# ---- start

def begin(board, words, slots, seat, number, to):
    if seat.holds is None:
        for process in range(board.count):
            find(board, words, slots, seat._replace(call=("find", process, 0, 0)), number, to)


def find(board, words, slots, seat, number, to):
    """The word of the next predecessor; behind the last one the exchange."""
    _, process, nth, tick = seat.call
    waits = board.setting.lines[process].predecessors
    if nth == len(waits):
        return meet(board, words, slots, seat, number, to)
    tag, clock, _ = seen(words[board.word_at(waits[nth])])
    if tag not in IS_ENDED:
        return to(seat._replace(call=()))
    to(seat._replace(call=("find", process, nth + 1, max(tick, clock))), ("Recall", number, waits[nth]))


def meet(board, words, slots, seat, number, to):
    _, process, _, tick = seat.call
    at = board.word_at(process)
    if words[at] != spell(UNBORN, 0, 0):
        return to(seat._replace(call=()))
    ends = [position(board, words, other) for other in board.setting.lines[process].predecessors]
    if max(ends) != core.start(board.setting, process) or tick != max(ends):
        raise AssertionError("a start at another place")
    hold = Hold(process, 0, 0, tick, False, False, 0, 0, tick)
    to(seat._replace(call=("take",), holds=hold), ("Start", number, process),
       words=put(words, at, spell(OUT, tick, number)))


# ---- recall

def recall(board, words, slots, seat, number, to):
    for process in range(board.count):
        tag, _, _ = seen(words[board.word_at(process)])
        if tag in IS_ENDED:
            position(board, words, process)
            to(seat, ("Recall", number, process))
        else:
            to(seat)


def position(board, words, process):
    """Where an ended process ended, from the words of its place. The loads are taken together: no step
    writes these words any more."""
    first = board.place_at(process, 0)
    if words[first:first + board.place_words] != board.place(process):
        raise AssertionError("place words that are not the process's end")
    return words[first] // 16


# ---- a quantum, record and give

def hand_over(board, words, slots, seat, number, to):
    """What the seat's strand may come to, and the first step of what follows: a place word, or the slot."""
    hold = seat.holds
    if hold is None:
        return
    if hold.recorded or hold.was_ended:
        return give(board, words, slots, seat, number, to, hold, True)
    line = board.setting.lines[hold.process]
    takes = must_take(board, seat, number, hold.process, hold.computed, hold.taken)
    for given in range(hold.computed, len(line.times) + 1):
        times = line.times[hold.computed:given]
        if any(not core.under_lead(board.setting, seat.paced, time) for time in times):
            break
        if given - hold.taken - takes > board.setting.room:
            break
        most = line.times[given] if given < len(line.times) else line.end
        for clock in {hold.clock, most} if not times else {times[-1], most}:
            moved = hold._replace(given=given, at=clock)
            give(board, words, slots, seat, number, to, moved, False)
            if given == len(line.times) and clock == line.end:
                store(board, words, slots, seat._replace(call=("store", 0), holds=moved), number, to)


def store(board, words, slots, seat, number, to):
    """One word of the place; the last one is the core's record."""
    word, hold = seat.call[1], seat.holds
    new = put(words, board.place_at(hold.process, word), board.place(hold.process)[word])
    if word + 1 < board.place_words:
        to(seat._replace(call=("store", word + 1), holds=hold._replace(written=word + 1)), words=new)
    else:
        to(seat._replace(call=(), holds=hold._replace(written=word + 1, recorded=True)),
           ("Record", number, hold.process), words=new)


def give(board, words, slots, seat, number, to, hold, ended):
    """The berth goes back to its slot first."""
    takes = must_take(board, seat, number, hold.process, hold.computed, hold.taken)
    room = Room(True, hold.given, hold.at, hold.taken + takes)
    to(seat._replace(call=("word", takes, ended), holds=hold), slots=put(slots, hold.process, room))


def word(board, words, slots, seat, number, to):
    """The word changes after it."""
    _, takes, ended = seat.call
    hold = seat.holds
    out = hold.given - hold.taken - takes
    tag = (ENDED if out else DRAINED) if ended else (FULL if out == board.setting.room else HOME)
    times = board.setting.lines[hold.process].times
    gathered = tuple((times[index], hold.process, index) for index in range(hold.taken, hold.taken + takes))
    visited = seat.visited | {hold.process} if number == 0 and seat.due is not None else seat.visited
    to(seat._replace(call=(), holds=None, visited=visited, gathered=seat.gathered + gathered),
       ("Give", number, hold.process, takes, hold.given - hold.computed, hold.at, ended),
       words=put(words, board.word_at(hold.process), spell(tag, hold.at, 0)))


CALLS = {"take": take, "find": find, "store": store, "word": word}
