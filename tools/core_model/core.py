"""The scheduling core as a small program: states, steps, reasons, effects and what is left to do.

It says the same as crates/fm_core/specs and crates/fm_hall/specs, in other words and on plain lists.
"""
import copy

UNBORN, HOME, FULL, OUT, ENDED, ENDED_OUT, DRAINED = (
    "Unborn", "Home", "Full", "Out", "Ended", "EndedOut", "Drained")
DONE = "done"          # the floor where no event is still to come; it is above every tick
EVERYTHING = "all"     # what is due where the floor is done


class Setting:
    """What never changes: the lines, the room of an outbox and the lead in ticks."""

    def __init__(self, lines, room, lead):
        self.lines, self.room, self.lead = lines, room, lead


class Line:
    """The times of one process's events, the processes it waits for, and where it ends."""

    def __init__(self, times, predecessors, end):
        self.times, self.predecessors, self.end = times, predecessors, end


class State:
    """The whole state. A sweep is a list of (clock seen, seen ended)."""

    def __init__(self, processes, seats):
        self.tag = [HOME] + [UNBORN] * (processes - 1)
        self.clock = [0] * processes
        self.seat = [0] * processes
        self.computed = [0] * processes
        self.taken = [0] * processes
        self.recorded = [False] * processes
        self.floor = 0
        self.sweep = [[] for _ in range(seats)]
        self.paced = [0] * seats
        self.due = None
        self.visited = set()
        self.gather = []
        self.released = []


def is_ended(state, process):
    return state.tag[process] in (ENDED, ENDED_OUT, DRAINED)


def is_born(state, process):
    return state.tag[process] != UNBORN


def held(state, seat):
    """The process that this seat holds, or None."""
    for process, tag in enumerate(state.tag):
        if tag in (OUT, ENDED_OUT) and state.seat[process] == seat:
            return process
    return None


def start(setting, process):
    return max((setting.lines[predecessor].end for predecessor in setting.lines[process].predecessors), default=0)


def upper(setting, process, count):
    """The time of the event `count`, or the end where there is none."""
    line = setting.lines[process]
    return line.times[count] if count < len(line.times) else line.end


def least(sweep):
    pairs = [(clock, process) for process, (clock, ended) in enumerate(sweep) if not ended]
    return min(pairs) if pairs else None


def is_due(state, time, process):
    return state.due == EVERYTHING or state.due is not None and (time, process) <= state.due


def waiting(setting, state, process):
    """The due events in the outbox of this process."""
    times = setting.lines[process].times[state.taken[process]:state.computed[process]]
    return [time for time in times if is_due(state, time, process)]


def must_take(setting, state, seat, process):
    if seat == 0 and process not in state.visited:
        return len(waiting(setting, state, process))
    return 0


def under_lead(setting, floor, time):
    return floor == DONE or time <= floor + setting.lead


def reason(setting, state, step):
    """Why the step is refused, or None. Seats and processes that are not there come first."""
    kind, words = step[0], step[1:]
    if kind not in ("Publish", "Release") and words[0] >= len(state.paced):
        return "NoSeat"
    if kind not in ("Publish", "Release", "Pace") and words[1] >= len(state.tag):
        return "NoProcess"
    return REASONS[kind](setting, state, *words)


def look_reason(setting, state, seat, process):
    following = len(state.sweep[seat])
    return None if process in (0, following, following - 1) else "OutOfTurn"


def claim_reason(setting, state, seat, process):
    if held(state, seat) is not None:
        return "Holding"
    tag = state.tag[process]
    return None if tag == HOME or seat == 0 and tag in (FULL, ENDED) else "NotClaimable"


def start_reason(setting, state, seat, process):
    if held(state, seat) is not None:
        return "Holding"
    if state.tag[process] != UNBORN:
        return "NotUnborn"
    live = [predecessor for predecessor in setting.lines[process].predecessors if not is_ended(state, predecessor)]
    return "PredecessorLive" if live else None


def record_reason(setting, state, seat, process):
    return None if state.tag[process] == OUT and state.seat[process] == seat else "NotHeld"


def recall_reason(setting, state, seat, process):
    return None if is_ended(state, process) else "PredecessorLive"


def give_reason(setting, state, seat, process, taken, computed, clock, ended):
    line, tag = setting.lines[process], state.tag[process]
    if tag not in (OUT, ENDED_OUT) or state.seat[process] != seat:
        return "NotHeld"
    if taken != must_take(setting, state, seat, process):
        return "WrongTake"
    before, after = state.computed[process], state.computed[process] + computed
    if after > len(line.times) or tag == ENDED_OUT and computed > 0:
        return "WrongCount"
    if any(not under_lead(setting, state.paced[seat], time) for time in line.times[before:after]):
        return "AboveLead"
    if after - state.taken[process] - taken > setting.room:
        return "OverRoom"
    old = state.clock[process]
    if clock < old or clock > upper(setting, process, after) or tag == ENDED_OUT and clock != old:
        return "WrongClock"
    at_end = after == len(line.times) and clock == line.end and state.recorded[process]
    if tag == ENDED_OUT and not ended or ended and not at_end:
        return "WrongEnd"
    return None


def publish_reason(setting, state):
    if len(state.sweep[0]) != len(state.tag):
        return "NotSwept"
    return None if state.due is None else "StillDue"


def release_reason(setting, state, count):
    if state.due is None:
        return "NotDue"
    if len(state.visited) < len(state.tag):
        return "NotVisited"
    return None if count == len(state.gather) else "WrongCount"


REASONS = {
    "Look": look_reason, "Claim": claim_reason, "Start": start_reason, "Record": record_reason,
    "Recall": recall_reason, "Give": give_reason, "Publish": publish_reason,
    "Pace": lambda setting, state, seat: None, "Release": release_reason,
}


def after(setting, state, step):
    """The state that an allowed step leaves."""
    state = copy.deepcopy(state)
    EFFECTS[step[0]](setting, state, *step[1:])
    return state


def look(setting, state, seat, process):
    sweep = state.sweep[seat]
    if process == 0:
        sweep.clear()
    if process == len(sweep):
        seen = [sweep[predecessor][0] for predecessor in setting.lines[process].predecessors]
        clock = state.clock[process] if is_born(state, process) else max(seen)
        sweep.append((clock, is_ended(state, process)))
    if seat == 0 and state.tag[process] in (UNBORN, DRAINED):
        state.visited.add(process)


def claim(setting, state, seat, process):
    state.tag[process] = ENDED_OUT if state.tag[process] == ENDED else OUT
    state.seat[process] = seat


def begin(setting, state, seat, process):
    state.tag[process], state.seat[process] = OUT, seat
    state.clock[process] = start(setting, process)


def record(setting, state, seat, process):
    state.recorded[process] = True


def give(setting, state, seat, process, taken, computed, clock, ended):
    first = state.taken[process]
    for index in range(first, first + taken):
        state.gather.append((setting.lines[process].times[index], process, index))
    state.taken[process] += taken
    state.computed[process] += computed
    state.clock[process], state.seat[process] = clock, 0
    left = state.computed[process] - state.taken[process]
    if ended:
        state.tag[process] = ENDED if left else DRAINED
    else:
        state.tag[process] = FULL if left == setting.room else HOME
    if seat == 0 and state.due is not None:
        state.visited.add(process)


def publish(setting, state):
    pair = least(state.sweep[0])
    state.floor = DONE if pair is None else pair[0]
    state.due = EVERYTHING if pair is None else pair
    state.visited, state.sweep[0] = set(), []


def pace(setting, state, seat):
    state.paced[seat] = state.floor


def release(setting, state, count):
    state.released += sorted(state.gather)
    state.gather, state.due = [], None


EFFECTS = {
    "Look": look, "Claim": claim, "Start": begin, "Record": record,
    "Recall": lambda setting, state, seat, process: None,
    "Give": give, "Publish": publish, "Pace": pace, "Release": release,
}


def bounds(setting, state):
    """Below its bound no process gives an event any more."""
    found = []
    for process, line in enumerate(setting.lines):
        waits = [found[predecessor] for predecessor in line.predecessors]
        found.append(state.clock[process] if is_born(state, process) else max(waits))
    return found


def allowed_steps(setting, state):
    """Enough allowed steps to reach what any steps reach: each kind, with a few clocks for a give."""
    steps = [("Publish",), ("Release", len(state.gather))]
    for seat in range(len(state.paced)):
        steps.append(("Pace", seat))
        for process in range(len(state.tag)):
            steps += [(kind, seat, process) for kind in ("Look", "Claim", "Start", "Record", "Recall")]
            if held(state, seat) == process:
                steps += gives(setting, state, seat, process)
    return [step for step in steps if reason(setting, state, step) is None]


def gives(setting, state, seat, process):
    taken = must_take(setting, state, seat, process)
    found = []
    for computed in range(setting.room + 2):
        high, low = upper(setting, process, state.computed[process] + computed), state.clock[process]
        for clock in {low, high, (low + high) // 2}:
            found += [("Give", seat, process, taken, computed, clock, ended) for ended in (False, True)]
    return found


def is_ready(setting, state, process):
    at = upper(setting, process, state.computed[process])
    return is_born(state, process) and state.clock[process] == at


def owed(setting, state):
    total = sum(len(line.times) for line in setting.lines) - len(state.released)
    for process, line in enumerate(setting.lines):
        total += len(line.times) - state.computed[process] + len(line.times) - state.taken[process]
        total += (not is_born(state, process)) + (not is_ready(setting, state, process))
        total += (not state.recorded[process]) + (not is_ended(state, process))
    return total


def is_workable(setting, state, process):
    if state.tag[process] not in (HOME, FULL):
        return False
    computed, times = state.computed[process], setting.lines[process].times
    if not is_ready(setting, state, process) or computed == len(times):
        return True
    return state.tag[process] == HOME and under_lead(setting, state.floor, times[computed])


def left(setting, state):
    """What is left to do, compared from the left."""
    processes, due = range(len(state.tag)), state.due is not None
    owes, mine, sweep = owed(setting, state), held(state, 0), state.sweep[0]
    lowering = [step for step in allowed_steps(setting, state) if step[0] in ("Record", "Give")
                and owed(setting, after(setting, state, step)) < owes]
    visiting = due and mine is not None and mine not in state.visited
    unvisited = [process for process in processes if process not in state.visited]
    bound = bounds(setting, state)
    fresh = all(clock == bound[process] and ended == is_ended(state, process)
                for process, (clock, ended) in enumerate(sweep))
    stirs = (any(is_workable(setting, state, process) for process in processes) or state.gather
             or any(waiting(setting, state, process) for process in unvisited))
    away = 0
    if due and unvisited:
        process, following = unvisited[0], len(sweep)
        away = (1 if process in (0, following, following - 1)
                else process - following + 1 if process > following else process + 1)
    return (owes, 0 if lowering else 1,
            sum(tag in (OUT, ENDED_OUT) for tag in state.tag) - (1 if visiting else 0),
            (0 if stirs else 3) if due else (1 if fresh else 2),
            len(unvisited) if due else len(state.tag) - len(sweep),
            0 if visiting else 1, away, 0 if state.paced[0] == state.floor else 1)


def piece(setting):
    return sorted((time, process, index) for process, line in enumerate(setting.lines)
                  for index, time in enumerate(line.times))


def is_finished(setting, state):
    return len(state.released) == len(piece(setting)) and all(tag == DRAINED for tag in state.tag)


def random_setting(chance):
    """One to four processes of at most three events each."""
    lines = []
    for process in range(chance.randint(1, 4)):
        most = min(process, 2)
        waits = sorted(chance.sample(range(process), chance.randint(1, most))) if process else []
        begins = max((lines[predecessor].end for predecessor in waits), default=0)
        times = sorted(begins + chance.randint(0, 4) for _ in range(chance.randint(0, 3)))
        lines.append(Line(times, waits, (times[-1] if times else begins) + chance.randint(0, 2)))
    lines[-1].end = max(line.end for line in lines)
    return Setting(lines, chance.choice([1, 1, 2]), chance.choice([0, 1, 3]))


def random_opening(chance):
    setting = random_setting(chance)
    return setting, State(len(setting.lines), chance.randint(1, 3))
