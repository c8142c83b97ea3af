"""Tries the core on random small scores.

    try_core.py walks SEED COUNT      random runs: every state is sound, and from each some step lowers what is left
    try_core.py states SEED COUNT     states changed at random that are sound: every allowed step keeps them sound
"""
import copy
import random
import sys

from core import (DONE, DRAINED, ENDED, ENDED_OUT, EVERYTHING, FULL, HOME, OUT, UNBORN,
                  after, allowed_steps, is_finished, left, piece, random_opening)
from sound import broken


def choose(chance, setting, state):
    """A step, more often one that moves the run on."""
    steps = allowed_steps(setting, state)
    moving = [step for step in steps if step[0] in ("Give", "Release", "Publish", "Record", "Start")]
    return chance.choice(moving if moving and chance.random() < 0.5 else steps)


def lowers(setting, state):
    now = left(setting, state)
    return any(left(setting, after(setting, state, step)) < now for step in allowed_steps(setting, state))


def walks(chance, count):
    states = 0
    for _ in range(count):
        setting, state = random_opening(chance)
        steps = []
        for _ in range(120):
            states += 1
            bad = broken(setting, state)
            if bad:
                return f"unsound: {bad} after {steps[-12:]}"
            if is_finished(setting, state):
                break
            if not lowers(setting, state):
                return f"stuck after {steps[-12:]}"
            steps.append(choose(chance, setting, state))
            state = after(setting, state, steps[-1])
    return f"{states} states sound, none stuck"


def changed(chance, setting, state):
    """The state with a few parts changed at random."""
    state = copy.deepcopy(state)
    for _ in range(chance.randint(1, 4)):
        kind, process = chance.randint(0, 9), chance.randrange(len(state.tag))
        seat = chance.randrange(len(state.paced))
        if kind == 0 and state.sweep[seat]:
            place = chance.randrange(len(state.sweep[seat]))
            clock = state.sweep[seat][place][0]
            state.sweep[seat][place] = (max(0, clock - chance.randint(0, 3)), chance.random() < 0.5)
        elif kind == 1:
            long = chance.randint(0, len(state.tag))
            state.sweep[seat] = [(chance.randint(0, 8), chance.random() < 0.3) for _ in range(long)]
        elif kind == 2:
            state.paced[seat] = chance.choice([0, 1, 2, 3, state.floor])
        elif kind == 3:
            state.recorded[process] = not state.recorded[process]
        elif kind == 4:
            state.visited ^= {process}
        elif kind == 5:
            state.floor = chance.choice([0, 1, 2, 3, 4, 5, DONE, state.floor])
        elif kind == 6:
            state.clock[process] = max(0, state.clock[process] + chance.randint(-2, 2))
        elif kind == 7:
            pair = (chance.randint(0, 6), process)
            state.due = chance.choice([None, EVERYTHING, pair, state.due])
        elif kind == 8:
            state.tag[process] = chance.choice([HOME, FULL, OUT, ENDED, ENDED_OUT, DRAINED, UNBORN])
            state.seat[process] = seat
        else:
            state.released = piece(setting)[:chance.randint(0, len(piece(setting)))]
            for owner in range(len(state.tag)):
                state.taken[owner] = max(state.taken[owner], sum(event[1] == owner for event in state.released))
    return state


def states(chance, count):
    found = steps = 0
    for _ in range(count):
        setting, state = random_opening(chance)
        for _ in range(60):
            if is_finished(setting, state):
                break
            for _ in range(12):
                other = changed(chance, setting, state)
                if other.tag[0] == UNBORN or broken(setting, other):
                    continue
                found += 1
                for step in allowed_steps(setting, other):
                    steps += 1
                    bad = broken(setting, after(setting, other, step))
                    if bad:
                        return f"not kept: {bad} by {step} from {vars(other)}"
                if not is_finished(setting, other) and not lowers(setting, other):
                    return f"stuck: {vars(other)}"
            state = after(setting, state, choose(chance, setting, state))
    return f"{found} sound states, {steps} steps keep them"


if __name__ == "__main__":
    if len(sys.argv) != 4 or sys.argv[1] not in ("walks", "states"):
        sys.exit(__doc__)
    print({"walks": walks, "states": states}[sys.argv[1]](random.Random(int(sys.argv[2])), int(sys.argv[3])))
