"""What holds of every state that can be reached: each broken part by its name in `Sound` or `Fits`."""
from core import (DONE, DRAINED, ENDED, ENDED_OUT, EVERYTHING, FULL, HOME, OUT, UNBORN,
                  bounds, is_born, is_ended, piece, start, upper)


def broken(setting, state):
    """The names of the parts that do not hold."""
    return (broken_processes(setting, state) + broken_sweeps(setting, state)
            + broken_floor(setting, state) + broken_taking(setting, state))


def broken_processes(setting, state):
    found = []
    for process, line in enumerate(setting.lines):
        tag, clock = state.tag[process], state.clock[process]
        computed, taken = state.computed[process], state.taken[process]
        ended, out = is_ended(state, process), computed - taken
        checks = {
            "taken": taken <= computed, "computed": computed <= len(line.times),
            "boxed": out <= setting.room, "unborn": tag != UNBORN or computed == 0,
            "home": tag != HOME or out < setting.room, "full": tag != FULL or out == setting.room,
            "recorded": not ended or state.recorded[process],
            "whole": not ended or computed == len(line.times),
            "left": tag not in (ENDED, ENDED_OUT) or out > 0, "drained": tag != DRAINED or out == 0,
            "at_end": not ended or clock == line.end,
            "ended_out": tag != ENDED_OUT or state.seat[process] == 0,
            "seated": tag not in (OUT, ENDED_OUT) or state.seat[process] < len(state.paced),
        }
        if is_born(state, process):
            checks["begun"] = start(setting, process) <= clock
            checks["timed"] = clock <= upper(setting, process, computed)
            checks["after_all"] = all(is_ended(state, predecessor) for predecessor in line.predecessors)
        found += [name for name, holds in checks.items() if not holds]
    for seat in range(len(state.paced)):
        mine = [process for process, tag in enumerate(state.tag)
                if tag in (OUT, ENDED_OUT) and state.seat[process] == seat]
        found += ["alone"] if len(mine) > 1 else []
    return found + (["root"] if state.tag[0] == UNBORN else [])


def broken_sweeps(setting, state):
    bound, found = bounds(setting, state), []
    for sweep in state.sweep:
        found += ["short"] if len(sweep) > len(state.tag) else []
        for process, (clock, ended) in enumerate(sweep):
            found += ["seen"] if clock > bound[process] else []
            right = is_ended(state, process) and clock == setting.lines[process].end
            found += ["seen_ended"] if ended and not right else []
    return found


def broken_floor(setting, state):
    floor, found = state.floor, []
    bound, processes = bounds(setting, state), range(len(state.tag))
    if floor == DONE:
        found += ["done"] if not all(is_ended(state, process) for process in processes) else []
        return found + (["done_seen"] if not all(ended for _, ended in state.sweep[0]) else [])
    if any(paced == DONE or paced > floor for paced in state.paced):
        found.append("paced")
    if any(not is_ended(state, process) and floor > bound[process] for process in processes):
        found.append("floored")
    if any(not ended and clock < floor for clock, ended in state.sweep[0]):
        found.append("swept_high")
    if any(time > floor + setting.lead for process in processes
           for time in setting.lines[process].times[:state.computed[process]]):
        found.append("led")
    return found


def broken_taking(setting, state):
    found, due = [], state.due
    pair = due if due not in (None, EVERYTHING) else None
    if pair is not None:
        found += ["due_floor"] if state.floor != pair[0] else []
        found += ["gathered_due"] if any(event[:2] > pair for event in state.gather) else []
    found += ["due_all"] if due == EVERYTHING and state.floor != DONE else []
    found += ["not_due"] if due is None and state.gather else []
    for process, line in enumerate(setting.lines):
        mine = [event[2] for event in state.released + state.gather if event[1] == process]
        gathered = sum(event[1] == process for event in state.gather)
        visited, taken = process in state.visited, state.taken[process]
        found += ["kept"] if mine != list(range(taken)) else []
        found += ["gathered"] if gathered > (setting.room if visited else 0) else []
        if pair is not None:
            rest = [(time, process) for time in line.times[state.computed[process]:]]
            untaken = [(time, process) for time in line.times[taken:]]
            found += ["due_rest"] if any(event < pair for event in rest) else []
            found += ["visited_below"] if visited and any(event < pair for event in untaken) else []
        if due == EVERYTHING and visited and taken != len(line.times):
            found.append("visited_all")
    released = piece(setting)[:len(state.released)]
    return found + (["prefix"] if state.released != released else [])
