"""What a run of the gate took: by crate, by edit, and beside the budget."""
import os
import re
from typing import Optional

from crates import all_below, longest_chains, read_uses
from left import read_seconds
from sampling import KINDS, Task

# The crate by whose code machines are compared, and the seconds that it takes on the machine of the budget.
MEASURE, MEASURE_SECONDS = "fm_msg", 26.0

# How many processor minutes the gate may take there from nothing.
BUDGET_MINUTES = 140

# The share of each crate, in seconds there: the budget, as one run of the gate divided it.
SHARES = os.path.join(os.path.dirname(os.path.abspath(__file__)), "shares.txt")

# A crate is past its share if it takes so many times as much, and so many seconds more.
PAST, PAST_SECONDS = 1.25, 20.0

# What the gate says of an edit that is refused.
REFUSED = re.compile(r"(?:rt: )?must-fail (\w+)/(\S+?)(?:\.edit)?: refused, as it must be(?:: )?(.*)")

Row = dict[str, float]


def by_crate(seconds: dict[Task, float]) -> dict[str, Row]:
    """Returns for each crate its seconds by kind."""
    rows: dict[str, Row] = {}
    for task, taken in seconds.items():
        row = rows.setdefault(task.crate, dict.fromkeys(KINDS, 0.0))
        edits = len(edit_names(task.crate))
        # what is checked behind the last edit is their ground
        is_behind = task.edit is not None and 0 < edits <= task.edit
        row["ground" if is_behind else task.kind] += taken
    return rows


def totals(rows: dict[str, Row]) -> Row:
    """Returns the seconds of all crates by kind."""
    return {kind: sum(row[kind] for row in rows.values()) for kind in KINDS}


def crate_table(rows: dict[str, Row], wall: float) -> list[str]:
    """Returns the table by crate, with what a change of each costs: its own minutes and those of all crates above."""
    uses = read_uses("crates.txt")
    below = {name: all_below(uses, name) for name in uses}
    lines = [f"{'crate':<14}" + "".join(f"{kind:>8}" for kind in (*KINDS, "all")) + f"{'change, minutes':>17}"]
    for crate, row in sorted(rows.items(), key=lambda item: -sum(item[1].values())):
        changed = [other for name, other in rows.items() if name == crate or crate in below.get(name, ())]
        change = sum(sum(other.values()) for other in changed)
        figures = "".join(f"{row[kind]:>8.0f}" for kind in KINDS)
        lines.append(f"{crate:<14}{figures}{sum(row.values()):>8.0f}{change / 60:>17.1f}")
    total = totals(rows)
    lines.append(f"{'all':<14}" + "".join(f"{total[kind]:>8.0f}" for kind in KINDS) + f"{sum(total.values()):>8.0f}")
    chains = longest_chains(uses, {name: row["code"] for name, row in rows.items()})
    chain, names = max(chains.values(), default=(0, []))
    lines.append(f"the longest chain of code, {chain / 60:.1f} minutes: {' '.join(names)}")
    minutes = sum(total.values()) / 60
    lines.append(f"processor seconds, of {minutes:.1f} minutes; {wall / 60:.1f} minutes by the clock, {os.cpu_count()} processors")
    return lines


def budget_table(rows: dict[str, Row]) -> list[str]:
    """Returns how the run compares with the budget, scaled by the crate by which machines are compared."""
    measure = rows.get(MEASURE, {}).get("code", 0.0)
    if not measure:
        return [f"no comparison with the budget: {MEASURE} was not proved in this run"]
    scale = MEASURE_SECONDS / measure / 60
    total = totals(rows)
    minutes = sum(total.values()) * scale
    kinds = ", ".join(f"{kind} {total[kind] * scale:.1f}" for kind in KINDS)
    dearest = sorted(rows.items(), key=lambda item: -sum(item[1].values()))[:10]
    return [
        f"{MEASURE} took {measure:.0f} s of code, so each second counts {scale * 60:.2f} times:",
        f"{minutes:.1f} minutes where the budget has {BUDGET_MINUTES} ({kinds})",
        "the dearest crates, in minutes: " + ", ".join(f"{crate} {sum(row.values()) * scale:.1f}" for crate, row in dearest),
        "past their share, in seconds: " + (", ".join(past_share(scaled(rows))) or "none"),
    ]


def scaled(rows: dict[str, Row]) -> dict[str, float]:
    """Returns what each crate would take on the machine of the budget, in seconds."""
    measure = rows.get(MEASURE, {}).get("code", 0.0)
    return {crate: sum(row.values()) * MEASURE_SECONDS / measure for crate, row in rows.items()} if measure else {}


def past_share(seconds: dict[str, float]) -> list[str]:
    """Returns the crates that take more than their share, the worst first, each with its seconds and its share."""
    share = read_seconds(SHARES)
    past = [crate for crate, taken in seconds.items()
            if taken > PAST * share.get(crate, 0.0) and taken > PAST_SECONDS + share.get(crate, 0.0)]
    past.sort(key=lambda crate: share.get(crate, 0.0) - seconds[crate])
    return [f"{crate} {seconds[crate]:.0f} for {share.get(crate, 0.0):.0f}" for crate in past]


def share_lines(rows: dict[str, Row]) -> list[str]:
    """Returns the lines of a new table of shares."""
    head = f"# Seconds of each crate of the {BUDGET_MINUTES} processor minutes of the budget, as one run of the gate from nothing divided them."
    scale = 60 * BUDGET_MINUTES / sum(totals(rows).values())
    return [head, *(f"{crate} {sum(row.values()) * scale:.0f}" for crate, row in sorted(rows.items()))]


def edit_names(crate: str) -> list[str]:
    """Returns the edits of a crate in the order in which the gate numbers them."""
    folder = f"crates/{crate}/must-fail"
    names = os.listdir(folder) if os.path.isdir(folder) else []
    return [name.removesuffix(".edit") for name in sorted(names) if name.endswith(".edit")]


def goals(printed: list[str]) -> dict[tuple[str, str], str]:
    """Returns for each edit that was refused the first thing that the checker said of it."""
    matches = [REFUSED.match(line) for line in printed]
    return {(match[1], match[2]): match[3] for match in matches if match}


def edit_table(seconds: dict[Task, float], printed: list[str]) -> list[str]:
    """Returns a line for each edit: its crate, its name, its seconds, how these compare with the median of the crate's, and the
    goal at which it is refused, separated by tabs."""
    taken: dict[str, dict[str, float]] = {}
    for task, spent in seconds.items():
        names = edit_names(task.crate)
        if task.edit is not None and task.edit < len(names):
            row = taken.setdefault(task.crate, {})
            row[names[task.edit]] = row.get(names[task.edit], 0.0) + spent
    goal = goals(printed)
    lines = ["crate\tedit\tseconds\tto the median\tgoal"]
    for crate, row in sorted(taken.items()):
        middle = median(list(row.values()))
        for name, spent in sorted(row.items(), key=lambda item: -item[1]):
            ratio = spent / middle if middle else 1.0
            lines.append(f"{crate}\t{name}\t{spent:.0f}\t{ratio:.1f}\t{goal.get((crate, name), '')}")
    return lines


def median(values: list[float]) -> float:
    """Returns the middle value, the lower one of two."""
    ordered = sorted(values)
    return ordered[(len(ordered) - 1) // 2] if ordered else 0.0


def write_lines(path: Optional[str], lines: list[str]) -> None:
    """Writes lines to a file, where one is named."""
    if path:
        with open(path, "w", encoding="utf-8") as file:
            file.write("\n".join(lines) + "\n")
