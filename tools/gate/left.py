"""How long a build still takes, by what its crates took before."""
from typing import AbstractSet, Callable, Collection, Iterator, Mapping, Sequence

from crates import Uses

# What a crate takes that is not in the table, in seconds.
UNKNOWN = 60

# A table of so many seconds of proofs counts as much as what crates have taken in this build.
TABLE = 15

# A crate that should have been done goes on for this part of what it has taken.
LONGER = 0.1


def read_seconds(path: str) -> dict[str, float]:
    """Returns the seconds of each crate of the table."""
    with open(path, encoding="utf-8") as file:
        rows = [line.split() for line in file if line.strip() and not line.startswith("#")]
    return {name: float(seconds) for name, seconds in rows}


def begins(uses: Uses, order: Sequence[str], lanes: int, done: AbstractSet[str], at_work: Collection[str]) -> list[str]:
    """Returns the crates that begin now: in this order those that wait for no other, as many as there are lanes free."""
    ready = [name for name in order if name not in done and name not in at_work and done >= set(uses[name])]
    return ready[:max(0, lanes - len(at_work))]


def ends(uses: Uses, order: Sequence[str], lanes: int, takes: Callable[[str], float], done: AbstractSet[str] = frozenset(),
         at_work: Mapping[str, float] = {}) -> Iterator[tuple[float, str]]:
    """Returns when each crate that is left is done. Those at work have been so for these seconds."""
    now, over = 0.0, set(done)
    end = {name: max(takes(name) - since, since * LONGER) for name, since in at_work.items()}
    while True:
        end.update({name: now + takes(name) for name in begins(uses, order, lanes, over, end)})
        if not end:
            return
        now, first = min((at, name) for name, at in end.items())
        del end[first]
        over.add(first)
        yield now, first


class Forecast:
    """Tells the time left, by how fast the crates of this build have been.

    rt tells when a crate is done. When it began follows from the rule by which rt chooses: in each lane one crate, first
    those for which others wait longest."""

    def __init__(self, uses: Uses, order: Sequence[str], lanes: int, seconds: Mapping[str, float], now: float) -> None:
        """A build that begins now, of crates in this order."""
        self.uses, self.order, self.lanes, self.seconds = uses, order, lanes, seconds
        self.done = set[str]()
        self.begun = dict[str, float]()
        # the crates that this build proved, and the seconds of each
        self.took = dict[str, float]()
        self.begin(now)

    def begin(self, now: float) -> None:
        """Notes the crates that begin now."""
        self.begun.update(dict.fromkeys(begins(self.uses, self.order, self.lanes, self.done, self.begun), now))

    def end(self, name: str, now: float, is_proved: bool = True) -> None:
        """Notes that a crate is done now: one that is not proved in this build was kept from an earlier one."""
        begun = self.begun.pop(name, None)
        if is_proved and begun is not None:
            self.took[name] = now - begun
        self.done.add(name)
        self.begin(now)

    def by_table(self, name: str) -> float:
        """Returns how many seconds a crate takes on the machine of the table."""
        return self.seconds.get(name, UNKNOWN)

    def left(self, now: float) -> float:
        """Returns how many seconds are left."""
        speed = (TABLE + sum(self.took.values())) / (TABLE + sum(map(self.by_table, self.took)))
        since = {name: now - begun for name, begun in self.begun.items()}
        every = ends(self.uses, self.order, self.lanes, lambda name: speed * self.by_table(name), self.done, since)
        return max((end for end, _ in every), default=0.0)


def in_words(seconds: float) -> str:
    """Returns a time as a person says it."""
    minutes = round(seconds / 60)
    if minutes < 1:
        return "less than a minute"
    return f"about {minutes} minute{'s' if minutes > 1 else ''}"
