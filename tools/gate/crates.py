"""Which crates stand on which, as crates.txt says, and what is proved one after another."""
from typing import Iterable, Mapping

Uses = dict[str, list[str]]


def read_names(path: str) -> Uses:
    """Returns for each crate all that its line names, none where there is no such file."""
    uses: Uses = {}
    try:
        with open(path, encoding="utf-8", errors="replace") as file:
            lines = file.readlines()
    except OSError:
        lines = []
    for line in lines:
        name, colon, below = line.partition(":")
        if colon and name[:1].isalpha():
            uses[name.split()[0]] = below.split()
    return uses


def read_uses(path: str) -> Uses:
    """Returns for each crate those of the file that it stands on, none where there is no such file."""
    uses = read_names(path)
    return {name: [crate for crate in below if crate in uses] for name, below in uses.items()}


def all_below(uses: Mapping[str, Iterable[str]], name: str) -> set[str]:
    """Returns all crates that a crate stands on, and those that they stand on."""
    todo, below = [name], set[str]()
    while todo:
        new = [crate for crate in uses.get(todo.pop(), ()) if crate not in below]
        below.update(new)
        todo += new
    return below


def turned(uses: Uses) -> Uses:
    """Returns for each crate those that stand on it."""
    return {name: [crate for crate in uses if name in uses[crate]] for name in uses}


def longest_chains(uses: Uses, costs: Mapping[str, float]) -> dict[str, tuple[float, list[str]]]:
    """Returns for each crate the chain that ends with it and costs most: its cost, and its crates."""
    chains: dict[str, tuple[float, list[str]]] = {}

    def chain(name: str) -> tuple[float, list[str]]:
        if name not in chains:
            cost, names = max(map(chain, uses[name]), default=(0.0, list[str]()))
            chains[name] = cost + costs.get(name, 0.0), [*names, name]
        return chains[name]

    return {name: chain(name) for name in uses}
