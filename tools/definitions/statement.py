"""The reading list of a contract: each definition that its clauses need, in an order in which each is read before it is
used, by subject, with the rows that compute it."""
from __future__ import annotations

import glob
import os
from collections import defaultdict
from dataclasses import dataclass, field

from free_names import Uses, names_in_signature
from handed import Piece, handed_to
from notation import Block, File, Item, NotRead, is_row
from repository import Needed, Repository, Target, row_files
from rust import Clause, Function, code_files

# The crates of each subject, in the order in which a reader comes to them.
SUBJECTS = {
    "messages and events": ("fm_msg",),
    "deformations": ("fm_tick", "fm_warp", "fm_nest"),
    "lines, marks and the piece": ("fm_line",),
    "values and lists": ("fm_value", "fm_pattern"),
    "tokens": ("fm_lex",),
    "grammar": ("fm_grammar",),
    "what a score means": ("fm_meaning", "fm_rules"),
    "the large scores": ("fm_gen",),
    "the outside": ("fm_edge",),
    "the file": ("fm_smf",),
    "the text and its file": ("fm_spelling",),
    "files that are read": ("fm_read", "fm_parts", "fm_excerpt", "fm_listing"),
    "plans and their runs": ("fm_program", "fm_player", "fm_strand", "fm_play", "fm_expansion"),
    "the scheduling core and its records": ("fm_core", "fm_record", "fm_audit"),
    "positions": ("fm_locate", "fm_position"),
    "the words of the command": ("fm_words",),
    "the answers of the command": ("fm_tell", "fm_top"),
}


@dataclass
class Statement:
    """A contract, what it needs, and what it takes from elsewhere."""

    function: Function
    clauses: list[Clause]
    # by subject and file, each in the order in which it is read
    chapters: list[tuple[str, list[tuple[str, list[Needed]]]]]
    rows: dict[Target, list[str]]
    library: dict[str, list[str]] = field(default_factory=dict)
    # the objects that the clauses are about, and the calls that change them
    handed: list[Piece] = field(default_factory=list)

    @property
    def needed(self) -> list[Needed]:
        return [definition for _, files in self.chapters for _, of_file in files for definition in of_file]

    def lines(self) -> int:
        """How many lines the definitions have with their comments, and the heads of the sections that they stand in."""
        places: set[tuple[str, int]] = set()
        for definition in self.needed:
            places.update((definition.path, line) for line in range(definition.first, definition.last + 1))
            for block in definition.blocks:
                places.update((definition.path, line) for line in range(block.first, head_end(block) + 1))
        return len(places)


def head_end(block: Block) -> int:
    """The last line of a section's head."""
    return block.head[-1].line


def subject_of(path: str) -> str:
    crate = path.split("/")[1]
    return next((name for name, crates in SUBJECTS.items() if crate in crates), crate)


def find_function(repository: Repository, name: str) -> tuple[str, Function]:
    """The public function of this name, `crate::name` where several have it, and the file that it stands in."""
    crate, _, plain = name.rpartition("::")
    found = []
    for folder in sorted(glob.glob(f"{repository.top}/crates/{crate or '*'}")):
        crate_name = os.path.basename(folder)
        repository.code(crate_name)
        for path in code_files(folder):
            function = repository.code_of[path].function(plain)
            if function:
                found.append((path, function))
    if len(found) != 1:
        places = ", ".join(f"{os.path.relpath(path, repository.top)}:{candidate.line}"
                           for path, candidate in found) or "nowhere"
        raise NotRead(f"{name} is a public function in {len(found)} places: {places}")
    return found[0]


def targets_of(repository: Repository, path: str, function: Function, clauses: list[Clause]) -> list[Target]:
    """What the clauses of a function name, and the traits of the types that they speak of."""
    file = repository.ghost_file(path)
    found: list[Target] = []
    for clause in clauses:
        uses = Uses(file.path, lambda word: repository.is_constructor(file, word))
        uses.term(clause.terms, 0, function.bound, frozenset())
        found += repository.targets(file, uses.found)
    return list(dict.fromkeys(found))


def closure(repository: Repository, todo: list[Target]) -> tuple[dict[Target, Needed], dict[str, list[str]]]:
    """All that the targets need, and the names of libraries by module."""
    needed: dict[Target, Needed] = {}
    library: dict[str, set[str]] = defaultdict(set)
    waiting = list(todo)
    while waiting:
        target = waiting.pop()
        if target.kind == "library":
            library[target.module].add(target.name)
        elif target not in needed:
            needed[target] = repository.definition(target)
            waiting += needed[target].names
    return needed, {module: sorted(names) for module, names in sorted(library.items())}


def files_in_order(needed: dict[Target, Needed]) -> list[str]:
    """The files, each behind those that it needs, and of those that could come next one of the same subject."""
    below: dict[str, set[str]] = defaultdict(set)
    for definition in needed.values():
        below[definition.path].update(needed[name].path for name in definition.names if name in needed)
    order: list[str] = []
    rank = {name: at for at, name in enumerate(SUBJECTS)}
    while len(order) < len(below):
        ready = [path for path in below if path not in order and below[path] <= {*order, path}]
        if not ready:
            # files that need each other: the one that lacks least comes first
            ready = [min((path for path in below if path not in order), key=lambda path: len(below[path] - set(order)))]
        last = subject_of(order[-1]) if order else ""
        ready.sort(key=lambda path: (subject_of(path) != last, rank.get(subject_of(path), len(rank)), path))
        order.append(ready[0])
    return order


def chapters_of(needed: dict[Target, Needed]) -> list[tuple[str, list[tuple[str, list[Needed]]]]]:
    chapters: list[tuple[str, list[tuple[str, list[Needed]]]]] = []
    for path in files_in_order(needed):
        of_file = sorted((definition for definition in needed.values() if definition.path == path),
                         key=lambda definition: definition.first)
        if not chapters or chapters[-1][0] != subject_of(path):
            chapters.append((subject_of(path), []))
        chapters[-1][1].append((path, of_file))
    return chapters


def rows_of(repository: Repository, needed: dict[Target, Needed]) -> dict[Target, list[str]]:
    """The rows that name a definition which computes: lemmas of a file of rows that are closed by computing."""
    rows: dict[Target, list[str]] = defaultdict(list)
    for path in row_files(repository.top):
        module = "Rattle." + os.path.relpath(path, f"{repository.top}/crates").removesuffix(".antt").replace("/", ".")
        file = repository.file(module)
        if file is None:
            continue
        for item in file.items:
            if item.kind != "definition" or not is_row(item):
                continue
            for name in dict.fromkeys(named_in_row(repository, file, item)):
                if name in needed and name.kind == "definition" and computes_itself(needed[name]):
                    rows[name].append(f"{file.path}:{item.start}")
    return rows


def named_in_row(repository: Repository, file: File, item: Item) -> list[Target]:
    named = names_in_signature(file.path, item, lambda word: repository.is_constructor(file, word))
    return repository.targets(file, named)


def computes_itself(definition: Needed) -> bool:
    """Whether a definition is one by clauses, and no type that others are made of."""
    return definition.item is not None and definition.item.kind == "definition"


def rows_by_file(rows: list[str]) -> str:
    """The places of rows, each file once."""
    files: dict[str, list[str]] = defaultdict(list)
    for place in rows:
        path, _, line = place.rpartition(":")
        files[path.removeprefix("crates/")].append(line)
    return "; ".join(f"{path} {', '.join(lines)}" for path, lines in files.items())


def statement_of(repository: Repository, name: str, clause: str | None) -> Statement:
    path, function = find_function(repository, name)
    clauses = [candidate for candidate in function.clauses if clause is None or candidate.name == clause]
    if not clauses:
        raise NotRead(f"{name} has no clause {clause}; it has {', '.join(candidate.name for candidate in function.clauses)}")
    # a condition of the call is a premise of each clause
    clauses = [candidate for candidate in function.clauses if candidate.word == "requires" or candidate in clauses]
    handed = handed_to(repository, function, clauses)
    targets = targets_of(repository, path, function, clauses) + [name for piece in handed for name in piece.names]
    needed, library = closure(repository, targets)
    return Statement(function, clauses, chapters_of(needed), rows_of(repository, needed), library, handed)


def text_of(repository: Repository, definition: Needed) -> str:
    """The definition as it stands in its file, with its comment."""
    if definition.code:
        return definition.code.text
    file: File | None = definition.file
    return "\n".join(file.lines[definition.first - 1:definition.last]) if file else ""
