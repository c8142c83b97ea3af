"""Finds what each name of a definition means: a definition of the repository, an item of its code, or a library's."""
from __future__ import annotations

import glob
import os
import re
import shutil
from dataclasses import dataclass, field
from functools import cached_property

from free_names import Named, Uses, names_in_item
from notation import Block, File, Import, Item, NotRead, Reader, Word, parameters_of, parts_of
from rust import CodeFile, CodeItem, code_files

# What the notation itself brings.
BUILT_IN = frozenset("Unit tt absurd ⊥ ¬ IsProp IsSet Dec yes no search grind cc rw simp omega refl ℓ ∥◌∥₁".split())

def row_files(top: str) -> list[str]:
    """The files of rows: those named for them, and those of worked examples."""
    return sorted(path for folder in ("specs", "proofs") for name in ("*Rows", "Examples")
                  for path in glob.glob(f"{top}/crates/*/{folder}/{name}.antt"))


# Constructors of the libraries: a name of theirs that stands in a pattern has to be one of these.
LIBRARY_CONSTRUCTORS = frozenset(
    "zero suc true false [] ◌∷◌ pos negsuc refl tt some none Some None Ok Err inl inr left right Less Equal Greater "
    "Set Append SetTrue SetFalse Count".split())


@dataclass(frozen=True)
class Target:
    """What a name means: `definition` and `code` belong to the repository, `library` does not."""

    kind: str
    module: str
    name: str


@dataclass
class Needed:
    """A definition with what it names."""

    target: Target
    path: str
    first: int
    last: int
    names: list[Target]
    # where in its file it names each of them: line, column and how many signs
    places: dict[tuple[int, int, int], Target]
    file: File | None = None
    item: Item | None = None
    code: CodeItem | None = None
    blocks: list[Block] = field(default_factory=list)


def kit_of(*names: str) -> dict[str, str]:
    """The folders of these crates of the toolchain, where it is there with its sources."""
    libraries = os.path.dirname(os.path.dirname(os.path.realpath(shutil.which("rt") or "/")))
    folders = {name: f"{libraries}/rattle/{name}" for name in names}
    return {name: folder for name, folder in folders.items() if os.path.isdir(f"{folder}/specs")}


class Repository:
    """The crates of the repository, and those of the toolchain that are followed too: a folder for each."""

    def __init__(self, top: str, followed: dict[str, str] | None = None):
        self.top = top
        self.followed = followed or {}
        self.files: dict[str, File] = {}
        self.codes: dict[str, dict[str, CodeItem]] = {}
        self.code_of: dict[str, CodeFile] = {}
        self.needed: dict[Target, Needed] = {}

    @cached_property
    def crates(self) -> set[str]:
        return {*os.listdir(f"{self.top}/crates"), *self.followed}

    def folder(self, crate: str) -> str:
        return self.followed.get(crate, f"{self.top}/crates/{crate}")

    # ---- files

    def is_own(self, module: str) -> bool:
        parts = module.split(".")
        return len(parts) > 1 and parts[0] == "Rattle" and parts[1] in self.crates

    def file(self, module: str) -> File | None:
        """The file of a module of the repository's definitions or proofs, or None where there is none."""
        if module not in self.files:
            parts = module.split(".")
            base = f"{self.folder(parts[1])}/{'/'.join(parts[2:])}"
            path = next((path for path in (f"{base}.antt", f"{base}/Lib.antt") if os.path.isfile(path)), None)
            if path is None:
                return None
            with open(path, encoding="utf-8") as file:
                self.files[module] = Reader(os.path.relpath(path, self.top), module, file.read()).file
        return self.files[module]

    def known_file(self, module: str) -> File:
        file = self.file(module)
        if file is None:
            raise NotRead(f"no module {module}")
        return file

    def code(self, crate: str) -> dict[str, CodeItem]:
        """The types, constants and traits of a crate."""
        if crate not in self.codes:
            items: dict[str, CodeItem] = {}
            for path in code_files(self.folder(crate)):
                file = self.code_of[path] = CodeFile(path)
                items.update(file.items())
            self.codes[crate] = items
        return self.codes[crate]

    # ---- names

    def declared(self, module: str, name: str) -> Target:
        """What a name of a module means that is made from code: `.declared.file.Item`."""
        crate, rest = module.split(".")[1], module.split(".")
        items = self.code(crate)
        path = rest[rest.index("declared") + 1:]
        # a variant and a fold belong to their type, the record of ghost members to its trait
        for candidate in (name,) if path[-1] == "TheConstants" else reversed(path):
            if candidate in items:
                return Target("code", crate, candidate)
        raise NotRead(f"no item of the code of {crate} for {module}.{name}")

    def item(self, module: str, name: str) -> Target | None:
        """What a name that a module hands out means."""
        if not self.is_own(module):
            return Target("library", module, name)
        if ".declared." in module:
            return self.declared(module, name)
        file = self.file(module)
        if file is None:
            # a name in a module of that name: a constructor behind its type
            above, _, last = module.rpartition(".")
            return self.item(above, last) if self.file(above) else None
        found = self.own(file, name)
        if found:
            return found
        passed = file.imports.get(name)
        if passed and passed.name:
            return self.item(passed.module, passed.name)
        return None

    def own(self, file: File, name: str) -> Target | None:
        for item in file.items:
            if item.name == name:
                return Target("definition", file.module, item.name)
        for item in file.items:
            if name in item.constructors:
                return Target("definition", file.module, item.name)
        return None

    def resolve(self, file: File, parts: tuple[str, ...], line: int) -> Target | None:
        """What a path of a file means; None for what the notation itself brings."""
        first = parts[0]
        found = self.own(file, first) or self.brought(file, first)
        if found:
            return found
        alias = file.imports.get(f"{first}.")
        if alias and len(parts) > 1:
            target = self.item(alias.module, parts[1])
            if target:
                return target
            below = self.item(f"{alias.module}.{parts[1]}", parts[2]) if len(parts) > 2 else None
            if below:
                return below
        operators = [name for name in [*file.imports, *(item.name for item in file.items)]
                     if "◌" in name and (first in parts_of(name))]
        for name in operators:
            return self.own(file, name) or self.brought(file, name)
        if first in BUILT_IN:
            return None
        raise NotRead(f"{file.path}:{line}: what does this name mean: {'.'.join(parts)}")

    def brought(self, file: File, name: str) -> Target | None:
        imported = file.imports.get(name)
        if imported is None or imported.name is None:
            return None
        target = self.item(imported.module, imported.name)
        if target is None:
            raise NotRead(f"{file.path}:{imported.line}: {imported.module} has no {imported.name}")
        return target

    def is_constructor(self, file: File, word: Word) -> bool:
        """Whether a name in a pattern is a constructor; one that is not binds a variable."""
        parts = tuple(word.parts)
        try:
            target = self.resolve(file, parts, word.line)
        except NotRead:
            if len(parts) > 1:
                raise
            return False
        if target is None:
            return word.text in ("tt", "yes", "no", "refl")
        if target.kind == "library":
            if target.name in LIBRARY_CONSTRUCTORS or target.module.endswith("TheVariants"):
                return True
            if len(parts) > 1:
                raise NotRead(f"{file.path}:{word.line}: is this a constructor: {word.text}")
            return False
        if target.kind == "code":
            return target.name != parts[-1] or self.code(target.module)[target.name].kind == "struct"
        inner = self.files[target.module]
        items = [item for item in inner.items if item.name == target.name]
        if target.module == file.module and len(parts) == 1 and items[0].start > word.line:
            # a constructor is one behind its type alone
            return False
        return any(parts[-1] in item.constructors for item in items) or "◌" in target.name

    # ---- what a definition needs

    def definition(self, target: Target) -> Needed:
        if target not in self.needed:
            self.needed[target] = self.code_needed(target) if target.kind == "code" else self.read_definition(target)
        return self.needed[target]

    def read_definition(self, target: Target) -> Needed:
        file = self.known_file(target.module)
        item = next(item for item in file.items if item.name == target.name)
        fixed: set[str] = set()
        uses = Uses(file.path, lambda word: self.is_constructor(file, word))
        for block in item.blocks:
            words = parameters_of(block)
            at, bound = 0, frozenset(fixed)
            while at < len(words):
                at, bound = uses.group(words, at, bound)
            fixed |= bound
        named = uses.found + names_in_item(file.path, item, lambda word: self.is_constructor(file, word), frozenset(fixed))
        names = self.targets(file, named)
        return Needed(target, file.path, item.first, item.last, self.unique(names, target), self.places(file, named), file, item,
                      blocks=list(item.blocks))

    def targets(self, file: File, named: list[Named]) -> list[Target]:
        found = [self.resolve(file, name.parts, name.line) for name in named]
        return [target for target in found if target is not None]

    def places(self, file: File, named: list[Named]) -> dict[tuple[int, int, int], Target]:
        found = {}
        for name in named:
            target = self.resolve(file, name.parts, name.line)
            if target is not None:
                found[name.line, name.column, len(".".join(name.parts))] = target
        return found

    def unique(self, names: list[Target], but: Target) -> list[Target]:
        return [target for target in dict.fromkeys(names) if target != but]

    def code_needed(self, target: Target) -> Needed:
        item = self.code(target.module)[target.name]
        file = self.ghost_file(item.path)
        names: list[Target] = []
        for words in item.terms:
            uses = Uses(item.path, lambda word: self.is_constructor(file, word))
            own = frozenset(("self", "result", "Self", "this", target.name, *re.findall(r"ghost (\w+)", item.text),
                             *re.findall(r"(\w+):", item.text)))
            uses.term(words, 0, own, frozenset())
            names += self.targets(file, uses.found)
        names += self.types_in(target, item)
        return Needed(target, os.path.relpath(item.path, self.top), item.first, item.last, self.unique(names, target), {}, code=item)

    def ghost_file(self, path: str) -> File:
        """What a file of code brings in for its clauses, as a file without definitions."""
        code = self.code_of[path]
        reader = Reader(os.path.relpath(path, self.top), "", "\n".join(f"use {use}" for use in code.ghost_uses))
        return reader.file

    def types_in(self, target: Target, item: CodeItem) -> list[Target]:
        """The types and constants of the repository that a type's fields or a constant's value name."""
        plain = "\n".join(re.sub(r"//.*|#\[.*\]", "", line) for line in item.text.split("\n") if "impl" not in line)
        plain = re.sub(r"(?:requires|ensures|ghost)[^{;]*\{[^}]*\}", "", plain)
        found = [self.type_named(item.path, name) for name in dict.fromkeys(re.findall(r"\b[A-Z]\w*", plain)) if name != target.name]
        return [type_found for type_found in found if type_found]

    def type_named(self, path: str, name: str) -> Target | None:
        """The item of the repository that a name of a file of code means, or None where it means none."""
        crate = self.crate_of(path)
        if name in self.code(crate):
            return Target("code", crate, name)
        brought = re.search(rf"^(?:pub )?use (fm_\w+)::(?:\w+::)*(?:\{{[^}}]*\b{name}\b|{name};)", self.code_of[path].text, re.M)
        return Target("code", brought[1], name) if brought and name in self.code(brought[1]) else None

    def crate_of(self, path: str) -> str:
        """The crate that a file of code belongs to."""
        return next(crate for crate in self.crates if path.startswith(f"{self.folder(crate)}/"))
