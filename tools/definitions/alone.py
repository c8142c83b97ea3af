"""Writes the definitions of a reading list as a crate of their own, which the checker takes, and takes them out one by one.

    alone.py FUNCTION CLAUSE FOLDER [--each [FIRST [LAST]] | --some N [SEED]]

The crate has nothing but what scripts/statement prints, with the `use` lines that this needs, and the clause itself with
its premises, as a statement about the values that it reads. With --each every definition is left out once, and the check
has to refuse what is left: so the list has nothing that is not needed, and its verdict is about the clause. With --some N
that is tried with N of them, drawn at random. What only the code of the objects names that are handed in is named by the
module of the clause. A check takes some ten seconds of processor, so all of them take more than an hour. The last line
tells how many were left out, of how many, and how many of these the rest does not need."""
from __future__ import annotations

import os
import random
import re
import shutil
import subprocess
import sys

sys.dont_write_bytecode = True
from free_names import Named, Uses, names_in_item  # noqa: E402
from notation import File, NotRead, parameters_of, parts_of  # noqa: E402
from page import heads  # noqa: E402
from repository import Needed, Repository, Target  # noqa: E402
from statement import Statement, statement_of, text_of  # noqa: E402

TOP = os.path.dirname(os.path.dirname(os.path.dirname(os.path.abspath(__file__))))
CRATE = "statement"
KEPT_DERIVES = ("Clone", "Copy", "Drop")
# The values of the plain types of parameters, and where the types of values are found.
PLAIN_TYPES = {"[String]": "List (String A)", "u8": "ℕ", "u32": "ℕ", "u64": "ℕ", "usize": "ℕ"}
LIBRARY_TYPES = (("Rattle.std.specs.Prelude", "List"), ("Rattle.std.specs.Prelude", "ℕ"), ("Rattle.std.specs.Prelude", "String"))


def module_of(module: str) -> str:
    """The module of the new crate for one of the repository's: `Rattle.fm_smf.specs.Track` is `FmSmfTrack`."""
    parts = module.split(".")
    if parts[0] != "Rattle" or not parts[1].startswith("fm_"):
        return module
    if "declared" in parts:
        at = parts.index("declared") + 1
        file = code_module(parts[1], parts[at:])
        behind = parts[at + len(file_parts(parts[1], parts[at:])):]
        return ".".join(["Rattle", CRATE, "specs", "declared", file, *behind])
    name = "".join(part.capitalize() for part in parts[1].split("_")) + "".join(parts[3:])
    return f"Rattle.{CRATE}.specs.{name}"


def file_parts(crate: str, path: list[str]) -> list[str]:
    """How many parts of a path name the file of code."""
    for count in range(len(path), 0, -1):
        if os.path.isfile(f"{TOP}/crates/{crate}/src/{'/'.join(path[:count])}.rt"):
            return path[:count]
    raise NotRead(f"no file of code for {crate} {path}")


def code_module(crate: str, path: list[str]) -> str:
    return "_".join([crate, *file_parts(crate, path)])


def code_file(path: str) -> str:
    """The module of a file of code."""
    parts = path.split("/")
    return "_".join([parts[1], *parts[3:]]).removesuffix(".rt")


class Alone:
    def __init__(self, repository: Repository, statement: Statement, left_out: Target | None = None):
        self.repository, self.statement, self.left_out = repository, statement, left_out
        self.needed = {definition.target: definition for definition in statement.needed if definition.target != left_out}

    # ---- definitions

    def used_imports(self, file: File, needed: list[Needed]) -> set[str]:
        """The short names of a file's `use` lines that the needed definitions use."""
        keys: set[str] = set()
        for definition in needed:
            if definition.item is None:
                continue
            uses = Uses(file.path, lambda word: self.repository.is_constructor(file, word))
            bound: frozenset[str] = frozenset()
            for block in definition.blocks:
                words = parameters_of(block)
                at = 0
                while at < len(words):
                    at, bound = uses.group(words, at, bound)
            named = uses.found + names_in_item(
                file.path, definition.item, lambda word: self.repository.is_constructor(file, word), bound)
            keys.update(key for name in named if (key := self.key(file, name)))
        return keys

    def key(self, file: File, name: Named) -> str | None:
        first = name.parts[0]
        if self.repository.own(file, first):
            return None
        if first in file.imports:
            return first
        if f"{first}." in file.imports and len(name.parts) > 1:
            return f"{first}."
        return next((key for key in file.imports if "◌" in key and first in parts_of(key)), None)

    def specs(self, file: File, needed: list[Needed]) -> str:
        lines = []
        for key in sorted(self.used_imports(file, needed)):
            imported = file.imports[key]
            if imported.name is None:
                short = key.removesuffix(".")
                keeps_name = imported.module.endswith(f".{short}") and not self.repository.is_own(imported.module)
                lines.append(f"use {module_of(imported.module)}" + ("" if keeps_name else f" as {short}"))
                continue
            target = self.repository.item(imported.module, imported.name)
            module = target.module if target and target.kind == "definition" else imported.module
            name = f"{imported.name} as {key}" if imported.name != key else key
            lines.append(f"use {module_of(module)}.{{{name}}}")
        shown: tuple[int, ...] = ()
        for it2 in needed:
            head, shown = heads(it2, shown)
            lines += ["", *([head] if head else []), text_of(self.repository, it2)]
        return "\n".join(lines) + "\n"

    # ---- code

    def source(self, needed: list[Needed]) -> str:
        lines = [f"//! From {needed[0].path}."]
        wanted: set[Target] = set()
        for definition in needed:
            wanted.update(name for name in definition.names if name.kind == "code" and name in self.needed)
        own = {definition.target for definition in needed}
        path = next(definition.code.path for definition in needed if definition.code)
        for use in self.repository.code_of[path].ghost_uses:
            lines += self.ghost_use(path, use)
        lines += [f"use crate::{code_file(self.needed[target].path)}::{target.name};"
                  for target in sorted(wanted - own, key=str)]
        items = [plain_item(text_of(self.repository, definition)) for definition in needed]
        lines += library_uses(self.repository.code_of[path].text, "\n".join(items))
        for item in items:
            lines += ["", item]
        return "\n".join(lines) + "\n"

    def ghost_use(self, path: str, use: str) -> list[str]:
        """The part of a `ghost use` line that is there."""
        file = self.repository.ghost_file(path)
        kept = []
        for key, imported in file.imports.items():
            if imported.name and imported.module == use.split(".{")[0]:
                target = self.repository.item(imported.module, imported.name)
                if target and (target.kind == "library" or target in self.needed):
                    kept.append(imported.name if imported.name == key else f"{imported.name} as {key}")
        return [f"ghost use {module_of(use.split('.{')[0])}.{{{', '.join(kept)}}};"] if kept else []

    # ---- the clause

    def claim(self) -> str:
        """The clauses as one statement: for all values that they read, where the premises hold, each of the others."""
        statement, path = self.statement, self.statement.function.path
        lines = []
        for use in self.repository.code_of[path].ghost_uses:
            lines += [line.removeprefix("ghost ").rstrip(";") for line in self.ghost_use(path, use)]
        of_code = {name: None for piece in statement.handed for name in piece.names if name.kind == "definition"}
        lines += [f"use {module_of(name.module)}.{{{name.name}}}" for name in of_code]
        texts = [re.sub(r"\b(\w+)\.(old|new|now)\b", r"\1_\2", clause.text) for clause in statement.clauses]
        names = list(dict.fromkeys(re.findall(r"\b\w+_(?:old|new|now)\b|\bresult\b", " ".join(texts))))
        types = [value_type(statement, name) for name in names]
        lines += [f"use {module}.{{{name}}}" for module, name in LIBRARY_TYPES if any(name in re.findall(r'\w+', each) for each in types)
                  and not any(f"{{{name}" in line or f", {name}" in line for line in lines)]
        premises = [f"({text})" for text, clause in zip(texts, statement.clauses) if clause.word == "requires"]
        claims = " × ".join(f"({text})" for text, clause in zip(texts, statement.clauses) if clause.word != "requires")
        lines += ["", f"pub claim : {{A : Type 0}} → {' → '.join(f'({name} : {each})' for name, each in zip(names, types))} → Type 0",
                  f"claim {' '.join(names)} = {' → '.join([*premises, claims])}"]
        return "\n".join(lines) + "\n"

    # ---- the crate

    def write(self, folder: str) -> None:
        crate = f"{folder}/crates/{CRATE}"
        shutil.rmtree(crate, ignore_errors=True)
        for part in ("src", "specs", "proofs"):
            os.makedirs(f"{crate}/{part}")
        claim = self.claim()
        libraries = {module.split(".")[1] for module in self.statement.library if module.startswith("Rattle.")}
        libraries |= set(re.findall(r"^use Rattle\.(\w+)", claim, re.M))
        write(f"{folder}/crates.txt", f"{CRATE}: {' '.join(sorted(libraries - {'std', 'core', CRATE}))}\n")
        write(f"{folder}/HANDLES", "Handles allowed: none.\n")
        modules, sources = [], []
        for path in dict.fromkeys(definition.path for definition in self.statement.needed):
            needed = sorted((definition for definition in self.needed.values() if definition.path == path),
                            key=lambda definition: definition.first)
            if not needed:
                continue
            file = needed[0].file
            if file:
                name = module_of(file.module).rpartition(".")[2]
                modules.append(name)
                write(f"{crate}/specs/{name}.antt", self.specs(file, needed))
            else:
                sources.append(code_file(path))
                write(f"{crate}/src/{sources[-1]}.rt", self.source(needed))
        modules.append("Claim")
        write(f"{crate}/specs/Claim.antt", claim)
        write(f"{crate}/specs/Lib.antt", "".join(f"pub mod {name}\n" for name in modules))
        write(f"{crate}/proofs/Lib.antt", "")
        write(f"{crate}/src/lib.rt", "//! The definitions of a reading list.\n#![tactic(auto)]\n\n"
              + "".join(f"pub mod {name};\n" for name in sources))


def value_type(statement: Statement, name: str) -> str:
    """The type of a value that clauses read: of the answer, of a parameter with a model, or of plain words or numbers."""
    if name == "result":
        return "ℕ"
    parameter = name.rpartition("_")[0]
    found = re.search(rf"\b{parameter}: &(?:mut )?(\[String\]|\w+)", statement.function.head)
    written = found[1] if found else ""
    if written in PLAIN_TYPES:
        return PLAIN_TYPES[written]
    for piece in statement.handed:
        model = re.search(rf"Model for {written}\b.*?ghost Value = \{{ (.*?) \}};", piece.text, re.DOTALL)
        if model:
            return model[1]
    raise NotRead(f"{statement.function.path}: of what type is the value {name}?")


def library_uses(code: str, items: str) -> list[str]:
    """The `use` lines of the libraries that some items of a file of code need."""
    found = []
    for path, names in re.findall(r"^use (std(?:::\w+)*)::(\w+|\{[^}]*\});", code, re.M):
        kept = [name for name in re.findall(r"\w+", names) if re.search(rf"\b{name}\b", items)]
        found += [f"use {path}::{name};" for name in kept]
    return found


def plain_item(text: str) -> str:
    """An item of the code without what it derives for running."""
    def kept(match: re.Match[str]) -> str:
        names = [derive for derive in re.findall(r"\w+", match[1]) if derive in KEPT_DERIVES]
        return f"#[derive({', '.join(names)})]" if names else ""
    text = re.sub(r"#\[derive\(([^)]*)\)\]", kept, text)
    return re.sub(r"\n *#\[(?!derive)[^\n]*\]", "", text)


def write(path: str, text: str) -> None:
    with open(path, "w", encoding="utf-8") as file:
        file.write(text)


def check(folder: str) -> tuple[bool, str]:
    done = subprocess.run(["rt", "check"], cwd=f"{folder}/crates/{CRATE}", stdout=subprocess.PIPE, stderr=subprocess.STDOUT, text=True)
    return done.returncode == 0, done.stdout


def drawn(items: list[Needed], count: int, seed: int = 0) -> list[Needed]:
    """So many of them, in their order."""
    chosen = set(random.Random(seed).sample(range(len(items)), min(count, len(items))))
    return [item for index, item in enumerate(items) if index in chosen]


def main() -> int:
    if len(sys.argv) < 4:
        print(__doc__)
        return 2
    repository = Repository(TOP)
    statement = statement_of(repository, sys.argv[1], sys.argv[2])
    folder = sys.argv[3]
    Alone(repository, statement).write(folder)
    proved, said = check(folder)
    print(f"all {len(statement.needed)}: {'accepted' if proved else 'refused'}")
    if not proved:
        print(said[-3000:])
        return 1
    way = next((word for word in ("--each", "--some") if word in sys.argv), None)
    if way is None:
        return 0
    numbers = [int(word) for word in sys.argv[sys.argv.index(way) + 1:]]
    all_of_them = statement.needed
    chosen = all_of_them[slice(*numbers) if numbers else slice(None)] if way == "--each" else drawn(all_of_them, *numbers)
    kept = 0
    for definition in chosen:
        Alone(repository, statement, definition.target).write(folder)
        proved, said = check(folder)
        kept += proved
        verdict = "NOT NEEDED" if proved else "needed"
        print(f"{verdict} {definition.path}:{definition.first} {definition.target.name}", flush=True)
    print(f"{len(chosen)} of {len(all_of_them)} left out in turn, {kept} are not needed")
    return kept != 0


if __name__ == "__main__":
    sys.exit(main())
