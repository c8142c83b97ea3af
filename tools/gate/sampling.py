"""How many processor seconds each task of a running gate takes, sampled from Linux's /proc."""
import os
from dataclasses import dataclass
from typing import Optional

TICKS_PER_SECOND = os.sysconf("SC_CLK_TCK")

# What the prover does for a crate: its code, its tests, the check on which its edits are tried, the edits.
KINDS = ("code", "tests", "ground", "edits")

# What the folder begins with in which a crate is checked with an edit. In some kits the last part of the path of the proofs that
# such a check begins with is this word for the ground itself, else the number of the edit among the crate's, from 0. In others the
# edits of a crate are checked in their order, each in a folder of its own, and the ground comes behind them.
EDIT_FOLDER = "/rt-edit-"
GROUND = "seed"


@dataclass(frozen=True)
class Task:
    """What one process of the prover works at. An edit has its number where that is known."""

    crate: str
    kind: str
    edit: Optional[int] = None


@dataclass(frozen=True)
class Process:
    """A process with its parent and the processor seconds that it took itself. Its number alone may come again later."""

    number: int
    begun: str
    parent: int
    seconds: float


def text_of(path: str) -> bytes:
    """Returns what a file of /proc holds, nothing where the process has ended."""
    try:
        with open(path, "rb") as file:
            return file.read()
    except OSError:
        return b""


def processes() -> dict[int, Process]:
    """Returns all processes that run."""
    found = {}
    for name in os.listdir("/proc"):
        if name.isdigit():
            fields = text_of(f"/proc/{name}/stat").rpartition(b") ")[2].split()
            if len(fields) > 19:
                seconds = (int(fields[11]) + int(fields[12])) / TICKS_PER_SECOND
                found[int(name)] = Process(int(name), fields[19].decode(), int(fields[1]), seconds)
    return found


def is_below(process: Process, top: int, running: dict[int, Process]) -> bool:
    """Returns whether a process is the one at the top, or was started by one that is."""
    number = process.number
    while number in running and number != top:
        number = running[number].parent
    return number == top


def value_of(words: list[str], option: str) -> Optional[str]:
    """Returns the word behind an option."""
    return words[words.index(option) + 1] if option in words[:-1] else None


def task_of(words: list[str], folder: str) -> Optional[Task]:
    """Returns what a process with these words works at in this folder, None where it is no process of the prover."""
    crate = value_of(words, "--crate-name")
    if crate is None:
        return None
    if EDIT_FOLDER not in folder:
        return Task(crate, "tests" if "--test" in words else "code")
    proofs = os.path.basename((value_of(words, "--incremental") or "").rstrip("/"))
    if proofs == GROUND:
        return Task(crate, "ground")
    return Task(crate, "edits", int(proofs) if proofs.isdigit() else None)


class Sampler:
    """Adds up what the processes below one take. What a process takes after the last look at it is not counted."""

    def __init__(self) -> None:
        self.tasks: dict[tuple[int, str], Task] = {}
        self.taken: dict[tuple[int, str], float] = {}
        # the folders in which edits of a crate were checked, in the order in which they were seen
        self.folders: dict[str, list[str]] = {}

    def look(self, top: int) -> None:
        """Looks once at all processes below this one."""
        running = processes()
        for process in running.values():
            key = process.number, process.begun
            if not is_below(process, top, running):
                continue
            if key not in self.tasks:
                words = text_of(f"/proc/{process.number}/cmdline").decode(errors="replace").split("\0")
                try:
                    folder = os.readlink(f"/proc/{process.number}/cwd")
                except OSError:
                    continue
                task = task_of(words, folder)
                if task:
                    self.tasks[key] = self.numbered(task, folder)
            if key in self.tasks:
                self.taken[key] = process.seconds

    def numbered(self, task: Task, folder: str) -> Task:
        """Returns the task with the number of its edit: without another one that of its folder among those of the crate's edits."""
        if task.kind != "edits" or task.edit is not None:
            return task
        folders = self.folders.setdefault(task.crate, [])
        if folder not in folders:
            folders.append(folder)
        return Task(task.crate, task.kind, folders.index(folder))

    def seconds(self) -> dict[Task, float]:
        """Returns the processor seconds of each task."""
        sums: dict[Task, float] = {}
        for key, seconds in self.taken.items():
            sums[self.tasks[key]] = sums.get(self.tasks[key], 0.0) + seconds
        return sums
