"""Plays batches on a cluster in which something fails, and compares what is there at the end.

Each fault starts a scheduler of Dask and hosts with two workers: network namespaces where root can make them, else
processes. A batch then ends with all files right, or with a status and a line that says what to do; a second run plays
the rest, and no other; two seconds after the end nobody of the batch is at work, and OUT has nothing but results."""

from __future__ import annotations

import argparse
import os
import pathlib
import re
import shutil
import signal
import subprocess
import sys
import time
from typing import Callable

import harness
from batch_trial import REST, Trial, trial_of
from cluster import Cluster, Host, cluster_of, end, of_session, python, until

HERE = pathlib.Path(__file__).resolve().parent


# ---- the faults

def worker_killed(trial: Trial, cluster: Cluster) -> None:
    """A worker is killed."""
    batch = trial.begin("--dask", cluster.address)
    with trial.held(batch):
        end(cluster.hosts[0].workers()[:1])
    trial.is_whole(trial.ended(batch))


def host_gone(trial: Trial, cluster: Cluster) -> None:
    """A host is gone with all its workers."""
    batch = trial.begin("--dask", cluster.address)
    with trial.held(batch):
        cluster.hosts[0].falls()
    trial.is_whole(trial.ended(batch))


def worker_stopped(trial: Trial, cluster: Cluster) -> None:
    """A worker hangs."""
    batch = trial.begin("--dask", cluster.address)
    with trial.held(batch):
        end(cluster.hosts[0].workers()[:1], signal.SIGSTOP)
    trial.is_whole(trial.ended(batch))


def host_failing(trial: Trial, cluster: Cluster) -> None:
    """A host can run no program."""
    cluster.host(HERE / "failing_host.py")
    until(lambda: cluster.joined() >= 6)
    trial.is_whole(trial.run("--dask", cluster.address))


def hosts_failing(trial: Trial, cluster: Cluster) -> None:
    """No host can run a program."""
    for host in list(cluster.hosts):
        host.remove()
        cluster.hosts.remove(host)
    joined = cluster.joined()
    for _ in range(2):
        cluster.host(HERE / "failing_host.py")
    until(lambda: cluster.joined() >= joined + 4)
    said = trial.run("--dask", cluster.address)
    trial.check(said.status == 1 and bool(re.fullmatch(
        f"batch: nothing more is played: .*No space left.*: 0 of {trial.count} scores are done; {REST}\n", said.error)), said)
    trial.goes_on()


def scheduler_killed(trial: Trial, cluster: Cluster) -> None:
    """The scheduler is killed."""
    batch = trial.begin("--dask", cluster.address)
    with trial.held(batch):
        end(of_session(cluster.scheduler.pid))
    said = trial.ended(batch)
    trial.check(said.status == 1 and said.error.endswith(f"; {REST}\n") and said.error.count("\n") == 1, said)
    trial.goes_on()


def asker_killed(trial: Trial, cluster: Cluster) -> None:
    """Who asks is killed, with a cluster and without."""
    for words in (("--dask", cluster.address), ()):
        shutil.rmtree(trial.out, ignore_errors=True)
        batch = trial.begin(*words)
        with trial.held(batch):
            batch.kill()
        trial.check(trial.ended(batch).status == -signal.SIGKILL, "it ended before")
        trial.goes_on(*words)


def asker_interrupted(trial: Trial, cluster: Cluster) -> None:
    """Who asks gets a signal, with a cluster and without."""
    for number in (signal.SIGINT, signal.SIGTERM):
        for words in (("--dask", cluster.address), ()):
            shutil.rmtree(trial.out, ignore_errors=True)
            batch = trial.begin(*words)
            with trial.held(batch):
                batch.send_signal(number)
            said = trial.ended(batch)
            trial.check(said.status == 130 and bool(re.fullmatch(
                f"batch: interrupted: [0-9]+ of {trial.count} scores are done; {REST}\n", said.error)), said)
            trial.goes_on(*words)


def worker_joining(trial: Trial, cluster: Cluster) -> None:
    """Workers join, and the others are gone."""
    batch = trial.begin("--dask", cluster.address)
    trial.until_some()
    cluster.host()
    until(lambda: cluster.joined() >= 6)
    for host in cluster.hosts[:2]:
        host.falls()
    trial.is_whole(trial.ended(batch))


def _program(trial: Trial, mark: str, what: str) -> str:
    """A program that does something else where a text has a mark."""
    path = trial.top / mark
    path.write_text(f"#!/bin/sh\nif grep -q '{mark}' \"$4\"; then {what}; fi\nexec '{trial.program}' \"$@\"\n")
    path.chmod(0o755)
    return str(path)


def _with_mark(trial: Trial, cluster: Cluster, mark: str, what: str, status: str, line: str, *words: str) -> None:
    name = next(iter(trial.files))
    path = trial.folder / f"{name}.score"
    path.write_bytes(path.read_bytes() + f"# {mark}\n".encode())
    said = trial.run("--dask", cluster.address, *words, program=_program(trial, mark, what))
    trial.check(said.status == 1 and bool(re.search(f"^{status} +1$", said.out, re.M)) and line in said.out, said)
    trial.check(trial.wrong() == [name], trial.wrong()[:5])
    said = trial.run("--dask", cluster.address, program=_program(trial, mark, ":"))
    trial.is_whole(said)


def text_late(trial: Trial, cluster: Cluster) -> None:
    """A run takes longer than its limit."""
    _with_mark(trial, cluster, "late", "exec sleep 300.5", "124", "it took more than 5 seconds", "--seconds", "5")


def memory_gone(trial: Trial, cluster: Cluster) -> None:
    """A program is ended, as for memory."""
    _with_mark(trial, cluster, "memory", "kill -9 $$", "137", "9")


def disk_full(trial: Trial, cluster: Cluster) -> None:
    """The disk of OUT is full."""
    trial.out.mkdir()
    if os.geteuid() or subprocess.run(["mount", "-t", "tmpfs", "-o", "size=1m", "none", trial.out], check=False).returncode:
        print("NOT TRIED: a full disk, which root alone can have here")
        return
    try:
        said = trial.run("--dask", cluster.address)
        trial.check(said.status == 1 and bool(re.fullmatch(
            f"batch: .*: No space left on device: [0-9]+ of {trial.count} scores are done; {REST}\n", said.error)), said)
        trial.has_results_alone()
        subprocess.run(["mount", "-o", "remount,size=64m", trial.out], check=True)
        trial.goes_on("--dask", cluster.address)
    finally:
        subprocess.run(["umount", trial.out], check=True)


def folder_in_the_way(trial: Trial, cluster: Cluster) -> None:
    """A folder stands where a file should be."""
    name = next(iter(trial.files))
    (trial.out / f"{name}.mid").mkdir(parents=True)
    said = trial.run("--dask", cluster.address)
    trial.check(said.status == 1 and f"{name}.score: {name.rpartition('/')[2]}.mid: Is a directory" in said.out, said)
    (trial.out / f"{name}.mid").rmdir()
    trial.check(trial.wrong() == [name], trial.wrong()[:5])
    trial.goes_on("--dask", cluster.address)


def name_of_bytes(trial: Trial, cluster: Cluster) -> None:
    """A name is no UTF-8."""
    name = os.fsdecode(b"\xff\n\xe4")
    first = next(iter(trial.files))
    (trial.folder / f"{first}.score").rename(trial.folder / f"{name}.score")
    trial.files[name] = trial.files.pop(first)
    trial.is_whole(trial.run("--dask", cluster.address, "--csv", str(trial.top / "table")))
    (trial.out / f"{name}.mid").unlink()
    trial.goes_on("--dask", cluster.address)


def host_lying(trial: Trial, cluster: Cluster) -> None:
    """A host plays another score than it is sent: believed, and then audited, while it is there and when it is gone."""
    liar = cluster.host(HERE / "lying_host.py")
    until(lambda: cluster.joined() >= 6)
    said = trial.run("--dask", cluster.address)
    trial.check(said.status == 0 and bool(trial.wrong()), said)
    trial.check({result[4] for result in trial.results().values()} == {"believed"}, "not all are believed")
    said = trial.run("--dask", cluster.address, "--audit")
    trial.is_whole(said)
    trial.check(said.anew() == trial.count and f"{_machine(liar)} sent " in said.out, said)
    trial.check({result[4] for result in trial.results().values()} == {"audited", "played"}, "how they are known")
    liar.falls()
    trial.check(trial.run("--audit").anew() == 0, "what was audited was played again")


def _machine(host: Host) -> str:
    return host.name if host.network else os.uname().nodename


FAULTS: dict[str, Callable[[Trial, Cluster], None]] = {fault.__name__: fault for fault in (
    worker_killed, host_gone, worker_stopped, host_failing, hosts_failing, scheduler_killed, asker_killed, asker_interrupted,
    worker_joining, text_late, memory_gone, disk_full, folder_in_the_way, name_of_bytes, host_lying)}


def judged(name: str, program: str, count: int) -> str:
    """What is wrong with a batch under a fault; nothing where it is right."""
    with trial_of(program, count) as trial, cluster_of(trial.top) as cluster:
        try:
            FAULTS[name](trial, cluster)
        except (AssertionError, OSError, ValueError, subprocess.SubprocessError) as error:
            return f"{type(error).__name__}: {error}"
    return ""


def arguments(parser: argparse.ArgumentParser) -> None:
    """What the verb takes."""
    parser.add_argument("--scores", type=int, default=1000, help="how many scores, else 1,000")
    parser.add_argument("faults", nargs="*", metavar="FAULT", help=f"some of {', '.join(FAULTS)}; else all")


def run(program: str, asked: argparse.Namespace) -> harness.Count:
    """Tries the faults."""
    signal.signal(signal.SIGTERM, lambda *_: sys.exit(1))  # nothing is left of a cluster
    count = harness.Count()
    if python() is None:
        print("NOT TRIED: no Python here has distributed (python3-distributed)")
        return count
    for name in asked.faults or FAULTS:
        begun = time.monotonic()
        why = judged(name, program, asked.scores)
        print(f"{name}: {(FAULTS[name].__doc__ or '').strip()} {time.monotonic() - begun:.0f} seconds", flush=True)
        count.judge(name, why)
    return count
