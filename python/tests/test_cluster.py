"""Batches on a cluster of Dask in which something fails, who may come in, and scores on processes of MPI."""

from __future__ import annotations

import importlib
import os
import pathlib
import re
import shutil
import subprocess
import sys
import tempfile
import unittest
from typing import Any

from formula_score import render
from formula_score.host.packages import DEBIAN, debian_has

from .program import PROGRAM, TOP, needs_program

sys.path[:0] = [str(TOP / "tools"), str(TOP / "tools" / "stress")]
batches: Any = importlib.import_module("batches")
cluster: Any = importlib.import_module("cluster")

needs_dask = unittest.skipIf(cluster.python() is None, "NOT TRIED: no Python here has distributed (python3-distributed)")
BATCHES = (TOP / "docs" / "BATCH.md").read_text(encoding="utf-8")


@needs_program
@needs_dask
class Faults(unittest.TestCase):
    """The others are tried by scripts/stress batch."""

    def judge(self, name: str) -> None:
        self.assertEqual(batches.judged(name, PROGRAM, 1000), "")

    def test_a_worker_that_is_killed(self) -> None:
        self.judge("worker_killed")

    def test_a_host_that_can_run_no_program(self) -> None:
        self.judge("host_failing")

    def test_a_scheduler_that_is_killed(self) -> None:
        self.judge("scheduler_killed")

    def test_an_asker_that_is_killed(self) -> None:
        self.judge("asker_killed")


@needs_program
@needs_dask
class Workers(unittest.TestCase):
    def files(self, host: Any) -> dict[str, set[str]]:
        """The files in the places where each worker of a host could leave one, and those that it has open."""
        seen: dict[str, set[str]] = {}
        for worker in host.workers():
            home = pathlib.Path("/proc", str(worker))
            places = [home / "cwd", *([home / "root/tmp", home / "root/dev/shm"] if host.network else [])]
            for place in places:
                seen[f"{place}"] = {f"{path.relative_to(place)}" for path in place.rglob("*") if path.suffix != ".log"}
            seen[f"{home}/fd"] = {os.readlink(path) for path in (home / "fd").iterdir() if os.path.lexists(path)}
        return seen

    def test_nothing_is_left_there(self) -> None:
        assert PROGRAM is not None
        with tempfile.TemporaryDirectory(dir="/var/tmp") as folder, batches.trial_of(PROGRAM, 300) as trial, \
                cluster.cluster_of(pathlib.Path(folder), 1, is_alone=True) as found:
            (host,) = found.hosts
            if not host.network:
                print("NOT TRIED: /tmp and /dev/shm of a worker, which root alone can give it")
            before = self.files(host)
            self.assertEqual(len([name for name in before if name.endswith("/cwd")]), 2)
            trial.is_whole(trial.run("--dask", found.address))
            for name, files in self.files(host).items():
                self.assertEqual({file for file in files - before[name] if not file.startswith("socket:")},
                                 {"/memfd:formula (deleted)"} if name.endswith("/fd") else set(), name)


@needs_program
@needs_dask
class Certificates(unittest.TestCase):
    """The page's lines make an authority of one's own, and certificates by it."""

    def setUp(self) -> None:
        if shutil.which("openssl") is None:
            self.skipTest("NOT TRIED: there is no openssl")
        folder = tempfile.TemporaryDirectory()
        self.addCleanup(folder.cleanup)
        self.top = pathlib.Path(folder.name)
        made = re.search(r"^```sh\n(openssl .*?)^```", BATCHES, re.M | re.S)
        assert made is not None
        subprocess.run(["sh", "-e", "-c", made[1]], cwd=self.top, stderr=subprocess.DEVNULL, check=True)

    def test_who_has_a_certificate_comes_in(self) -> None:
        assert PROGRAM is not None
        given = [word for name, file in (("ca-file", "ca.pem"), ("cert", "batch.pem"), ("key", "batch.key"))
                 for word in (f"--tls-{name}", str(self.top / file))]
        own = {f"DASK_DISTRIBUTED__COMM__TLS__{name}": str(self.top / file) for name, file in (
            ("CA_FILE", "ca.pem"), ("CLIENT__CERT", "batch.pem"), ("CLIENT__KEY", "batch.key"))}
        (self.top / "scores").mkdir()
        (self.top / "scores" / "a.score").write_text("formula 1; note c4 1/4;")
        with cluster.cluster_of(self.top, 1, given) as found:
            words = [sys.executable, str(TOP / "bin" / "formula-score"), "batch", "--dask", found.address,
                     "--program", PROGRAM, str(self.top / "scores"), str(self.top / "out")]
            done = subprocess.run(words, stdout=subprocess.PIPE, stderr=subprocess.PIPE, text=True, check=False)
            self.assertEqual((done.returncode, done.stdout), (70, ""), done)
            self.assertRegex(done.stderr, r"\Abatch: tls://.* needs certificates: .*\n\Z")
            done = subprocess.run(words, stdout=subprocess.PIPE, stderr=subprocess.PIPE, text=True, check=False,
                                  env={**os.environ, **own})
            self.assertEqual((done.returncode, done.stderr), (0, ""), done)
        self.assertEqual((self.top / "out" / "a.mid").read_bytes(), render("formula 1; note c4 1/4;", PROGRAM))


@needs_program
class Mpi(unittest.TestCase):
    def test_the_example_of_the_page_plays(self) -> None:
        if shutil.which("mpiexec") is None or not debian_has(["mpi4py"]):
            self.skipTest("NOT TRIED: there is no mpi4py (python3-mpi4py)")
        example = re.search(r"^```python\n(from mpi4py.*?)^```", BATCHES, re.M | re.S)
        assert example is not None and PROGRAM is not None
        with tempfile.TemporaryDirectory() as folder:
            pathlib.Path(folder, "many.py").write_text(example[1])
            done = subprocess.run(
                ["mpiexec", "--allow-run-as-root", "--oversubscribe", "-n", "3", DEBIAN, "-m", "mpi4py.futures", "many.py"],
                cwd=folder, stdout=subprocess.PIPE, stderr=subprocess.STDOUT, text=True, check=False, timeout=300,
                env={**os.environ, "PYTHONPATH": str(TOP / "python"), "FORMULA": PROGRAM})
            self.assertEqual(done.returncode, 0, done.stdout)
            files = sorted(pathlib.Path(folder).glob("*.mid"))
            self.assertEqual(len(files), 20, done.stdout)
            self.assertEqual(files[3].read_bytes(), render("formula 1; seed 3; repeat 8 { note key (60 + pick(12)) 1/8; }", PROGRAM))


if __name__ == "__main__":
    unittest.main()
