"""A scheduler of Dask and hosts with two workers each, on this machine: network namespaces with names of their own where
root can make them, else only processes. What was started is ended with the cluster,
or by itself where nobody asks."""

from __future__ import annotations

import contextlib
import os
import pathlib
import random
import shutil
import signal
import socket
import subprocess
import sys
import time
from typing import Callable, Iterator, Optional, Sequence

from formula_score.host.packages import DEBIAN, debian_has, has

#: Nothing is waited for longer, and nobody who was started is there so many seconds after an end.
LONGEST, GONE = 300.0, 2.0
#: A worker is given up once the scheduler has not heard of it for so long.
WORKER_TTL = "10s"


def python() -> Optional[str]:
    """A Python that has distributed."""
    return sys.executable if has("distributed") else DEBIAN if debian_has(["distributed"]) else None


def until(is_so: Callable[[], bool], longest: float = LONGEST) -> None:
    """Waits until it is so."""
    end = time.monotonic() + longest
    while not is_so():
        if time.monotonic() > end:
            raise AssertionError(f"not so after {longest:g} seconds: {is_so}")
        time.sleep(0.02)


def of_session(leader: int) -> list[int]:
    """The processes of a session that are alive."""
    found = []
    for name in filter(str.isdigit, os.listdir("/proc")):
        with contextlib.suppress(OSError):
            state, _, _, session = pathlib.Path("/proc", name, "stat").read_text().rpartition(") ")[2].split()[:4]
            if int(session) == leader and state not in "ZX":
                found.append(int(name))
    return found


def end(processes: Sequence[int], number: int = signal.SIGKILL) -> None:
    """Sends a signal to processes of ours."""
    for process in processes:
        with contextlib.suppress(ProcessLookupError):
            os.kill(process, number)


def free_port() -> int:
    """A port at which nobody listens."""
    with socket.socket() as free:
        free.bind(("", 0))
        port: int = free.getsockname()[1]
        return port


def can_have_networks() -> bool:
    """Whether network namespaces can be made here."""
    if os.geteuid() or not shutil.which("ip") or not shutil.which("unshare"):
        return False
    name = f"formula{os.getpid()}"
    made = _ip("netns", "add", name)
    return made and _ip("netns", "del", name)


def _ip(*words: str) -> bool:
    return subprocess.run(["ip", *words], stdout=subprocess.DEVNULL, stderr=subprocess.DEVNULL, check=False).returncode == 0


class Host:
    """A machine with two workers."""

    def __init__(self, cluster: "Cluster", number: int, preload: Optional[pathlib.Path]):
        self.name, self.network = f"host{number}", ""
        address = "127.0.0.1"
        before: list[str] = []
        if cluster.has_networks:
            address = self._network(number)
            self.name = self.network
            own = "mount -t tmpfs none /tmp && mount -t tmpfs none /dev/shm &&" if cluster.is_alone else ""
            before = ["ip", "netns", "exec", self.network, "unshare", "--uts", "--mount", "sh", "-c",
                      f'hostname "$0"; {own} exec "$@"', self.name]
        words = [cluster.python, "-m", "distributed.cli.dask_worker", f"{cluster.protocol}://{address}:{cluster.port}",
                 "--nworkers", "2", "--nthreads", "1", "--no-dashboard", "--name", self.name,
                 "--death-timeout", f"{LONGEST:g}", "--local-directory", str(cluster.folder / self.name), *cluster.certificates]
        self.process = cluster.start([*before, *words, *(["--preload", str(preload)] if preload else [])], self.name)

    def _network(self, number: int) -> str:
        """A network of its own, with this machine alone beside it, and the address of this machine there."""
        while True:
            self.network = f"formula{random.randrange(1 << 24):06x}"
            part = f"10.{random.randrange(64, 128)}.{random.randrange(256)}"
            outside, inside = f"fo{self.network[-6:]}o", f"fo{self.network[-6:]}i"
            if _ip("netns", "add", self.network) and _ip("link", "add", outside, "type", "veth", "peer", inside, "netns",
                                                        self.network):
                break
        self.link = outside
        for words in (("addr", "add", f"{part}.1/24", "dev", outside), ("link", "set", outside, "up"),
                      ("-n", self.network, "addr", "add", f"{part}.2/24", "dev", inside),
                      ("-n", self.network, "link", "set", inside, "up"), ("-n", self.network, "link", "set", "lo", "up")):
            if not _ip(*words):
                raise OSError(f"ip {' '.join(words)} failed")
        return f"{part}.1"

    def workers(self) -> list[int]:
        """The processes that play."""
        return [process for process in of_session(self.process.pid) if b"spawn_main" in _words_of(process)]

    def falls(self) -> None:
        """The machine is gone, without a word where it has a network of its own."""
        if self.network:
            _ip("link", "set", self.link, "down")
        end(of_session(self.process.pid))

    def remove(self) -> None:
        """Ends what is left of it."""
        end(of_session(self.process.pid))
        self.process.wait()
        if self.network:
            _ip("netns", "del", self.network)


def _words_of(process: int) -> bytes:
    try:
        return pathlib.Path("/proc", str(process), "cmdline").read_bytes()
    except OSError:
        return b""


class Cluster:
    """A scheduler, and the hosts that have joined it. Where they are alone, each that has a network of its own has a
    /tmp and a /dev/shm of its own, too, and the folder is elsewhere."""

    def __init__(self, folder: pathlib.Path, certificates: Sequence[str] = (), is_alone: bool = False):
        found = python()
        assert found is not None
        self.folder, self.python, self.certificates, self.is_alone = folder, found, certificates, is_alone
        self.protocol = "tls" if certificates else "tcp"
        self.has_networks = not certificates and can_have_networks()
        self.port = free_port()
        self.hosts: list[Host] = []
        at = [] if self.has_networks else ["--host", "127.0.0.1"]
        self.scheduler = self.start([self.python, "-m", "distributed.cli.dask_scheduler", "--port", str(self.port), *at,
                                     "--protocol", self.protocol, "--no-dashboard",
                                     "--idle-timeout", f"{3 * LONGEST:g}s", *certificates], "scheduler")
        until(self._listens)

    @property
    def address(self) -> str:
        """How an asker on this machine reaches the scheduler."""
        return f"{'tls://' if self.certificates else ''}127.0.0.1:{self.port}"

    def start(self, words: Sequence[str], name: str) -> "subprocess.Popen[bytes]":
        """Starts a process in a session of its own."""
        with open(self.folder / f"{name}.log", "ab") as log:
            return subprocess.Popen(words, stdin=subprocess.DEVNULL, stdout=log, stderr=log, start_new_session=True,
                                    cwd=self.folder, env={**os.environ, "DASK_DISTRIBUTED__SCHEDULER__WORKER_TTL": WORKER_TTL})

    def _listens(self) -> bool:
        with socket.socket() as client:
            return client.connect_ex(("127.0.0.1", self.port)) == 0

    def host(self, preload: Optional[pathlib.Path] = None) -> Host:
        """One more host."""
        self.hosts.append(Host(self, len(self.hosts), preload))
        return self.hosts[-1]

    def joined(self) -> int:
        """How many workers have said that they joined."""
        return (self.folder / "scheduler.log").read_bytes().count(b"Register worker")

    def remove(self) -> None:
        """Ends all."""
        for host in self.hosts:
            host.remove()
        end(of_session(self.scheduler.pid))
        self.scheduler.wait()


@contextlib.contextmanager
def cluster_of(folder: pathlib.Path, hosts: int = 2, certificates: Sequence[str] = (),
               is_alone: bool = False) -> Iterator[Cluster]:
    """A cluster with so many hosts, whose workers have joined."""
    cluster = Cluster(folder, certificates, is_alone)
    try:
        for _ in range(hosts):
            cluster.host()
        until(lambda: cluster.joined() >= 2 * hosts)
        yield cluster
    finally:
        cluster.remove()
