"""Installs, tries and removes a package and a tarball in a clean Debian without the toolchain.

The clean Debian is a folder that mmdebstrap makes, of the packages of the mirror that this host uses, and is entered by
chroot: so it needs root. The tarball is tried there without python3 first. Then python3 is installed, which the package
needs.
"""

from __future__ import annotations

import os
import pathlib
import shutil
import subprocess
import sys
import tempfile
from typing import Iterator

#: The file of one quarter note, from the standard of MIDI files.
FILE = bytes.fromhex("4d54686400000006" "0000000101e0" "4d54726b00000014" "00ff510307a120" "00903c40" "8330803c40" "30ff2f00")
REFUSED = "formula: score refused: 1:20 fault 8"


class Trial:
    """A clean Debian in a folder, and how many looks at it were right."""

    def __init__(self, root: pathlib.Path):
        self.root, self.passed, self.failed = root, 0, 0

    def tell(self, name: str, is_right: bool, seen: str = "") -> None:
        """Counts one look, and says what is wrong with it."""
        if is_right:
            self.passed += 1
        else:
            self.failed += 1
            print(f"{name}: {seen}", flush=True)

    def run(self, *words: str, text: bytes = b"", user: bool = False) -> "subprocess.CompletedProcess[bytes]":
        """Runs a command in there, with no variable of this host."""
        as_user = ["setpriv", "--reuid=1234", "--regid=1234", "--clear-groups"] if user else []
        return subprocess.run(["chroot", str(self.root), *as_user, *words], input=text, capture_output=True, check=False,
                              env={"PATH": "/usr/sbin:/usr/bin:/sbin:/bin", "HOME": "/tmp", "LC_ALL": "C.UTF-8"}, cwd="/")

    def ends(self, name: str, status: int, said: str, why: str, *words: str, text: bytes = b"") -> None:
        """A command ends so, as a user without rights, and says this; its explanation has these words."""
        done = self.run(*words, text=text, user=True)
        out, err = done.stdout.decode(), done.stderr.decode()
        is_right = (done.returncode, out.strip()) == (status, said) and (why in err if why else not err)
        self.tell(name, is_right, f"status {done.returncode}, said {out!r}, explained {err!r}")

    def files(self) -> set[str]:
        """Each file and folder in there, but those of the run itself."""
        found: set[str] = set()
        for at, folders, names in os.walk(self.root):
            if at == str(self.root):
                folders[:] = [entry for entry in folders if entry not in ("dev", "proc", "sys", "tmp")]
            found.update(os.path.relpath(os.path.join(at, entry), self.root) for entry in (*folders, *names))
        return found

    def put(self, name: str, content: bytes) -> None:
        """Writes a file in there that everybody may read."""
        (self.root / name).write_bytes(content)
        (self.root / name).chmod(0o644)

    # ---- what is tried

    def plays(self, what: str, prefix: str, is_explained: bool = True) -> None:
        """The commands that are installed below a prefix do what they should."""
        formula, companion = f"{prefix}/bin/formula", f"{prefix}/bin/formula-score"
        out = self.root / "tmp/out.mid"
        self.ends(f"{what}, a score", 0, "", "", formula, "/tmp/note.score", "/tmp/out.mid")
        self.tell(f"{what}, its file", out.exists() and out.read_bytes() == FILE)
        why = "`ticks 274`" if is_explained else ""
        self.ends(f"{what}, a refused score", 3, REFUSED, why, formula, "/tmp/refused.score", "/tmp/out.mid")
        self.ends(f"{what}, from a pipe", 3, REFUSED, why, formula, "/dev/stdin", "/tmp/out.mid",
                  text=(self.root / "tmp/refused.score").read_bytes())
        self.ends(f"{what}, --help", 1, "formula: words refused", "usage: formula IN OUT" if is_explained else "", formula,
                  "--help")
        self.ends(f"{what}, a listing", 0, "format 0 tracks 1 division 480\n0 0 FF 51 03 07 A1 20\n0 0 90 3C 40\n"
                  "0 432 80 3C 40\n0 480 FF 2F 00", "", "sh", "-c", f"{formula} /tmp/out.mid /dev/stdout --list | cat")
        if not is_explained:
            return
        self.ends(f"{what}, one file", 1, "formula: words refused", "IN and OUT are one file", companion, "play",
                  "/tmp/note.score", "/tmp/note.score")
        done = self.run(companion, "play", "/tmp/note.score", "-", user=True)
        self.tell(f"{what}, to standard output", done.stdout == FILE, f"{done.returncode} {done.stderr!r}")
        done = self.run(companion, "play", "--version", user=True)
        self.tell(f"{what}, its version", done.returncode == 0 and b"commit   " in done.stdout and b"kit      " in done.stdout
                  and b"licence  " in done.stdout, f"{done.stdout!r} {done.stderr!r}")
        example = f"{prefix}/share/doc/rosetrowel/examples/scores/canon.score"
        done = self.run(companion, "bars", example, "--meter", "4/4", user=True)
        self.tell(f"{what}, bars", b"the piece    6 bars" in done.stdout, f"{done.returncode} {done.stdout!r} {done.stderr!r}")

    def try_deb(self, deb: pathlib.Path) -> None:
        """Installs the package, tries it and takes it away."""
        before = self.files()
        shutil.copy(deb, self.root / "tmp/package.deb")
        done = self.run("dpkg", "--install", "/tmp/package.deb")
        self.tell("the package is installed", done.returncode == 0, done.stdout.decode() + done.stderr.decode())
        self.plays("the package", "/usr")
        done = self.run("python3", "-c", "import formula_score as f; f.Score(f.note('c4', '1/4')).play('/tmp/py.mid')", user=True)
        self.tell("the library plays", done.returncode == 0 and (self.root / "tmp/py.mid").read_bytes() == FILE,
                  done.stderr.decode())
        done = self.run("dpkg-query", "--show", "--showformat=${Suggests}", "rosetrowel")
        for name in done.stdout.decode().split(", "):
            shown = self.run("apt-cache", "--quiet=0", "show", name)
            self.tell(f"the suggested package {name} is in Debian", f"Package: {name}\n".encode() in shown.stdout)
        for verb, needed in (("studio", "python3-aiohttp"), ("lsp", "python3-pylsp-jsonrpc"), ("listen", "fluidsynth")):
            done = self.run("/usr/bin/formula-score", verb, *(["/tmp/note.score"] if verb == "listen" else []), user=True)
            self.tell(f"{verb} names what it needs", done.returncode == 1 and needed.encode() in done.stderr,
                      f"{done.returncode} {done.stdout!r} {done.stderr!r}")
        done = self.run("dpkg", "--verify", "rosetrowel")
        self.tell("the package is as it was made", done.returncode == 0 and not done.stdout, done.stdout.decode())
        done = self.run("dpkg", "--purge", "rosetrowel")
        self.tell("the package is taken away", done.returncode == 0, done.stderr.decode())
        kept = "var/lib/dpkg", "var/log", "var/cache"
        left = sorted(name for name in self.files() ^ before if not name.startswith(kept))
        self.tell("the package leaves nothing", not left, ", ".join(left))

    def try_tarball(self, tarball: pathlib.Path, is_explained: bool) -> None:
        """Unpacks the tarball and runs what is in it there."""
        what = "the tarball" + ("" if is_explained else ", without python3")
        folder = self.root / "opt"
        subprocess.run(["tar", "-xzf", tarball, "-C", folder, "--no-same-owner"], check=True)
        name, = os.listdir(folder)
        self.plays(what, f"/opt/{name}", is_explained)
        shutil.rmtree(folder / name)


def _mirrors() -> Iterator[str]:
    """The lists of packages that this host uses."""
    for path in (pathlib.Path("/etc/apt/sources.list"), *sorted(pathlib.Path("/etc/apt/sources.list.d").glob("*"))):
        # apt reads no file with another ending
        if path.suffix in (".list", ".sources") and path.is_file() and path.stat().st_size:
            yield str(path)


def _suite() -> str:
    """The name of this host's Debian, as bookworm."""
    for line in pathlib.Path("/etc/os-release").read_text(encoding="utf-8").splitlines():
        if line.startswith("VERSION_CODENAME="):
            return line.partition("=")[2].strip('"')
    return "stable"


def trial(deb: pathlib.Path, tarball: pathlib.Path) -> int:
    """Tries both, and gives the status."""
    tool = shutil.which("mmdebstrap")
    if os.geteuid() or tool is None:
        print("scripts/package --try needs root and mmdebstrap", file=sys.stderr)
        return 1
    with tempfile.TemporaryDirectory() as folder:
        root = pathlib.Path(folder, "debian")
        subprocess.run([tool, "--quiet", "--variant=minbase", _suite(), str(root), *_mirrors()], check=True)
        return trial_in(root, deb, tarball)


def trial_in(root: pathlib.Path, deb: pathlib.Path, tarball: pathlib.Path) -> int:
    """Tries both in a clean Debian without python3, which is then installed there."""
    trial = Trial(root)
    trial.put("tmp/note.score", b"formula 1; note c4 1/4;")
    trial.put("tmp/refused.score", b"formula 1; note c4 1/7;")
    shutil.copy("/etc/resolv.conf", root / "etc/resolv.conf")
    subprocess.run(["mount", "-t", "proc", "proc", root / "proc"], check=True)
    try:
        trial.tell("neither the toolchain nor python3 is there",
                  trial.run("sh", "-c", "command -v rt python3").stdout == b"")
        trial.try_tarball(tarball, False)
        for words in (("apt-get", "-qq", "update"), ("apt-get", "-qq", "-y", "--no-install-recommends", "install", "python3")):
            done = trial.run(*words)
            trial.tell(" ".join(words), done.returncode == 0, done.stderr.decode())
        trial.try_tarball(tarball, True)
        trial.try_deb(deb)
    finally:
        subprocess.run(["umount", root / "proc"], check=False)
    print(f"{trial.passed} passed, {trial.failed} failed", flush=True)
    return 1 if trial.failed else 0
