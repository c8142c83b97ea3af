"""A build of the program that ends, fails, is killed or interrupted, and the next one: with a stand-in for the toolchain."""

from __future__ import annotations

import os
import pathlib
import re
import shutil
import signal
import subprocess
import tempfile
import time
import unittest

from .program import TOP

#: A crate takes a moment to be proved, and is then kept. One whose source says so is refused. It goes on if nobody reads
#: what it prints, as a check does that outlives the build.
RT = """\
#!/bin/sh
trap '' PIPE
if [ "$1" = try ]; then
    if [ -e "$TRIED/status" ]; then echo "error: it does not fit" && kill -9 $$; fi
    mkdir "$TRIED/rt-try" && cp /bin/cat "$TRIED/rt-try/program" && "$TRIED/rt-try/program" "$3"
    rm -r "$TRIED/rt-try"
    exit
fi
echo $$ >>"$TRIED/numbers"
echo "$@" >"$TRIED/words"
find . -type f | sort >"$TRIED/copy"
while IFS=: read -r name _; do
    echo "$name" >>"$TRIED/begun"
    if [ -e "$TRIED/kept/$name" ]; then
        echo "rt: $name is kept: an earlier run on this machine proved the same"
        continue
    fi
    sleep 0.1
    if grep -q wrong "crates/$name/src/lib.rt"; then
        printf '== %s\\nsrc/lib.rt:1:1: it is not proved\\nrt: %s NOT PROVED\\n' "$name" "$name"
    else
        echo "$name" >>"$TRIED/proved"
        touch "$TRIED/kept/$name"
        printf '== %s\\nrt: %s proved\\n' "$name" "$name"
    fi
done <crates.txt 2>/dev/null
mkdir -p crates/fm_main/out
ls "$TRIED/kept" >crates/fm_main/out/fm_main
chmod +x crates/fm_main/out/fm_main
exit "$(cat "$TRIED/status" 2>/dev/null || echo 0)"
"""
#: Each stands on the one before it, but for one that stands beside them, and then the program.
CRATES = [*(f"fm_{number}" for number in range(6)), "fm_beside", "fm_main"]


def is_at_work(process: str) -> bool:
    """Whether a process has not ended: one that has, and that nobody asked for its status, has no folder."""
    try:
        return bool(os.readlink(f"/proc/{process}/cwd"))
    except OSError:
        return False


class Build(unittest.TestCase):
    def setUp(self) -> None:
        folder = tempfile.TemporaryDirectory()
        self.addCleanup(folder.cleanup)
        self.top = pathlib.Path(folder.name)
        shutil.copytree(TOP / "tools" / "gate", self.top / "tools" / "gate", ignore=shutil.ignore_patterns("__pycache__"))
        below = ["", *CRATES[:5], "", "fm_5 fm_beside of_the_kit"]
        lines = ["# NAME: what it stands on", *map("{}: {}".format, CRATES, below), "fm_tests: fm_main", ""]
        (self.top / "crates.txt").write_text("\n".join(lines))
        (self.top / "HANDLES").touch()
        for name in (*CRATES, "fm_tests"):
            self.source(name).parent.mkdir(parents=True)
            self.source(name).write_text(name)
        (self.top / "kept").mkdir()
        stand_in = self.top / "bin" / "rt"
        stand_in.parent.mkdir()
        stand_in.write_text(RT)
        stand_in.chmod(0o755)
        self.program = self.top / "crates" / "fm_main" / "out" / "fm_main"

    def source(self, crate: str) -> pathlib.Path:
        """The file of the source of a crate."""
        return self.top / "crates" / crate / "src" / "lib.rt"

    def start(self, *words: str) -> "subprocess.Popen[str]":
        """A build that has begun."""
        # a shell lets what it runs beside it ignore SIGINT
        return subprocess.Popen([self.top / "tools" / "gate" / "build.py", *words], stdout=subprocess.PIPE, text=True,
                                stderr=subprocess.PIPE, stdin=subprocess.DEVNULL, start_new_session=True,
                                env={"PATH": f"{self.top / 'bin'}:{os.environ['PATH']}", "TRIED": str(self.top)},
                                preexec_fn=lambda: signal.signal(signal.SIGINT, signal.SIG_IGN) and None)

    def built(self, *words: str) -> tuple[int, str, str]:
        """The status of a build, and what it printed on standard output and on standard error."""
        with self.start(*words) as build:
            printed, told = build.communicate(timeout=60)
        self.assertNotIn("copy", os.listdir(self.program.parent))
        return build.returncode, printed, told

    def names(self, file: str) -> list[str]:
        """What the stand-in noted in a file, in its order."""
        path = self.top / file
        return path.read_text().split() if path.exists() else []

    def wait_for(self, crate: str) -> None:
        """Waits until a build works at this crate."""
        until = time.monotonic() + 60
        while crate not in self.names("begun") and time.monotonic() < until:
            time.sleep(0.01)

    def ended_at(self, crate: str, number: int) -> None:
        """Ends a build by a signal while it works at this crate."""
        (self.top / "begun").unlink(missing_ok=True)
        with self.start() as build:
            self.wait_for(crate)
            build.send_signal(number)
            # as the script does that ran the build, and was interrupted with it
            build.send_signal(signal.SIGTERM)
            # of two signals that come together, either may be heeded first
            self.assertIn(build.wait(60), [-number] if number == signal.SIGKILL else [128 + number, 128 + signal.SIGTERM])

    def test_an_interrupted_build_continues(self) -> None:
        for number in signal.SIGKILL, signal.SIGINT:
            with self.subTest(number.name):
                for crate in CRATES[0], CRATES[3], "fm_main":
                    self.ended_at(crate, number)
                self.assertEqual(self.built()[0], 0)
                self.assertEqual(self.program.read_text().split(), sorted(CRATES))
                # what was proved is proved once; a crate that was at work when the signal came, perhaps twice
                proved = self.names("proved")
                self.assertEqual({*proved}, {*CRATES})
                self.assertLessEqual(max(map(proved.count, proved)), 2)
                self.assertEqual(os.listdir(self.program.parent), ["fm_main"])
                self.assertEqual(list(filter(is_at_work, self.names("numbers"))), [])
                for path in (self.top / "proved", *(self.top / "kept").iterdir(), self.program):
                    path.unlink()

    def test_each_crate_that_is_done_is_told(self) -> None:
        status, printed, told = self.built()
        self.assertEqual((status, printed.count(" proved\n")), (0, len(CRATES)))
        self.assertEqual([line.split()[1] for line in told.splitlines()], CRATES)
        self.assertEqual(told.splitlines()[-2:], ["formula: fm_beside is done, 1 crate is left, less than a minute",
                                                  "formula: fm_main is done, 0 crates are left, less than a minute"])
        # of what rt has kept no time is told
        self.assertEqual(self.built()[2].splitlines()[0], "formula: fm_0 is done, 7 crates are left")
        self.assertEqual((self.names("proved"), self.names("words")), (CRATES, ["ci"]))

    def test_the_copy_has_what_is_proved_of_the_program_alone(self) -> None:
        for name in "must-fail/a.edit", "out/fm_0", "proofs/out/A.antt", "args":
            path = self.top / "crates" / "fm_0" / name
            path.parent.mkdir(parents=True, exist_ok=True)
            path.touch()
        self.assertEqual(self.built()[0], 0)
        files = {"HANDLES", "crates.txt", "crates/fm_0/args", "crates/fm_0/proofs/out/A.antt",
                 *(f"crates/{name}/src/lib.rt" for name in CRATES)}
        self.assertEqual({*self.names("copy")}, {f"./{name}" for name in files})

    def test_a_build_ends_at_a_crate_that_is_not_proved(self) -> None:
        self.source("fm_2").write_text("wrong")
        status, printed, _ = self.built()
        self.assertEqual((status, printed.splitlines()[-2:]),
                         (1, ["src/lib.rt:1:1: it is not proved", "rt: fm_2 NOT PROVED"]))
        self.assertEqual((self.names("proved"), os.listdir(self.program.parent)), (CRATES[:2], []))
        self.source("fm_2").write_text("right")
        self.assertEqual(self.built()[0], 0)
        self.assertEqual(self.names("proved"), CRATES)

    def test_the_status_of_rt_is_passed_on(self) -> None:
        (self.top / "status").write_text("2")
        self.assertEqual(self.built()[0], 2)
        self.assertEqual(os.listdir(self.program.parent), [])

    def test_builds_side_by_side_run_one_after_the_other(self) -> None:
        with self.start() as one, self.start() as other:
            told = [build.communicate(timeout=60)[1] for build in (one, other)]
        self.assertEqual((one.returncode, other.returncode, self.names("proved")), (0, 0, CRATES))
        self.assertEqual(sorted("this build waits" in lines for lines in told), [False, True])

    def test_the_program_is_older_than_what_was_changed_meanwhile(self) -> None:
        with self.start() as build:
            self.wait_for("fm_2")
            self.source("fm_1").write_text("changed")
            self.assertEqual(build.wait(60), 0)
        self.assertLess(self.program.stat().st_mtime, self.source("fm_1").stat().st_mtime)
        self.assertGreater(self.program.stat().st_mtime, self.source("fm_0").stat().st_mtime)

    def test_a_table_of_the_seconds_is_written(self) -> None:
        self.assertEqual(self.built("--seconds", str(self.top / "table"))[0], 0)
        self.assertEqual(self.names("words"), ["ci", "--anew"])
        head, *rows = (self.top / "table").read_text().splitlines()
        self.assertEqual((head[:2], [re.sub(r" \d+$", "", row) for row in rows]), ("# ", sorted(CRATES)))

    def test_without_the_toolchain_it_says_so(self) -> None:
        (self.top / "bin" / "rt").unlink()
        done = subprocess.run([self.top / "tools" / "gate" / "build.py"], stderr=subprocess.PIPE, text=True, check=False,
                              env={"PATH": "/usr/bin:/bin"})
        self.assertEqual((done.returncode, done.stderr), (127, "formula: the toolchain is not there: no rt on the PATH\n"))

    def test_a_program_without_proofs_is_kept_and_says_so(self) -> None:
        shutil.copy(TOP / "bin" / "formula", self.top / "bin")
        environment = {**os.environ, "TRIED": str(self.top), "PATH": f"{self.top / 'bin'}:{os.environ['PATH']}"}
        environment.pop("FORMULA", None)

        def formula(*words: str) -> "subprocess.CompletedProcess[str]":
            return subprocess.run([self.top / "bin" / "formula", *words], env=environment, capture_output=True, text=True,
                                  check=False)

        none = formula("--found")
        self.assertEqual(none.returncode, 70)
        self.assertRegex(none.stderr, r"bin/formula --unproved --keep .*\n.*bin/formula --program ")
        (self.top / "status").touch()
        failed = formula("--unproved", "--keep")
        self.assertEqual(failed.returncode, 70)
        self.assertIn("could not be built: rt try ended with signal KILL\nerror: it does not fit\n", failed.stderr)
        (self.top / "status").unlink()
        self.assertEqual(formula("--unproved", "--keep").returncode, 0)
        without_proofs = self.program.with_suffix(".unproved")
        self.assertEqual(without_proofs.read_bytes(), pathlib.Path("/bin/cat").read_bytes())
        found = formula("--found")
        self.assertEqual((found.returncode, found.stdout), (0, f"{without_proofs}\n"))
        self.assertIn("nothing is proved of this program", found.stderr)
        self.assertIn("nothing is proved of this program", formula("--unproved", "none", "out").stderr)
        self.assertFalse((self.top / "rt-try").exists())


if __name__ == "__main__":
    unittest.main()
