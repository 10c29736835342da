"""Tests of ./signal and tools/build_program.py over a toolchain that only pretends: python3 -m unittest discover tools"""

import os
import shutil
import subprocess
import unittest
from pathlib import Path
from tempfile import TemporaryDirectory

from build_program import Progress
from crates import at_or_below, crate_lines

ROOT = Path(__file__).resolve().parents[1]

CRATES = """# Base
low:
beside: low
signal_program may_wait=1: low   # the program
"""

# What stands for rt: `try` leaves a program where rt links it, and `ci` builds one of what it finds; each notes that it was called.
RT = """#!/bin/sh
[ "$1" = --version ] && exit
echo "$1" >> "$CALLS"
program='#!/bin/sh
echo "KIND $*"
echo "own line" >&2
exit 3'
case $1 in
try)
    mkdir "$TMPDIR/linked"
    echo "$program" | sed s/KIND/unproved/ > "$TMPDIR/linked/program.tmp1"
    chmod +x "$TMPDIR/linked/program.tmp1"
    mv "$TMPDIR/linked/program.tmp1" "$TMPDIR/linked/program"
    sleep 1
    ;;
ci)
    find . -type f | sort > "$CALLS.files"
    echo "== low"
    if [ -e crates/low/src/wrong ]; then
        echo "fn low::f: not proved"
        echo "rt: low NOT PROVED"
        echo "rt: signal_program NOT PROVED: its library low failed"
        exit 1
    fi
    echo "rt: low proved"
    echo "rt: signal_program is kept: an earlier run on this machine proved the same files"
    mkdir -p crates/signal_program/out
    echo "$program" | sed s/KIND/proved/ > crates/signal_program/out/signal_program
    ;;
esac
"""


class SignalTest(unittest.TestCase):
    def setUp(self):
        place = TemporaryDirectory()
        self.addCleanup(place.cleanup)
        self.root = Path(place.name) / "clone"
        for crate in ("low", "beside", "signal_program"):
            for part in ("src", "must-fail", "wrong-bodies", "out"):
                self.write(f"crates/{crate}/{part}/file", "")
        self.write("crates.txt", CRATES)
        self.write("HANDLES", "Handles allowed: none.\n")
        for name in ("signal", "tools/help.txt", "tools/build_program.py", "tools/crates.py", "tools/sources.py"):
            (self.root / name).parent.mkdir(exist_ok=True)
            shutil.copy(ROOT / name, self.root / name)
        self.write("bin/rt", RT).chmod(0o755)
        self.calls = Path(place.name) / "calls"

    def write(self, name, text):
        file = self.root / name
        file.parent.mkdir(parents=True, exist_ok=True)
        file.write_text(text)
        return file

    def call(self, *words, path=None):
        """The status, output and error of ./signal with these words."""
        path = f"{self.root}/bin:{os.environ['PATH']}" if path is None else path
        settings = {**os.environ, "PATH": path, "CALLS": str(self.calls)}
        how = {"env": settings, "capture_output": True, "text": True, "timeout": 60}
        run = subprocess.run([self.root / "signal", *words], check=False, **how)
        return run.returncode, run.stdout, run.stderr

    def called(self):
        return self.calls.read_text().split() if self.calls.exists() else []

    def test_words_that_are_no_call(self):
        for words in ((), ("nothing",), ("plan",), ("plan", "a", "b"), ("compare", "a"), ("--build", "a"), ("--proved", "plan")):
            self.assertEqual(self.call(*words), (2, "", "signal: usage\n"), words)
        for words in (("help",), ("-h",), ("--help",), ("plan", "--help")):
            self.assertEqual((self.call(*words)[0], self.call(*words)[2]), (0, ""), words)
        self.assertEqual(self.called(), [])

    def test_what_is_missing(self):
        tools = self.root / "few"
        tools.mkdir()
        for name in ("sh", "awk", "dirname", "find", "head", "mkdir", "readlink"):
            (tools / name).symlink_to(shutil.which(name))
        status, out, err = self.call("plan", "x", path=str(tools))
        self.assertEqual((status, out), (125, ""))
        self.assertIn("no `rt` on the path", err.splitlines()[-1])
        (tools / "rt").symlink_to(self.root / "bin/rt")
        self.assertIn("no `python3` on the path", self.call("plan", "x", path=str(tools))[2].splitlines()[-1])

    def test_an_answer_that_is_not_proved(self):
        status, out, err = self.call("plan", "x")
        self.assertEqual((status, out), (3, "unproved plan x\n"))
        self.assertIn("not proved yet", err.splitlines()[0])
        self.assertEqual(err.splitlines()[1:], ["own line"])
        self.assertEqual(len(self.call("plan", "y")[2].splitlines()), 2)
        self.assertEqual(self.called(), ["try"])
        self.write("crates/beside/src/file", "changed")
        self.call("plan", "y")
        self.assertEqual(self.called(), ["try"])
        self.write("crates/low/src/file", "changed")
        self.call("plan", "y")
        self.assertEqual(self.called(), ["try", "try"])

    def test_the_proved_program(self):
        status, out, err = self.call("--build")
        self.assertEqual((status, out), (0, ""))
        self.assertIn("signal: 1 of 2 crates: low", err)
        self.assertIn("signal: 2 of 2 crates: signal_program, kept from an earlier run", err)
        files = Path(f"{self.calls}.files").read_text().split()
        wanted = [f"./crates/{crate}/src/file" for crate in ("low", "signal_program")]
        self.assertCountEqual(files, ["./HANDLES", "./crates.txt", *wanted])
        self.assertEqual(self.call("plan", "x"), (3, "proved plan x\n", "own line\n"))
        self.assertEqual(self.call("--proved", "plan", "x"), (3, "proved plan x\n", "own line\n"))
        status, out, err = self.call("--build")
        self.assertEqual((status, out, err.count("\n")), (0, "", 1))
        self.assertRegex(err, r"^signal: proved: 2 files of 2 crates with the sum [0-9a-f]{64}, by ")
        self.assertRegex(self.call("--version")[1], r"^kolvunh .*: proved$")
        self.assertEqual(self.called(), ["ci"])
        self.write("crates/low/src/file", "changed")
        self.assertEqual(self.call("plan", "x")[1], "unproved plan x\n")
        self.assertEqual(self.call("--proved", "plan", "x")[1], "proved plan x\n")
        self.assertEqual(self.called(), ["ci", "try", "ci"])

    def test_a_crate_that_fails(self):
        self.write("crates/low/src/wrong", "")
        status, out, err = self.call("--proved", "plan", "x")
        self.assertEqual((status, out), (125, ""))
        self.assertIn("fn low::f: not proved\n", err)
        self.assertEqual(err.splitlines()[-1], "signal: the program can't be made")


class CratesTest(unittest.TestCase):
    def test_order(self):
        lines = crate_lines(CRATES)
        self.assertEqual(lines["beside"], ("beside: low", ["low"]))
        self.assertEqual(at_or_below("signal_program", lines), ["low", "signal_program"])

    def test_progress(self):
        progress = Progress(2)
        self.assertIsNone(progress.take("== low\n"))
        self.assertEqual(progress.take("rt: low proved\n"), "1 of 2 crates: low")
        self.assertIsNone(progress.take("rt: signal_program NOT PROVED: its library low failed\n"))
        self.assertEqual(progress.done, 1)


if __name__ == "__main__":
    unittest.main()
