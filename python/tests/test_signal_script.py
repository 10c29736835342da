"""Tests of what ./signal does around the program: lines below a refusal, status, streams, and signals."""

import os
import shutil
import signal
import subprocess
import unittest
from pathlib import Path

from .worked import ROOT, FilesTest

# What stands for the program: it says its words and its input, refuses what it is told to, or waits for a signal.
PROGRAM = """#!/bin/sh
case $1 in
turns) echo "signal: bad 1 shares 3" >&2; exit 3 ;;
plan) cat; printf 'no line feed' ; exit "$(cat "$2")" ;;
check) echo $$; exec sleep 20 ;;
upgrade) echo "signal: bad 1 nonsense 3" >&2; exit 3 ;;
esac
"""
SAID = 'refused_network.toml:85: link "first_second": its turns sum to 750 + 150 = 900, and have to sum to 1000\n'


class SignalScriptTest(FilesTest):
    def setUp(self):
        super().setUp()
        for name in ("signal", "tools/help.txt", "crates.txt"):
            self.write(name, (ROOT / name).read_text(encoding="utf-8"))
        (self.folder / "signal").chmod(0o755)
        shutil.copytree(ROOT / "python", self.folder / "python", ignore=shutil.ignore_patterns("__pycache__", "tests"))
        self.write("crates/signal_program/out/signal_program", PROGRAM).chmod(0o755)
        shutil.copy(ROOT / "examples/refused_network.toml", self.folder)

    def write(self, name: str, text: str) -> Path:
        (self.folder / name).parent.mkdir(parents=True, exist_ok=True)
        return self.file(text, name)

    def call(self, *words, **how):
        """The status, output and error of ./signal with these words."""
        how = {"cwd": self.folder, "capture_output": True, "text": True, "timeout": 30, "check": False} | how
        run = subprocess.run([self.folder / "signal", *words], **how)
        return run.returncode, run.stdout, run.stderr

    def test_a_refusal(self):
        call = ("turns", "refused_network.toml", "a.csv")
        self.assertEqual(self.call(*call), (3, "", "signal: bad 1 shares 3\n" + SAID))
        self.assertEqual(self.call("--proved", *call), (3, "", "signal: bad 1 shares 3\n" + SAID))
        self.assertEqual(self.call("explain", *call), (3, "signal: bad 1 shares 3\n" + SAID, ""))
        self.assertEqual(self.call("upgrade", "refused_network.toml"), (3, "", "signal: bad 1 nonsense 3\n"))

    def test_words_that_are_no_call(self):
        said = "signal: usage\nturns has 1 word after it, and the form is `turns NET ARR`\n"
        self.assertEqual(self.call("turns", "a"), (2, "", said))
        self.assertEqual(self.call("explain", "turns", "a"), (2, said, ""))
        self.assertEqual(self.call()[2].splitlines()[0], "signal: usage")

    def test_where_there_is_no_python(self):
        few = self.folder / "few"
        few.mkdir()
        for name in ("sh", "awk", "cat", "dirname", "find", "head", "readlink"):
            (few / name).symlink_to(shutil.which(name))
        settings = {**os.environ, "PATH": str(few)}
        self.assertEqual(self.call("turns", "refused_network.toml", "a", env=settings), (3, "", "signal: bad 1 shares 3\n"))
        self.assertEqual(self.call("turns", "a", env=settings), (2, "", "signal: usage\n"))
        self.assertEqual(self.call("check-input", "a", "b", env=settings)[0], 125)

    def test_status_and_streams(self):
        for status in (0, 1, 6, 7):
            self.write("status", str(status))
            self.assertEqual(self.call("plan", "status", input="in\n"), (status, "in\nno line feed", ""))

    def redirected(self, words, redirection):
        """How a shell runs ./signal with these words and a redirection."""
        command = f"'{self.folder}/signal' {words} {redirection}"
        return subprocess.run(["sh", "-c", command], cwd=self.folder, capture_output=True, text=True, timeout=30, check=False)

    def test_no_standard_input(self):
        self.write("status", "0")
        run = self.redirected("plan status", "<&-")
        self.assertEqual((run.returncode, run.stdout), (0, "no line feed"))

    def test_no_standard_output(self):
        run = self.redirected("upgrade refused_network.toml", ">&-")
        self.assertEqual((run.returncode, run.stderr), (3, "signal: bad 1 nonsense 3\n"))

    def test_signals(self):
        for number in (signal.SIGTERM, signal.SIGINT, signal.SIGHUP):
            if signal.getsignal(number) == signal.SIG_IGN:
                continue  # as under nohup: then a script can't hear of it either
            with subprocess.Popen([self.folder / "signal", "check", "x"], stdout=subprocess.PIPE, text=True) as run:
                program = int(run.stdout.readline())
                run.send_signal(number)
                self.assertEqual(run.wait(timeout=15), -number)
            with self.assertRaises(ProcessLookupError):
                os.kill(program, 0)

    def test_a_program_that_a_signal_ends(self):
        with subprocess.Popen([self.folder / "signal", "check", "x"], stdout=subprocess.PIPE, stderr=subprocess.PIPE, text=True) as run:
            os.kill(int(run.stdout.readline()), signal.SIGKILL)
            self.assertEqual((run.wait(timeout=15), run.stderr.read()), (-signal.SIGKILL, ""))


if __name__ == "__main__":
    unittest.main()
