"""Tests of tools/release: what it packs is used where there is no toolchain, and its sums are those of the files."""

import importlib.machinery
import importlib.util
import os
import shutil
import subprocess
import unittest
from pathlib import Path
from tempfile import TemporaryDirectory
from unittest import mock

import sources
from crates import ROOT

PROGRAM = b'#!/bin/sh\necho "packed $*"\n'
TOOLS = ("sh", "awk", "dirname", "grep", "kill", "python3", "readlink", "sed", "sha256sum")


def module():
    """The script as a module."""
    loader = importlib.machinery.SourceFileLoader("release", str(ROOT / "tools/release"))
    found = importlib.util.module_from_spec(importlib.util.spec_from_loader("release", loader))
    loader.exec_module(found)
    return found


class ReleaseTest(unittest.TestCase):
    def setUp(self):
        place = TemporaryDirectory()
        self.addCleanup(place.cleanup)
        self.folder = Path(place.name)
        self.release = module()

    def unpacked(self, is_proved):
        """The folder of a release of a program that only pretends."""
        files = {name: (ROOT / name).read_bytes() for name in self.release.packed_names()} | {"bin/signal_program": PROGRAM}
        files["RELEASE"] = self.release.record("1.0", PROGRAM, is_proved).encode()
        packed = self.folder / "release.tar.gz"
        packed.write_bytes(self.release.archive("top", files, 1))
        self.assertEqual(packed.read_bytes(), self.release.archive("top", files, 1))
        shutil.unpack_archive(packed, self.folder, filter="data")
        return self.folder / "top"

    def call(self, top, *words):
        """What ./signal of a release answers where the path has the tools of every system and Python alone."""
        tools = self.folder / "few"
        tools.mkdir(exist_ok=True)
        for name in TOOLS:
            if shutil.which(name) and not (tools / name).exists():
                (tools / name).symlink_to(os.path.realpath(shutil.which(name)) if name != "python3" else os.path.realpath(os.sys.executable))
        run = subprocess.run([top / "signal", *words], env={"PATH": str(tools)}, cwd=top, capture_output=True, text=True, check=False)
        return run.returncode, run.stdout, run.stderr

    def test_a_release_without_a_toolchain(self):
        top = self.unpacked(True)
        self.assertEqual(self.call(top, "plan", "x"), (0, "packed plan x\n", ""))
        self.assertEqual(self.call(top, "--proved", "plan", "x"), (0, "packed plan x\n", ""))
        self.assertRegex(self.call(top, "--version")[1], r"^kolvunh 1.0, commit [0-9a-f]{40}.*: proved; [0-9]+ files of [0-9]+ crates")
        self.assertEqual(self.call(top, "check-input", "examples/corridor.toml", "examples/corridor.csv")[0], 0)
        self.assertFalse((top / "python/tests").exists())

    def test_a_release_that_is_not_proved(self):
        top = self.unpacked(False)
        self.assertIn(": not proved, compiled with checks; ", self.call(top, "--version")[1])
        status, out, err = self.call(top, "plan", "x")
        self.assertEqual((status, out, err.count("\n")), (0, "packed plan x\n", 1))
        self.assertIn("this release has a program that is not proved", self.call(top, "--proved", "plan", "x")[2])

    def test_sources(self):
        for name, inside in (("crates/signal_program/src/b", "1"), ("crates/signal_program/must-fail/c", "2"), ("crates/low/src/a", "3")):
            path = self.folder / name
            path.parent.mkdir(parents=True, exist_ok=True)
            path.write_text(inside)
        (self.folder / "crates.txt").write_text("signal_program:\nlow:\n")
        with mock.patch.object(sources, "kit", return_value="kit"):
            found = sources.sources_of(self.folder)
        # sha256sum of the text 1 is 6b86..; that of its line is the sum, as `sha256sum crates/signal_program/src/b | sha256sum` says.
        words = "printf 1 | sha256sum | sed 's|-$|crates/signal_program/src/b|' | sha256sum"
        wanted = subprocess.run(["sh", "-c", words], capture_output=True, text=True, check=True).stdout.split()[0]
        self.assertEqual((found.files, found.crates, found.sum), (1, 1, wanted))


if __name__ == "__main__":
    unittest.main()
