"""Tests of kolvunh.files."""

import os
import subprocess
import sys

from kolvunh import Fault
from kolvunh.files import claim, nothing_left, write_file, write_files

from .worked import ROOT, FilesTest


class FilesWrittenTest(FilesTest):
    def test_wholly_or_not_at_all(self) -> None:
        home = self.folder / "new"
        write_files(home, {"a": "1\r\n", "b": "2"})
        self.assertEqual((home / "a").read_bytes(), b"1\r\n")
        (home / "c").mkdir()
        with self.assertRaisesRegex(Fault, "new: .*a, c can't be written there"):
            write_files(home, {"a": "3", "c": "4"})  # c is a folder
        self.assertEqual(((home / "a").read_bytes(), sorted(os.listdir(home))), (b"1\r\n", ["a", "b", "c"]))
        with self.assertRaisesRegex(Fault, "can't be written there"):
            write_file(home / "a" / "b", "5")
        with self.assertRaises(KeyError):
            write_files(self.folder / "other", Stopped({"a": "1"}))
        self.assertEqual(os.listdir(self.folder), ["new"])

    def test_what_is_stopped_leaves_nothing(self) -> None:
        home = self.folder / "new"
        with self.assertRaises(KeyboardInterrupt), nothing_left(home):
            (home / "a").touch()
            raise KeyboardInterrupt
        self.assertFalse(home.exists())
        self.file("kept", "kept")
        with self.assertRaises(KeyboardInterrupt), nothing_left(self.folder):
            (self.folder / "a").touch()
            raise KeyboardInterrupt
        self.assertEqual(os.listdir(self.folder), ["kept"])

    def test_one_run_at_a_time_in_a_folder(self) -> None:
        # Another process has the folder; when it ends, the folder is free.
        words = [sys.executable, "-c", "import sys, pathlib; from kolvunh.files import claim; claim(pathlib.Path(sys.argv[1])); print(1, flush=True); input()"]
        run = subprocess.Popen([*words, self.folder], stdin=subprocess.PIPE, stdout=subprocess.PIPE, cwd=ROOT / "python")
        self.assertEqual(run.stdout.read(1), b"1")
        with self.assertRaisesRegex(Fault, "another run is at work"):
            claim(self.folder)
        run.communicate(b"\n")
        claim(self.folder)
        claim(self.folder)

    def test_links_and_what_is_no_file(self) -> None:
        kept, link = self.file("kept", "kept"), self.folder / "link"
        link.symlink_to(kept)
        write_file(link, "new")
        self.assertEqual((kept.read_text(), link.read_text(), link.is_symlink()), ("kept", "new", False))
        write_file(os.devnull, "gone")
        self.assertTrue(os.path.exists(os.devnull) and not os.path.isfile(os.devnull))


class Stopped(dict):
    """Texts of which the second can't be had: what an interrupt between two files is."""

    def items(self):
        yield from super().items()
        raise KeyError
