"""Tests of explanations of refusals, by the table of mistakes and the files that have them."""

import os
import shutil
import subprocess
import tomllib
import unittest
from concurrent.futures import ThreadPoolExecutor
from pathlib import Path
from tempfile import TemporaryDirectory
from unittest import mock

from kolvunh.explain import calls, lines_on
from kolvunh.explain.records import phases_after

from .mistaken_files import TABLE, MisplacedChange, changed, sections, write_mistaken_files
from .worked import ROOT

MISTAKES = tomllib.loads(TABLE.read_text(encoding="utf-8"))["mistake"]


def program() -> str | None:
    """The program of the environment, or one of the repository that is built; nothing is built for a test."""
    built = (ROOT / "crates/signal_program/out/signal_program", ROOT / "out/unproved/signal")
    return shutil.which(os.environ.get("KOLVUNH_PROGRAM", "")) or next((str(path) for path in built if path.exists()), None)


def answered(mistake: dict[str, str]) -> tuple[str, str]:
    """What the program writes where it is called with the words of a mistake."""
    run = subprocess.run([program(), *mistake["words"].split()], capture_output=True, text=True, check=False)
    return run.stdout, run.stderr


class MistakesTest(unittest.TestCase):
    @classmethod
    def setUpClass(cls):
        place = TemporaryDirectory()
        cls.addClassCleanup(place.cleanup)
        cls.folder = Path(place.name).resolve()
        write_mistaken_files(cls.folder)

    def setUp(self):
        before = os.getcwd()
        self.addCleanup(os.chdir, before)
        os.chdir(self.folder)

    def test_what_is_said(self):
        self.assertGreaterEqual(len(MISTAKES), 100)
        for mistake in MISTAKES:
            with self.subTest(words=mistake["words"]):
                said = lines_on(mistake["words"].split(), mistake["line"])
                self.assertEqual("\n".join(said).replace(str(self.folder), "FOLDER"), mistake["says"])

    def test_words_of_the_script_alone(self):
        for words, said in (
            ("--build x", "--build has no word after it"),
            ("explain turns", "explain is no command of the program"),
            ("sumary x", 'no command "sumary" (is "summary" meant?)'),
            ("--seed", 'no option "--seed"'),
        ):
            self.assertIn(said, lines_on(words.split(), "signal: usage")[0])

    def test_first_rows_of_a_fixed_plan(self):
        # docs/RULES.md, "Fixed plan": rows go up the ring from phase 0, leave out marked phases alone, and are two of each node at the least.
        for marks, first, after in (("uu", [0], [1]), ("muu", [0, 1], [1]), ("mmm", [0, 1], [1, 2])):
            net = mock.Mock()
            net.tables_of.return_value = [{"phase": [{"skip": mark == "m"} for mark in marks]}] * 2
            self.assertEqual(phases_after(net, 0, -1, False), [(0, phase) for phase in first], marks)
            self.assertEqual(phases_after(net, 0, 0, True), [(0, phase) for phase in after], marks)
        self.assertEqual(phases_after(net, 0, 1, False), [(0, 2), (1, 0), (1, 1)])

    def test_forms_of_the_help(self):
        sections = (ROOT / "tools/help.txt").read_text(encoding="utf-8").split("\n== ")[1:]
        forms = {name: tuple(line.partition(" ")[2] for line in lines if line.split()[:1] == [name]) for name, *lines in map(str.splitlines, sections)}
        self.assertEqual(forms, calls.FORMS | dict.fromkeys(calls.TOOLS, ()))

    def test_each_file_is_named(self):
        named = {word for mistake in MISTAKES for word in mistake["words"].split()}
        self.assertLessEqual({path.name for path in self.folder.iterdir()}, named | {base for base, _ in sections().values()})

    def test_changes(self):
        self.assertEqual(changed(["a", "b", "c", "d"], ["0 + x", "2 - b", "2 + y", "3..4 -", "4 + z", "4 +"]), ["x", "a", "y", "z", ""])
        with self.assertRaises(MisplacedChange):
            changed(["a", "b"], ["1 - b"])

    @unittest.skipUnless(program(), "no program is built")
    def test_the_lines_of_the_program(self):
        with ThreadPoolExecutor(os.cpu_count()) as calls:
            for mistake, found in zip(MISTAKES, calls.map(answered, MISTAKES)):
                with self.subTest(words=mistake["words"]):
                    self.assertEqual(found, ("", mistake["line"] + "\n"))
