"""Tests of tools/cases.py and tools/run_cases.py: python3 -m unittest discover tools"""

import contextlib
import io
import shutil
import unittest
from argparse import Namespace
from pathlib import Path
from tempfile import TemporaryDirectory

import cases
import run_cases

DATA = Path(__file__).resolve().parents[1] / "crates/recorded_cases/data"

PLAIN = (b"", b"\n", b"a\n", b"a\n\nb\n", b"a\tb\n", "ä ≡\n".encode(), b"\\x\n", b"---\n===\n")
ODD = (
    b"a",
    b"\r\n",
    b"a\r\nb",
    b"\\",
    b"a\\\n\r",
    b"\xff\xfe\n",
    "ä".encode() + b"\xff",
    b"\0\x0c\x7f\n",
    b"--- a\n",
    b"a\n=== b\n*** c\n",
    b"*** 1 lines as 1 before",
)

# A case of `cat`, which writes the file that its word names.
CAT = {"words": b"text\n", "text": b"one\ntwo\n", "status": b"0\n", "stdout": b"one\ntwo\n"}


class CasesTest(unittest.TestCase):
    def folder(self):
        folder = TemporaryDirectory()
        self.addCleanup(folder.cleanup)
        return Path(folder.name)

    def folders(self, groups):
        """A folder of folders of cases."""
        folder = self.folder()
        for group, named in groups.items():
            for case, files in named.items():
                (folder / group / case).mkdir(parents=True)
                for name, text in files.items():
                    (folder / group / case / name).write_bytes(text)
        return folder

    def packed(self, groups):
        """A folder of files of cases."""
        to = self.folder()
        cases.pack(self.folders(groups), to)
        return to

    def unpacked(self, folder):
        """The groups of files of cases, by way of folders."""
        to = self.folder()
        cases.unpack(sorted(folder.glob("*.cases")), to)
        return cases.read_folders(to)

    def test_which_texts_are_plain(self):
        self.assertTrue(all(map(cases.is_plain, PLAIN)))
        self.assertFalse(any(map(cases.is_plain, ODD)))

    def test_escapes_give_the_text_back(self):
        for text in PLAIN[1:] + ODD:
            written = cases.escaped_form(text)
            self.assertTrue(written.endswith(b"\n"))
            self.assertEqual(cases.unescape(written), text)
            self.assertFalse(any(line.startswith(cases.MARKS) for line in written.split(b"\n")))

    def test_a_backslash_alone_is_no_escape(self):
        with self.assertRaises(cases.Malformed):
            cases.unescape(b"\\q\n")

    def test_lines_that_come_again(self):
        lines = [b"first"] + [b"a line of some length"] * 2001 + [b"last"]
        folded = cases.fold(lines)
        self.assertEqual(folded, [*lines[:2], b"*** 2000 lines as 1 before", b"last"])
        self.assertEqual(cases.unfold(folded), lines)
        blocks = [b"least = 5", b"greatest = 30", b"wait = 120", b"links = [1]"] * 2
        self.assertEqual(cases.fold(blocks), [*blocks[:4], b"*** 4 lines as 4 before"])
        self.assertEqual(cases.fold([b"short"] * 2), [b"short"] * 2)

    def test_lines_before_the_first(self):
        with self.assertRaises(cases.Malformed):
            cases.unfold([b"a", b"*** 1 lines as 2 before"])

    def test_what_is_packed_comes_back(self):
        texts = {f"text{place}": text for place, text in enumerate(PLAIN + ODD)}
        groups = {"one": {"a": {"words": b"", **texts}, "b": CAT}, "two": {"c": CAT}}
        folder = self.packed(groups)
        self.assertEqual(self.unpacked(folder), groups)
        self.assertEqual(cases.others(folder), [])

    def test_a_text_is_written_once(self):
        text = b"".join(b"line %d of the text\n" % number for number in range(100))
        groups = {"one": {"a": {"x": text}}, "two": {"b": {"y": text, "z": text[:1005]}}}
        folder = self.packed(groups)
        heads = ["=== b", "--- y as one/a/x", "--- z first 1005 bytes of one/a/x"]
        self.assertEqual((folder / "two.cases").read_text().splitlines(), heads)
        self.assertEqual(self.unpacked(folder), groups)

    def test_a_sum(self):
        folder = self.folders({"one": {"a": CAT}})
        cases.keep_sum(folder / "one/a")
        to = self.folder()
        cases.pack(folder, to)
        head = f"--- stdout of {cases.sum_line(CAT['stdout'])}\n"
        self.assertTrue(head.startswith("--- stdout of 8 bytes, sha256 "))
        self.assertIn(head, (to / "one.cases").read_text())
        self.assertEqual(self.unpacked(to), cases.read_folders(folder))
        self.assertEqual(self.compared(to), "1 cases, 0 differ\n")

    def test_malformed_files(self):
        for text in ("a\n", "=== a\nb\n", "--- a\n", "=== a\n=== a\n", "=== a\n--- b\n--- b\n", "=== a"):
            folder = self.folder()
            (folder / "one.cases").write_text(text)
            with self.assertRaises(cases.Malformed, msg=text):
                self.unpacked(folder)
        for form in ("as one/a/c", "as one/a/b", "first 1 bytes of one/a/d", "as one", "new"):
            folder = self.folder()
            (folder / "one.cases").write_text(f"=== a\n--- d\n--- b {form}\n")
            with self.assertRaises(cases.Malformed, msg=form):
                self.unpacked(folder)

    def test_a_group_that_is_not_packed_again(self):
        folder = self.packed({"one": {"a": CAT}, "two": {"b": CAT}})
        with self.assertRaises(cases.Malformed):
            cases.pack(self.folders({"one": {"a": CAT}}), folder)

    def test_files_that_are_not_there(self):
        with self.assertRaises(cases.Malformed):
            cases.others(self.folder())
        with self.assertRaises(OSError):
            cases.unpack([self.folder() / "none.cases"], self.folder())

    def test_recorded_cases_are_as_packed(self):
        self.assertEqual(cases.others(DATA), [])

    def compared(self, *places):
        """What run_cases.py prints of cases, done by `cat`."""
        options = Namespace(
            program=shutil.which("cat"), places=places, jobs=2, seconds=60, bad_prefix=False
        )
        with contextlib.redirect_stdout(io.StringIO()) as told:
            run_cases.compared(options)
        return told.getvalue()

    def test_runs_of_files_and_folders(self):
        other = {**CAT, "stdout": b"three\n"}
        folders = self.folders({"one": {"a": CAT, "b": other}})
        files = self.packed({"one": {"a": CAT, "b": other}})
        said = "stdout is 'one\\ntwo\\n' in place of 'three\\n'\n2 cases, 1 differ\n"
        self.assertEqual(self.compared(folders), f"{folders}/one/b: {said}")
        self.assertEqual(self.compared(files), f"one/b: {said}")
        self.assertEqual(self.compared(files / "one.cases"), f"one/b: {said}")
        self.assertEqual(self.compared(folders / "one/a"), "1 cases, 0 differ\n")


if __name__ == "__main__":
    unittest.main()
