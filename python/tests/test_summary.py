"""Tests of kolvunh.summary."""

import os
from unittest import mock

from kolvunh import Fault, summary

from .test_measures import HELD
from .worked import ARRIVALS, NETWORK, FilesTest


class SummaryTest(FilesTest):
    def files(self) -> list[str]:
        return [str(self.file(text, name)) for name, text in (("network.toml", NETWORK), ("arrivals.csv", ARRIVALS))]

    def test_lines(self) -> None:
        # The vehicle of docs/RULES.md, "Actuated control": it waits 7.5 seconds, and is on its way to b when the run ends.
        text = summary.answer([*self.files(), str(self.file(HELD, "held.csv"))])
        lines = {line[:12].strip(): line[12:] for line in text.splitlines()}
        self.assertEqual(lines["network"], "2 nodes, 5 links; 20 s in rounds of 5 s")
        self.assertEqual(lines["vehicles"], "1 came in, 0 left, 1 on the way at the end")
        self.assertEqual(lines["delay"], "7.5 vehicle seconds, 7.5 s for each vehicle that came in")
        self.assertEqual(lines["queue"], "the longest: 1 vehicles on sa, first after 11 seconds")
        self.assertEqual(lines["worst links"], "sa 7.5 s (A)")
        self.assertEqual(len(text.splitlines()), 11)

    def test_a_run(self) -> None:
        program = self.file(f"#!/bin/sh\ncat <<'end'\n{HELD}end\n", "program")
        program.chmod(0o755)
        with mock.patch.dict(os.environ, KOLVUNH_PROGRAM=f"'{program}'"):
            self.assertIn("7.5 vehicle seconds", summary.answer(self.files()))
        program.write_text("#!/bin/sh\necho 'signal: bad 1 shares 3' >&2\nexit 3\n")
        with mock.patch.dict(os.environ, KOLVUNH_PROGRAM=f"'{program}'"), self.assertRaisesRegex(Fault, "bad 1 shares 3"):
            summary.answer(self.files())
