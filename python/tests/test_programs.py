"""Tests of calls of the program, over one that writes what docs/FORMATS.md and examples/README.md have."""

import importlib.util
import os
import unittest
from unittest import mock

from kolvunh import Fault, run
from kolvunh.answers import BestAnswer, ControllerTotals, DecidedGreen, DecidedPlan, ForecastRow, ForecastVersion, GridSummary, StoreTotals, WaitBounds
from kolvunh.programs import program_words
from kolvunh.queues import Most
from kolvunh.reports import Green, Totals

from . import worked
from .worked import FilesTest, block

# What stands for the program: its second word names a file whose text it writes; some words end it otherwise.
PROGRAM = """#!/bin/sh
case $1 in
turn) echo "signal: usage" >&2; exit 2 ;;
audit) cat "$2"; exit 1 ;;
upgrade) echo "signal: this program is not proved yet" >&2; echo "signal: bad 1 shares 2" >&2; exit 3 ;;
check) echo "signal: no rt" >&2; exit 125 ;;
certify) printf 'signal: bad 1 line 1\\ncaf\\351:1: ..\\n' >&2; exit 3 ;;
esac
cat "$2"
"""


class ProgramsTest(FilesTest):
    def setUp(self):
        super().setUp()
        program = self.file(PROGRAM, "program")
        program.chmod(0o755)
        settings = mock.patch.dict(os.environ, {"KOLVUNH_PROGRAM": f"'{program}'"})
        settings.start()
        self.addCleanup(settings.stop)

    def tables(self, command, text):
        report = run([command, self.file(text, "text")])
        self.assertEqual((report.status, report.refusal, report.explanation), (0, None, ()))
        return report.tables

    def test_a_report(self):
        report = run(["turns", self.file(worked.REPORT)])
        self.assertEqual((report.status, report.refusal, report.notice, report.text), (0, None, None, worked.REPORT))
        self.assertEqual(report.records.totals, Totals(1000, 0, 1000, 500))
        self.assertEqual(report.table("greens")[2], Green("b", 0, 0, 27))
        self.assertEqual({name: len(rows) for name, rows in report.tables.items()}, {"steps": 16, "plans": 8, "greens": 3, "links": 5, "totals": 1})
        with self.assertRaisesRegex(Fault, "`turns` has no table `queues`: it has steps, plans, greens, links, totals"):
            report.table("queues")

    def test_a_report_of_a_spill_run(self):
        text = block("Totals with a store")
        report = run(["spill", self.file(text), "arrivals.csv", "store.csv", "actuated"])
        self.assertEqual((report.text, report.records.totals), (text, Totals(1000, 0, 1000, 9100)))
        self.assertEqual(report.table("greens")[1], Green("a", 1, 15, 45))

    def test_queues(self):
        self.assertEqual(run(["queues", self.file(worked.QUEUES)]).queues.most[0], Most("sa", 1000, 11))

    def test_totals(self):
        found = self.tables("compare", "planned 1000 0 1000 500\nactuated 1000 0 1000 7500\nfixed 1000 0 1000 10000\n")
        self.assertEqual(found["totals"][1], ControllerTotals("actuated", 1000, 0, 1000, 7500))
        found = self.tables("scale", block("Totals by factors"))
        self.assertEqual(found["totals"][1], ControllerTotals("actuated", 500, 0, 500, 3500, 500))
        self.assertEqual(found["totals"][4], ControllerTotals("planned", 1500, 0, 1500, 1500, 1500))
        found = self.tables("spill", "planned 1000 0 1000 0 7000\nactuated 1000 0 1000 0 9100\n")
        self.assertEqual(found["totals"][0], StoreTotals("planned", 1000, 0, 1000, 0, 7000))

    def test_plans_and_decisions(self):
        self.assertEqual(self.tables("plan", "delay 24000\norder 0 1\n"), {"plan": [BestAnswer(24000, (0, 1))]})
        self.assertEqual(self.tables("plan", "delay 0\norder\n"), {"plan": [BestAnswer(0, ())]})
        self.assertEqual(self.tables("plan", "none\n"), {"plan": [BestAnswer(None, ())]})
        found = self.tables("decide", block("Decision of a round"))
        self.assertEqual(found["plans"][0], DecidedPlan("a", {"ba": 0}, 10000, (1,)))
        self.assertEqual(found["greens"][1], DecidedGreen("a", 1, 10, 40))
        self.assertEqual(found["versions"], [ForecastVersion("ab", 1), ForecastVersion("ba", 1)])
        self.assertEqual(found["rows"][1], ForecastRow("ab", 23, 500))
        self.assertEqual(self.tables("decide", "kind,name,x,y,z\nplan,a,ba=0,none,\n")["plans"], [DecidedPlan("a", {"ba": 0}, None, ())])
        found = self.tables("grid", "grid 7 3 20\nplans 180\nnone 0\ndelay 24978918\ntotal 119000 35990 83010 1357203\n")
        self.assertEqual(found["summary"], [GridSummary(7, 3, 20, 180, 0, 24978918, 119000, 35990, 83010, 1357203)])
        self.assertEqual(self.tables("certify_bound", worked.CERTIFICATE), {})

    def test_bounds(self):
        found = self.tables("bounds", block("Bounds of waits"))
        self.assertEqual(found["bounds"][3], WaitBounds("b", 1, 93, 43))
        found = self.tables("bounds", "node,phase,planned,actuated\na,1,short,short\n")
        self.assertEqual(found["bounds"], [WaitBounds("a", 1, "short", "short")])
        found = self.tables("bounds", "node,phase,planned,actuated,fixed,red\na,2,marked,89,84,61\n")
        self.assertEqual(found["bounds"], [WaitBounds("a", 2, "marked", 89, 84, 61)])

    def test_refusals(self):
        wrong = self.file(worked.NETWORK.replace("share = 500 }, {", "share = 400 }, {"), "net.toml")
        report = run(["upgrade", wrong])
        self.assertEqual((report.status, report.refusal, report.tables), (3, "signal: bad 1 shares 2", {}))
        self.assertEqual(report.notice, "signal: this program is not proved yet")
        said = f'{wrong}:58: link "ab": its turns sum to 400 + 500 = 900, and have to sum to 1000'
        self.assertEqual(report.explanation, (said,))
        with self.assertRaises(Fault) as raised:
            report.table("totals")
        self.assertEqual(str(raised.exception), f"signal: bad 1 shares 2; {said}")
        self.assertEqual(run(["turn"]).refusal, "signal: usage")

    def test_what_is_said_of_a_file_with_another_name_than_in_utf_8(self):
        self.assertEqual(run(["certify", self.file("x")]).refusal, "signal: bad 1 line 1")

    def test_a_verdict_that_rejects_is_an_answer(self):
        report = run(["audit", self.file("rejected total\n")])
        self.assertEqual((report.status, report.text, report.refusal, report.tables), (1, "rejected total\n", None, {}))

    def test_how_the_program_is_named(self):
        program = self.folder / "program"
        self.assertIn(" ", str(program))
        for named, words in ((f"'{program}' x", [str(program), "x"]), (str(program), [str(program)]), ("ssh host signal", ["ssh", "host", "signal"])):
            with mock.patch.dict(os.environ, {"KOLVUNH_PROGRAM": named}):
                self.assertEqual(program_words(), words)
        with mock.patch.dict(os.environ, {"KOLVUNH_PROGRAM": "it's"}), self.assertRaisesRegex(Fault, '^KOLVUNH_PROGRAM is "it\'s", which'):
            program_words()

    def test_no_program(self):
        with self.assertRaisesRegex(Fault, "the program ended with status 125: signal: no rt"):
            run(["check", "x"])
        with mock.patch.dict(os.environ, {"KOLVUNH_PROGRAM": "/no/such/program"}), self.assertRaisesRegex(Fault, "can't be run"):
            run(["plan", "x"])

    @unittest.skipIf(importlib.util.find_spec("pandas") is None, "pandas is not installed")
    def test_frames(self):
        frame = run(["turns", self.file(worked.REPORT)]).frame("links")
        self.assertEqual(list(frame.columns), ["link", "entered", "left", "delay"])
        self.assertEqual((int(frame["entered"].sum()), int(frame["delay"].sum())), (2000, 500))
        self.assertEqual(set(run(["queues", self.file(worked.QUEUES)]).frames()), {"changes", "most"})

    @unittest.skipUnless(importlib.util.find_spec("pandas") is None, "pandas is installed")
    def test_frames_without_pandas(self):
        with self.assertRaisesRegex(Fault, "pandas is not installed"):
            run(["turns", self.file(worked.REPORT)]).frame("links")
