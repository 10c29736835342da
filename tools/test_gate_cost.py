"""Tests of tools/gate_cost.py: python3 -m unittest discover tools"""

import re
import unittest
from collections import Counter

import gate_cost
from crates import ROOT, crate_lines
from gate_cost import Profile, Sample
from wrong_bodies import Malformed

OWN_WORDS = ["/kit/bin/rattle", "build", "--crate-name", "roads", "src/lib.rt", "--jobs", "2", ""]
TESTS_WORDS = ["/kit/bin/rattle", "build", "--crate-name", "roads", "src/lib.rt", "--test", ""]

# How many functions tools/dear_functions.txt lists, and their seconds in all.
FUNCTIONS_LISTED, SECONDS_LISTED = 0, 0


class GateCostTest(unittest.TestCase):
    def test_what_a_process_checks(self):
        self.assertTrue(gate_cost.checks(OWN_WORDS))
        self.assertFalse(gate_cost.checks(["/kit/bin/rattle", "fmt", "--check", "src/lib.rt"]))
        self.assertFalse(gate_cost.checks(["python3", "build", "--crate-name", "roads"]))
        own = gate_cost.sample_of(OWN_WORDS, "/clone/crates/roads", 3.0)
        self.assertEqual(own, Sample("roads", "own", 2, 3.0, 3.0, 0.0))
        self.assertEqual(gate_cost.sample_of(TESTS_WORDS, "/clone/crates/roads", 3.0).kind, "tests")
        for folder in ("/tmp/rt-edit-17-abc", "/tmp/wrong-bodies-abc/crates/roads"):
            self.assertEqual(gate_cost.sample_of(OWN_WORDS, folder, 3.0).kind, "edits")

    def test_the_stat_of_a_process(self):
        ticks = gate_cost.TICKS
        fields = ["S", "41", *8 * ["0"], "0", f"{2 * ticks}", f"{ticks}", f"{4 * ticks}", f"{ticks}", *4 * ["0"], "977", "0"]
        self.assertEqual(gate_cost.stat_of("40 (a ) b) " + " ".join(fields)), (41, 8.0, 977))

    def test_who_is_below_whom(self):
        found = {1: ("", 0), 5: ("", 1), 6: ("", 5), 7: ("", 1)}
        self.assertTrue(gate_cost.is_below(6, 5, found))
        self.assertFalse(gate_cost.is_below(7, 5, found))

    def test_the_sums_of_samples(self):
        samples = [
            Sample("roads", "own", 2, 10.0, 40.0, 50.0),
            Sample("roads", "own", 1, 90.0, 95.0, 4.0),
            Sample("roads", "edits", 1, 50.0, 70.0, 18.0),
            Sample("roads", "edits", 1, 50.0, 80.0, 22.0),
            Sample("lines", "own", 1, 0.0, 10.0, 9.0),
            Sample("lines", "tests", 1, 10.0, 200.0, 120.0),
        ]
        rows = gate_cost.rows_of(samples)
        self.assertEqual(rows, [("lines", 10.0, 9.0, 1, 120.0, 0), ("roads", 35.0, 54.0, 2, 0, 40.0)])
        lines = [line.split() for line in gate_cost.table(rows)]
        self.assertEqual(lines[0], ["crate", "wall", "own", "jobs", "tests", "edits"])
        self.assertEqual(lines[1], ["lines", "10", "9", "1", "120", "0"])
        self.assertEqual(lines[-1], ["all", "63", "120", "40"])

    def test_the_costs_of_functions(self):
        files = [
            (13.0, "src-1/records/Rattle-roads-proofs.links.Link.flow.Proof.decls.oantt"),
            (10.0, "src-1/rattle-last-used"),
            (10.5, "src-1/Rattle-roads-specs.contracts.links.Link.flow.Key.oantt"),
            (18.0, "src-1/Rattle-roads-proofs.links.Link.flow.Lts.m1.oantt"),
            (18.5, "src-1/Rattle-roads-proofs.links.Flows.oantt"),
            (19.0, "src-1/Rattle-roads-proofs.links.Link.flow_in.Lts.oantt"),
            (19.5, "src-1/judged"),
        ]
        costs = gate_cost.costs_of(files, "roads", ["roads::links::Link::flow", "roads::links::Link::flow_in"])
        wanted = {"roads::links::Link::flow": 8.0, "links.Flows": 0.5, "roads::links::Link::flow_in": 0.5}
        self.assertEqual(dict(costs), wanted)

    def test_what_is_too_dear(self):
        listed = gate_cost.listed_in("# SECONDS CRATE NAME: REASON\n\n20 roads roads::join: it owns both\n14 roads links.Sums: by cases\n9 lines lines::read: ..\n")
        self.assertEqual(listed, {("roads", "roads::join"): 20, ("roads", "links.Sums"): 14, ("lines", "lines::read"): 9})
        costs = Counter({"roads::join": 29.0, "links.Sums": 10.2, "roads::part": 10.4, "roads::turn": 9.9})
        self.assertEqual(gate_cost.faults_of("roads", costs, 10, listed), ["  10.4 roads::part"])
        costs = Counter({"roads::join": 31.0, "links.Sums": 5.0})
        found = gate_cost.faults_of("roads", costs, 10, listed)
        wanted = ["  31.0 roads::join, which is listed with 20", "   5.0 links.Sums, which needs no line in tools/dear_functions.txt"]
        self.assertEqual(found, wanted)
        # One that is gone takes no time.
        self.assertEqual(gate_cost.faults_of("lines", Counter(), 10, listed)[0].split()[:2], ["0.0", "lines::read,"])
        self.assertEqual(gate_cost.faults_of("signs", Counter({"signs::turn": 9.0}), 10, listed), [])
        for text in ("roads roads::join: it owns both", "20 roads roads::join", "2 a b: c\n3 a b: d"):
            with self.assertRaises(Malformed):
                gate_cost.listed_in(text)

    def test_a_crate_that_is_not_proved(self):
        self.assertEqual(gate_cost.told_of("roads", Profile(False, 7.4, 9.6, Counter())), "roads: NOT PROVED; 7 processor seconds, 10 on the clock")

    def test_the_list_of_dear_functions_only_shrinks(self):
        """Whoever takes a line off the list, or lowers its seconds, lowers these numbers with it. Nobody raises them."""
        listed = gate_cost.listed_in(gate_cost.LISTED.read_text(encoding="utf-8"))
        self.assertEqual((len(listed), sum(listed.values())), (FUNCTIONS_LISTED, SECONDS_LISTED))

    def test_what_is_listed_is_there(self):
        crates = crate_lines((ROOT / "crates.txt").read_text(encoding="utf-8"))
        for crate, name in gate_cost.listed_in(gate_cost.LISTED.read_text(encoding="utf-8")):
            self.assertIn(crate, crates)
            folder, last = ROOT / "crates" / crate, re.split(r"::|\.", name)[-1]
            sources = [it.read_text(encoding="utf-8") for it in (folder / "src").rglob("*.rt")]
            is_function = any(re.search(rf"\bfn {last}\b", text) for text in sources)
            is_module = any(list((folder / part).rglob(f"{last}.antt")) for part in ("proofs", "specs"))
            self.assertTrue(is_function or is_module, name)


if __name__ == "__main__":
    unittest.main()
