"""Tests of kolvunh.webster, kolvunh.plans and the command `retime`. Expected values are of docs/RULES.md, "Fixed plan", or computed by hand."""

import contextlib
import io
from dataclasses import replace

from kolvunh import Fault, retime
from kolvunh.check_input import link_flows
from kolvunh.networks import read_network
from kolvunh.plans import greens_of_plan, plan_text, read_plan, require_plan
from kolvunh.webster import Timing, plan_from, rows_of, webster_cycle, with_cycle, with_offsets

from .test_orders import CalledTest
from .worked import ARRIVALS, NETWORK, PLAN

# Plans that are refused: what the worked one has in place of something, and what is said
BAD = (
    (PLAN, "", "the file is empty"),
    ("node,phase", "node,stage", 'the header is "node,stage,green,offset"'),
    ("a,0,10,5", "a,0,10", ":2: the row has 3 fields, and has to have 4"),
    ("a,0,10,5", "a,0,ten,5", ':2: green is "ten", and has to be a whole number'),
    ("b,0,15", "c,0,15", 'the network has no node "c"'),
    ("b,1,10", "b,2,10", "node b has no phase 2: write one of 0 to 1"),
    ("a,1,20", "a,1,31", "node a, phase 1: green 31 has to be from 5 to 30"),
    ("b,0,15,0\nb,1,10,0\n", "", "node b has no row of phase 0"),
    ("b,1,10,0\n", "", "node b has no row of phase 1"),
    ("a,1,20,5", "a,1,20,6", "node a: its rows go up from phase 0, each phase once, with one offset"),
)


class RetimeTest(CalledTest):
    def setUp(self) -> None:
        super().setUp()
        self.files = self.file(NETWORK, "network.toml"), self.file(ARRIVALS, "arrivals.csv"), self.file(PLAN, "plan.csv")
        self.network = read_network(self.files[0])

    def test_greens_of_a_plan(self) -> None:
        later = [(0, 5, 15), (1, 20, 40), (0, 45, 55)]
        for offset, wanted in ((5, later), (30, [(1, 5, 25), (0, 30, 40), (1, 45, 65)]), (45, later)):
            rows = [replace(row, offset=offset) for row in read_plan(self.files[2]) if row.node == "a"]
            greens = greens_of_plan(self.network, rows)
            self.assertEqual([(green.phase, green.begin, green.end) for green in greens], wanted)
        self.assertEqual(plan_text(rows_of(plan_from(self.network, read_plan(self.files[2])))), PLAN)

    def test_webster(self) -> None:
        # 14 seconds are lost, so (1.5 * 14 + 5) / (1 - 0.48) is 50; of 36 seconds that are not lost 24 and 12 are by the loads, and 2 are lost in each.
        timing = Timing(self.network.nodes[0], (0, 1), (5, 5))
        self.assertAlmostEqual(webster_cycle(timing, (0.32, 0.16)), 50)
        self.assertEqual(with_cycle(timing, (0.32, 0.16), 50).greens, (26, 14))
        # No green is longer than 30 and shorter than 5, whatever the cycle and the loads are.
        self.assertEqual(with_cycle(timing, (0.9, 0.0), 45).greens, (30, 5))
        self.assertEqual(with_cycle(timing, (0.9, 0.0), 90).greens, (30, 30))

    def test_offsets(self) -> None:
        # sa is green from second 15 to 34 of a's cycle, so its vehicles come to b in the 20 seconds from 25 on, the length of the green there.
        a, b = self.network.nodes
        flows = {"sa": 1.0, "ab": 0.0, "ba": 0.0, "sb": 0.0, "xb": 0.0}
        plan = with_offsets(self.network, (Timing(a, (0, 1), (10, 20)), Timing(b, (0, 1), (20, 10))), flows)
        self.assertEqual([timing.offset for timing in plan], [0, 25])

    def test_the_search_begins_at_a_plan(self) -> None:
        # The vehicle waits to the end under the plan, 10 seconds; half of it waits one second at least.
        options = retime.parser().parse_args([*map(str, self.files), "--tries", "60"])
        scene = retime.Scene(self.network, NETWORK, [ARRIVALS], link_flows(self.network, retime.read_arrivals(self.files[1])))
        given = plan_from(self.network, read_plan(self.files[2]))
        first, found = retime.search(scene, retime.judge_by_world(scene), given, options)
        self.assertEqual((first, found.delay), (10, 0.5))
        self.assertLessEqual(found.tries, 60)
        require_plan(self.network, "found", rows_of(found.best))

    def test_the_command(self) -> None:
        with contextlib.redirect_stderr(io.StringIO()) as err:
            said = [self.called(retime.main, *self.files[:2], "--tries", 5, "--seeds", 2) for _ in range(2)]
        self.assertEqual(said[0], said[1])
        require_plan(self.network, "said", read_plan(self.file(said[0], "said.csv")))
        self.assertRegex(err.getvalue(), "retime: 7 vehicle seconds with Webster's cycle of [0-9]+ s; 7 with the best of 5 plans")

    def test_plans_that_are_refused(self) -> None:
        for there, here, words in BAD:
            with self.assertRaises(Fault) as fault:
                retime.answer([*map(str, self.files[:2]), str(self.file(PLAN.replace(there, here), "bad.csv")), "--program", "false"])
            self.assertIn(words, str(fault.exception))
        for words in (["--tries", "0"], ["--minutes", "0"], ["--jobs", "0"], ["--seeds", "-1"]):
            with self.assertRaises(SystemExit) as ended, contextlib.redirect_stderr(io.StringIO()):
                retime.answer([*map(str, self.files[:2]), *words])
            self.assertEqual(ended.exception.code, 2)
        strange = self.file(ARRIVALS.replace("sa", "sx"), "strange.csv")
        with self.assertRaisesRegex(Fault, 'link "sx" is none of the network'):
            retime.answer([str(self.files[0]), str(strange), "--program", "false"])


if __name__ == "__main__":
    import unittest

    unittest.main()
