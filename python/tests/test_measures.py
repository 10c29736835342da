"""Tests of kolvunh.flows and kolvunh.measures. Expected values are those of docs, or computed by hand beside them."""

import csv
import importlib.util
import io
import math
import unittest

from kolvunh import Fault, lanes, measures, page, summary
from kolvunh.flows import Passage, flows_of_greens, flows_of_queues
from kolvunh.frames import frame_of
from kolvunh.networks import read_network
from kolvunh.queues import read_queues
from kolvunh.reports import Green

from .test_signs import NETWORK as OVERLAPS
from .worked import ARRIVALS, NETWORK, QUEUES, REPORT, FilesTest

# The run of docs/RULES.md, "Actuated control": its queues are those of docs/FORMATS.md, "Queues".
HELD = """kind,round,node,x,y,z,w
green,,a,0,0,10,
green,,a,1,15,45,
green,,b,0,0,30,
link,,,sa,1000,1000,7500
link,,,ab,1000,0,0
link,,,ba,0,0,0
link,,,sb,0,0,0
link,,,xb,0,0,0
total,,,1000,0,1000,7500
"""


class MeasuresTest(FilesTest):
    def study(self, report: str, arrivals: str = ARRIVALS, network: str = NETWORK) -> measures.Study:
        self.network = read_network(self.file(network, "network.toml"))
        return measures.study_of(self.network, self.file(arrivals, "arrivals.csv"), self.file(report, "report.csv"))

    def row(self, study: measures.Study, kind: str, name: str, *interval: int) -> measures.Measures:
        return next(row for row in study.table(kind, *interval) if row.name == name)

    def test_queues_and_greens_come_to_the_same(self) -> None:
        study = self.study(HELD)
        of_queues = flows_of_queues(self.network, read_queues(self.file(QUEUES)))
        for name, flow in study.flows.items():
            self.assertEqual((flow.entered, flow.left), (of_queues[name].entered, of_queues[name].left))
        self.assertEqual(study.flows["sa"].passages, [Passage(10, 17, 500), Passage(10, 18, 500)])

    def test_a_vehicle_that_waits(self) -> None:
        # It comes in second 10, green begins in 15, and after two lost seconds its halves leave in 17 and 18: (7 + 8) / 2 seconds.
        row = self.row(self.study(HELD), "link", "sa")
        self.assertEqual((row.vehicles, row.left, row.delay, row.delay_each, row.level), (1, 1, 7.5, 7.5, "A"))
        # The queue at moments 1 to 20: 0 at 12 of them, 0.5 at one, 1 at seven.
        self.assertEqual((row.queue_50, row.queue_95, row.queue_most), (0, 1, 1))
        self.assertEqual((row.stopped, row.on_green, row.platoon_ratio), (1, 0, 0))
        # Its green goes on after the run.
        self.assertEqual((row.greens, row.failures, row.green_mean, row.cycle_mean, row.plans), (0, 0, None, None, None))

    def test_a_vehicle_that_comes_on_green(self) -> None:
        # The report of FORMATS: half a vehicle waits a second, less than the two that a vehicle takes; 10 of 20 seconds are green.
        study = self.study(REPORT)
        row = self.row(study, "movement", "sa>ab")
        self.assertEqual((row.delay, row.delay_each, row.stopped, row.on_green, row.platoon_ratio), (0.5, 0.5, 0, 1, 2))
        self.assertEqual((row.queue_50, row.queue_95, row.queue_most), (0, 0, 0.5))
        node = self.row(study, "node", "a")
        self.assertEqual((node.greens, node.green_mean, node.plans, node.none), (1, 5, 4, 0))
        network = self.row(study, "network", "network")
        self.assertEqual((network.vehicles, network.trip_delay, network.plans), (1, 0.5, 8))
        before = self.row(study, "link", "sa", 0, 10)
        self.assertEqual((before.vehicles, before.delay_each, before.level, before.platoon_ratio), (0, None, None, None))

    def test_a_green_that_is_too_short(self) -> None:
        # Five vehicles stand from second 10 on; of the green 12 to 17 two seconds are lost, and 1.5 leave in the others.
        report = "kind,round,node,x,y,z,w\ngreen,,a,0,0,7,\ngreen,,a,1,12,17,\n"
        row = self.row(self.study(report, "second,link,amount\n0,sa,5000\n"), "approach", "sa")
        self.assertEqual((row.greens, row.failures, row.green_mean), (1, 1, 5))
        # Queues: 5 at moments 11 to 14, then 4.5, 4, and 3.5 at 17 to 20.
        self.assertEqual((row.vehicles, row.left, row.stopped, row.delay, row.delay_each), (5, 1.5, 5, 42.5, 8.5))
        self.assertEqual((row.queue_50, row.queue_95, row.queue_most), (0, 5, 5))

    def test_further_greens_and_walks(self) -> None:
        # `left` is green from 0 to 20 of 30 seconds, in two phases and the change between them; `walk` in the seconds 25 and 26 alone.
        report = "kind,round,node,x,y,z,w\ngreen,,a,0,0,10,\ngreen,,a,1,15,20,\ngreen,,a,2,25,30,\n"
        study = self.study(report, "second,link,amount\n4,left,1000\n25,walk,1000\n26,walk,1000\n", OVERLAPS)
        left, walk = (self.row(study, "link", name) for name in ("left", "walk"))
        self.assertEqual((left.on_green, left.platoon_ratio, left.greens), (1, 1.5, 1))
        self.assertEqual((walk.on_green, round(walk.platoon_ratio, 9)), (0.5, 7.5))

    def test_who_walks(self) -> None:
        # Who comes in the second in which a walk ends waits to the end of the run.
        report = "kind,round,node,x,y,z,w\ngreen,,a,0,0,10,\ngreen,,a,1,15,20,\ngreen,,a,2,25,30,\n"
        study = self.study(report, "second,link,amount\n4,left,1000\n25,walk,1000\n26,walk,1000\n", OVERLAPS)
        left, walk, node = (self.row(study, *part) for part in (("link", "left"), ("link", "walk"), ("node", "a")))
        self.assertEqual([(row.vehicles, row.persons, row.level) for row in (left, walk, node)], [(1, 0, "A"), (0, 2, None), (1, 2, "A")])
        self.assertEqual((left.green_mean, left.dark, left.delay + walk.person_delay), (20, 10, node.delay + node.person_delay))

    def test_more_comes_than_leaves(self) -> None:
        # Of five seconds two are lost, so 1.5 of five vehicles may leave: F, though each waits 8.5 seconds.
        report = "kind,round,node,x,y,z,w\ngreen,,a,0,0,7,\ngreen,,a,1,12,17,\n"
        row = self.row(self.study(report, "second,link,amount\n0,sa,5000\n"), "link", "sa")
        self.assertEqual((row.capacity, row.v_c, row.delay_each, row.level), (1.5, 5 / 1.5, 8.5, "F"))

    def test_queues_by_lane(self) -> None:
        # Five vehicles of 7.5 metres: 37.5 in one lane; 10 of a bay and 27.5 beside it; and half of what is beyond both of two alike.
        self.assertEqual([lanes.reach(5, of) for of in ((60,), (10, 60), (10, 10), (10, 60, 60))], [37.5, 27.5, 18.75, 13.75])
        report = "kind,round,node,x,y,z,w\ngreen,,a,0,0,7,\ngreen,,a,1,12,17,\n"
        study = self.study(report, "second,link,amount\n0,sa,5000\n")
        study.lanes = lanes.read_lanes(self.file("link,lane,metres\nsa,1,10\nsa,2,60\n"), self.network)
        sa, sb = (self.row(study, "link", name) for name in ("sa", "sb"))
        # Of the queue of test_a_green_that_is_too_short, from moment 11 on 5 to 3.5 vehicles: the bay of 10 metres is full at ten moments of 20.
        self.assertEqual((sa.lane_95, sa.lane_most, sa.metres_95, sa.metres_most, sa.full), (27.5 / 7.5, 27.5 / 7.5, 27.5, 27.5, 0.5))
        self.assertEqual((sb.metres_most, self.row(study, "node", "a").metres_most), (None, 27.5))
        self.assertEqual(measures.table_text([sa]).splitlines()[1].split()[-5:], ["3.7", "3.7", "28", "28", "50"])
        with self.assertRaisesRegex(Fault, 'lanes:2: .*no link "zz"'):
            lanes.read_lanes(self.file("link,lane,metres\nzz,1,60\n", "lanes"), self.network)

    def test_a_link_that_is_never_served(self) -> None:
        # Phase 1 of b has no green. Its vehicle stands from moment 11 on: through the second green of phase 0 and not the first.
        report = "kind,round,node,x,y,z,w\ngreen,,b,0,0,5,\ngreen,,b,0,12,17,\n"
        row = self.row(self.study(report, "second,link,amount\n0,sb,1000\n"), "link", "sb")
        self.assertEqual((row.greens, row.failures, row.v_c, row.level, row.green_mean), (2, 1, math.inf, "F", None))

    def test_a_movement_is_what_takes_a_turn(self) -> None:
        # Half of what comes from a turns back at b: 0.5 of the vehicle that reaches b in the seconds 20 and 21.
        study = self.study(REPORT.rsplit("link,", 5)[0], network=NETWORK.replace("rounds = 4", "rounds = 5"))
        self.assertEqual([self.row(study, "movement", name).vehicles for name in ("ab>ba", "ab>xb")], [0.5, 0.5])
        self.assertEqual(self.row(study, "link", "ab").on_green, 1)

    def test_cycles(self) -> None:
        # The rows of docs/RULES.md, "Fixed plan", with the offset 5.
        report = "kind,round,node,x,y,z,w\ngreen,,a,0,5,15,\ngreen,,a,1,20,40,\ngreen,,a,0,45,55,\n"
        study = self.study(report, "second,link,amount\n", NETWORK.replace("rounds = 4", "rounds = 12"))
        row = self.row(study, "node", "a")
        self.assertEqual((row.greens, row.green_mean, row.green_least, row.green_most), (3, 40 / 3, 10, 20))
        self.assertEqual((row.cycle_mean, row.cycle_least, row.cycle_most), (40, 40, 40))

    def test_dark_times(self) -> None:
        # Up to second 20 phase 0 of a is dark from 10 on, phase 1 up to 15; b shows phase 0 all the time and phase 1 never.
        study = self.study(HELD)
        dark = {row.name: row.dark for row in study.table("phase")}
        self.assertEqual(dark, {"a 0": 10, "a 1": 15, "b 0": 0, "b 1": 20})
        self.assertEqual([self.row(study, kind, name).dark for kind, name in (("node", "a"), ("link", "sa"), ("network", "network"))], [15, 15, 20])
        self.assertEqual([row.dark for row in study.table("phase", 5, 18)], [8, 10, 0, 13])

    def test_intervals_and_approaches(self) -> None:
        study = self.study(HELD)
        rows = study.table("node", 0, 20, 10)
        self.assertEqual([(row.begin, row.end, row.name, row.vehicles) for row in rows][2:], [(10, 20, "a", 1), (10, 20, "b", 0)])
        names = measures.approaches_of(self.network, {"south": ["sb"]})
        self.assertEqual(list(names), ["sa", "a to b", "b to a", "south"])
        with self.assertRaisesRegex(Fault, "one node"):
            measures.approaches_of(self.network, {"both": ["sa", "sb"]})
        with self.assertRaisesRegex(Fault, "no interval"):
            study.table("node", 5, 21)

    def test_levels_and_percentiles(self) -> None:
        delays = (None, 0, 10, 10.1, 20, 35, 55, 80, 80.1)
        self.assertEqual([measures.level_of(delay) for delay in delays], [None, "A", "A", "B", "B", "C", "D", "E", "F"])
        self.assertEqual([measures.percentile([4, 1, 3, 2], part) for part in (25, 50, 95, 100)], [1, 2, 4, 4])

    def test_texts(self) -> None:
        rows = self.study(HELD).table("link")
        read = list(csv.DictReader(io.StringIO(measures.csv_text(rows))))
        self.assertEqual([read[0][name] for name in ("name", "delay_each", "level", "cycle_mean")], ["sa", "7.5", "A", ""])
        self.assertEqual(len(measures.table_text(rows).splitlines()), 5)
        with self.assertRaisesRegex(Fault, "other arrivals"):
            self.study(HELD, "second,link,amount\n1,sa,1000\n")

    def test_the_command(self) -> None:
        files = [str(self.file(text, name)) for name, text in (("net", NETWORK), ("arr", ARRIVALS), ("report", HELD))]
        queues = ["--queues", str(self.file(QUEUES, "queues"))]
        self.assertEqual(measures.answer([*files, "--by", "all"]), measures.answer([*files, "--by", "all", *queues]))
        rows = measures.answer([*files, "--by", "approach", "--approach", "east=sa", "--every", "10", "--csv"]).splitlines()
        self.assertEqual([row[:19] for row in rows[1:]][::4], ["approach,east,0,10,", "approach,east,10,20"])
        with self.assertRaisesRegex(Fault, "other arrivals"):
            measures.answer([*files[:2], str(self.file(REPORT, "other")), *queues])
        odd = str(self.file(NETWORK.replace('links = ["sb"]', 'links = ["xx"]'), "odd"))
        for answer in (measures.answer, page.answer, summary.answer):
            with self.assertRaisesRegex(Fault, "odd: this network can't be used here"):
                answer([odd, *files[1:]])
        with self.assertRaisesRegex(Fault, '"east": its links'):
            measures.answer([*files, "--by", "approach", "--approach", "east=sa,no"])

    def test_lost_seconds(self) -> None:
        # docs/RULES.md, "World": 1000 wait from second 10 on; with green from 12 the delay is 4500, with green from 10 it is 500.
        network = self.study(HELD).network
        for begin, delay in ((12, 4500), (10, 500)):
            study = self.study(HELD)
            flows = flows_of_greens(network, measures.read_arrivals(self.file(ARRIVALS)), [Green("a", 1, begin, 40)])
            self.assertEqual((flows["sa"].delay, study.end), (delay, 20))

    @unittest.skipUnless(importlib.util.find_spec("pandas"), "pandas is not installed")
    def test_frame(self) -> None:
        frame = frame_of(self.study(HELD).table("link"))
        self.assertEqual(frame.set_index("name").delay_each["sa"], 7.5)
