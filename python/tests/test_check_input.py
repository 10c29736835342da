"""Tests of the loads and warnings of `check-input`, on the worked network of docs/FORMATS.md with numbers by hand."""

import contextlib
import io
import itertools
import sys
import unittest
from unittest import mock

from kolvunh import arrivals_text, network_text
from kolvunh.check_input import inputs_of, is_one_approach, load_lines, main, warnings
from kolvunh.loads import best_loads, phase_loads
from kolvunh.networks import Link, Network, Node, Phase, Run
from kolvunh.street.command import write_draft
from kolvunh.street.counts import demand_of
from kolvunh.street.draft import Drafter
from kolvunh.street.junction_file import read_street

from . import worked
from .worked import FilesTest

# What a network with nothing to warn of has: `look` a green below `greatest`, and `split`.
QUIET = worked.NETWORK.replace("look = 30", "look = 20\nsplit = true")
STEADY = "second,link,amount\n" + "".join(f"{second},{link},100\n" for second in range(20) for link in ("sa", "sb"))


class CheckInputTest(FilesTest):
    def inputs(self, network=QUIET, arrivals=STEADY, plan=None):
        files = [self.file(text, name) for text, name in ((network, "net"), (arrivals, "arr"), (plan or "", "plan"))]
        return inputs_of(*files[: 3 if plan else 2])

    def said(self, *texts, **named):
        return warnings(self.inputs(*texts, **named))

    def test_loads(self):
        # 100 a second enter by sa and by sb. Half of what comes to the end of ab comes back by ba: ab has 200, ba 100. Each link lets 500
        # through; a cycle of greatest greens has 70 seconds, of which 14 are lost.
        wanted = ["a: phase 0 0.20, phase 1 0.20; saturation 0.50", "b: phase 0 0.40, phase 1 0.20; saturation 0.75"]
        self.assertEqual(load_lines(self.inputs()), wanted)
        self.assertEqual(self.said(), [])

    def test_sat(self):
        said = self.said(QUIET.replace("sat = 500", "sat = 1800", 1))
        words = "link sa: sat = 1800 is 1.8 vehicles a second, 6480 an hour: if 1800 an hour are meant, write sat = 500"
        self.assertEqual(said, [words + "; if these are several lanes, some 500 for each"])
        low = self.said(QUIET.replace("sat = 500", "sat = 50", 1), "second,link,amount\n0,sb,1000\n")
        words = "link sa: sat = 50 is 180 vehicles an hour: is it one every 20 seconds? A lane lets some 500 through, which is 1800 an hour"
        self.assertEqual(low[0], words)

    def test_amounts(self):
        said = self.said(arrivals="second,link,amount\n0,sa,1\n4,sa,2\n")
        words = "arrivals: all amounts are at most 2, thousandths of a vehicle: if they count vehicles, write 1000 for each, as 2000 for 2"
        self.assertEqual(said, [words])
        said = self.said(arrivals="second,link,amount\n0,sa,20000\n")
        self.assertIn("link sa: 20 vehicles enter in second 0 alone: if they come in an interval, write a row for each second", said[0])

    def test_arrivals_after_the_end(self):
        said = self.said(arrivals="second,link,amount\n0,sa,1000\n20,sa,1000\n27,sb,1000\n")
        words = "arrivals: 2 of 3 rows come at second 20, the end of the run, or later, and never enter: write rounds = 6 or more"
        self.assertEqual(said, [words])
        self.assertEqual(self.said(arrivals="second,link,amount\n"), ["arrivals: there are none: nobody enters"])
        said = self.said(QUIET.replace("rounds = 4", "rounds = 60"), "second,link,amount\n0,sa,1000\n59,sa,1000\n")
        words = "rounds = 60 of 5 seconds are 300 seconds, and the last vehicle enters in second 59: if 60 seconds are meant, write rounds = 12"
        self.assertEqual(said, [words])

    def test_times_of_a_node(self):
        # The longest red of a phase is its own yellow and clear time, and the other's greatest green with those after it: 5 + 35.
        said = self.said(QUIET.replace("wait = 120", "wait = 39", 1))
        words = "a: phase 0: wait = 39 is shorter than the longest red, 40: where no order keeps it, there is no plan; write wait = 41 or more"
        self.assertEqual(said, [words])
        said = self.said(QUIET.replace("least = 5", "least = 2", 1))
        words = "a: phase 0: least = 2 is not above loss = 2: a green of the least length serves no queue; write least = 3 or more"
        self.assertEqual(said, [words])
        self.assertEqual(self.said(worked.NETWORK.replace("look = 30", "look = 20"))[-1].split(":")[0], "no split")
        full = self.said(arrivals=STEADY.replace(",100\n", ",120\n"))
        self.assertEqual(full, ["b is at 0.90 of saturation: queues will be long"])

    def test_a_phase_on_call(self):
        third = '[[node.phase]]\nleast = 5\ngreatest = 30\nyellow = 3\nclear = 2\nloss = 2\nwait = 120\nskip = true\nlinks = ["ta"]\n\n[[node]]\nname = "b"'
        link = '[[link]]\nname = "ta"\nto = "a"\ntravel = 10\nsat = 500\nturn = [{ exit = "ab", share = 1000 }]\n\n[[conflict]]\na = "ta"\nb = "ba"\n\n'
        network = QUIET.replace('[[node]]\nname = "b"', third).replace("[[conflict]]", link + "[[conflict]]", 1)
        words = "a: phase 2: skip = true: a plan may leave it out time after time, and nothing bounds how long its vehicles wait"
        said = self.said(network, STEADY + "0,ta,100\n")
        self.assertEqual(said[0], words + "; write recall or age in [run] or a weight of its links, or leave skip out")
        crossing = "a: never green together and in no conflict are sa and ta; for each two that cross write [[conflict]] with a and b"
        self.assertEqual(said[1:], [crossing])
        self.assertEqual(self.said(network), [crossing])
        self.assertEqual(self.said(network.replace("split = true", "split = true\nrecall = 60"), STEADY + "0,ta,100\n"), [crossing])

    def real(self, **changes):
        """The inputs of a real junction, with parts of the network's text replaced, a word at a time."""
        text = (worked.EXAMPLES / "real_junction.toml").read_text(encoding="utf-8")
        for old, new in changes.values():
            self.assertIn(old, text)
            text = text.replace(old, new, 1)
        return inputs_of(self.file(text, "real"), worked.EXAMPLES / "real_junction.csv")

    def test_further_greens_share_the_load(self):
        # a: ba needs 0.4 in phase 0. What comes by sa needs as much, and may leave in phase 0 as well as in its home, phase 1.
        network = QUIET.replace("[run]", "version = 3\n[run]").replace('links = ["ba"]', 'links = ["ba"]\nalso = ["sa"]', 1)
        arrivals = STEADY.replace("sa,100", "sa,200")
        alone, shared = (load_lines(self.inputs(text, arrivals))[0] for text in (QUIET, network))
        self.assertEqual(alone, "a: phase 0 0.40, phase 1 0.40; saturation 1.00")
        self.assertEqual(shared, "a: phase 0 0.40, phase 1 0.00; saturation 0.50")

    def test_who_gives_way_in_its_home(self):
        # Of 50 a second by `left` 100 get through beside `ahead` where somebody comes there, and else 450.
        times = (5, 30, 3, 2, 2, 120)
        node = Node("x", (Phase(*times, ("ahead", "left")), Phase(*times, ("side",))))
        links = (Link("ahead", 9, 500, end="x"), Link("left", 9, 450, end="x", yields=("ahead",), yield_sat=100), Link("side", 9, 500, end="x"))
        network = Network(Run(5, 30, 1, 4), (node,), links, version=3)
        for ahead, load in ((100, 50 / 100), (0, 50 / 450)):
            self.assertEqual(phase_loads(network, node, {"ahead": ahead, "left": 50, "side": 100}), [load, 100 / 500])

    def test_a_phase_without_a_row(self):
        plan = "node,phase,green,offset\n" + "".join(f"{node},{phase},20,0\n" for node in "ab" for phase in (0, 1) if (node, phase) != ("a", 1))
        said = "fixed plan: a: phase 1 has no row, and sa brings 360 an hour, who wait to the end; write one"
        self.assertEqual(self.said(plan=plan)[0], said)

    def test_volumes_of_an_hour(self):
        said = self.said(arrivals="second,link,amount\n0,sa,850\n0,sb,90\n")
        words = "arrivals: all come in second 0, and 850 is 0.85 of a vehicle: if these are volumes of an hour, write a row with 1000 for each vehicle"
        self.assertEqual(said, [words + ", in the second in which it comes"])

    def test_examples_and_one_approach(self):
        for place in sorted(worked.EXAMPLES.glob("*.toml")):
            if not place.name.startswith("refused"):
                self.assertEqual(warnings(inputs_of(place, place.with_suffix(".csv"))), [], place.name)
        roads = [Link("oak_eb", 9, 500, end="oak"), Link("oak_ebl", 9, 500, end="oak"), Link("elm_eb", 9, 500, "oak", "elm"), Link("bus", 9, 500, "oak", "elm")]
        alike = {(one.name, other.name) for one, other in itertools.combinations(roads, 2) if is_one_approach(one, other)}
        self.assertEqual(alike, {("oak_eb", "oak_ebl"), ("elm_eb", "bus")})

    def test_the_arterial_with_its_counts_and_plan(self):
        streets = worked.EXAMPLES / "streets"
        street = read_street(streets / "arterial.toml")
        write_draft(Drafter(street).draft(), street, self.folder)
        demand = demand_of(self.folder / "net.toml", streets / "arterial_counts.csv")
        files = self.file(network_text(demand.network), "counted.toml"), self.file(arrivals_text(demand.arrivals), "arrivals.csv")
        self.assertEqual(warnings(inputs_of(*files, streets / "arterial_plan.csv")), [])

    def test_who_gives_way_lets_less_through(self):
        inputs = self.real()
        node, flows = inputs.network.nodes[0], inputs.flows
        alone, shared = phase_loads(inputs.network, node, flows), best_loads(inputs.network, node, flows)
        # South_left lets 100 through beside the main road, and 450 in its own phase.
        for name, load in (("south_left", 100 * shared[0] + 450 * shared[1]), ("north_left", 100 * shared[0] + 450 * shared[1])):
            self.assertGreaterEqual(load, flows[name] - 1e-6)
        self.assertLess(sum(shared), sum(alone))

    def test_who_is_trapped(self):
        self.assertEqual([line for line in warnings(self.real()) if "wait inside" in line], [])
        said = [line for line in warnings(self.real(clear=("clear = 3", "clear = 2"))) if "wait inside" in line]
        words = "may wait inside the junction as its green ends, and phase 1, which follows, may be left out; write clear = 3 or more"
        self.assertEqual(said, [f"station: phase 0: north_left, south_right, south_left {words}"])
        stays = self.real(clear=("clear = 3", "clear = 2"), skip=("skip = true", "skip = false"))
        self.assertEqual([line for line in warnings(stays) if "wait inside" in line], [])

    def test_pairs_that_cross(self):
        yields = 'yields = ["south", "south_right", "walk_east"]', 'yields = ["south", "walk_east"]'
        said = [line for line in warnings(self.real(yields=yields)) if "into one exit" in line]
        self.assertEqual(len(said), 1)
        self.assertIn("green together and into one exit are north_left and south_right, and neither gives way", said[0])
        missing = '[[conflict]]\na = "north"\nb = "east"\n', ""
        self.assertIn("in no conflict are north and east;", warnings(self.real(conflict=missing))[-1])

    def test_a_short_walk(self):
        said = [line for line in warnings(self.real(walk=("walk = 7", "walk = 2"))) if "walk = " in line]
        words = "link walk_east: walk = 2 is not above loss = 2 of phase 0: who waits there does not go in it; write walk = 3 or more"
        self.assertEqual(said, [words])

    def test_cycles_of_neighbours(self):
        # a has 10 + 5 + 20 + 5 = 40 seconds, b 15 + 5 + 10 + 5 = 35
        said = self.said(plan=worked.PLAN)
        self.assertIn("a has a cycle of 40 seconds and its neighbour b one of 35", said[0])
        # Of 15 seconds of green 13 serve: 500 x 13 / 35 = 185.7 thousandths a second, 669 an hour; 200 a second come, 720 an hour.
        self.assertEqual(said[1], "fixed plan: b: ab brings 720 an hour, and its 15 of 35 seconds let 669 through: its queue grows; write a longer green")
        self.assertEqual(self.said(plan=worked.PLAN.replace("b,0,15,0", "b,0,20,0")), [])

    def command(self, *words):
        """The status, output and error of the command."""
        out, err = io.StringIO(), io.StringIO()
        with mock.patch.object(sys, "argv", ["check-input", *map(str, words)]), self.assertRaises(SystemExit) as ended:
            with contextlib.redirect_stdout(out), contextlib.redirect_stderr(err):
                main()
        return ended.exception.code, out.getvalue(), err.getvalue()

    def test_the_command(self):
        net, arr = self.file(worked.NETWORK, "a net.toml"), self.file(STEADY, "arr")
        status, out, err = self.command(net, arr)
        self.assertEqual((status, err), (1, ""))
        self.assertTrue(out.splitlines()[-1].startswith(f"warning: {net}:1: no split"))
        self.assertEqual(self.command(self.file(QUIET, "quiet"), arr)[0], 0)

    def test_the_worst(self):
        arrivals = self.file(STEADY + "20,sa,1\n", "arr")
        status, out, err = self.command("--worst", self.file(worked.NETWORK, "a net.toml"), arrivals)
        self.assertEqual((status, out, err.count("\n")), (0, "", 1))
        self.assertRegex(err, r"check-input: .*arr:42: arrivals: 1 of 41 rows come at second 20, .* \(and 1 more\): ./signal check-input '.*a net.toml' '.*arr'")
        self.assertEqual(self.command("--worst", self.file(QUIET, "quiet"), self.file(STEADY, "steady")), (0, "", ""))

    def test_faults_in_one_line(self):
        net, arr = self.file(QUIET, "net"), self.file(STEADY, "arr")
        for words, said in (
            ((net, self.folder / "none"), "none: No such file or directory"),
            ((arr, net), "arr: Expected '=' after a key in a key/value pair (at line 1, column 7)"),
            ((self.file(QUIET.replace("{ exit", "{\n exit", 1), "newer"), arr), "newer: line 51 is TOML 1.1, and Python reads TOML 1.0"),
            ((self.file("a\n" + QUIET.replace("{ exit", "{\n exit", 1), "broken"), arr), "broken: Expected '=' after a key"),
            ((net, self.file("second,amount\n0,1\n", "short")), 'short:1: the header is "second,amount", and has to be second,link,amount'),
            ((worked.EXAMPLES / "corridor.toml", arr), 'arr: link "sa" is none of the network: is it a file of another one?'),
            ((net, arr, self.file(worked.PLAN.replace("b,1", "b,2"), "plan")), 'plan: the network has no phase 2 of node "b"'),
            ((self.file(QUIET.replace('links = ["sb"]', 'links = ["xx"]'), "odd"), arr), "this network can't be used here"),
        ):
            status, out, err = self.command(*words)
            self.assertEqual((status, out, err.count("\n")), (2, "", 1), err)
            self.assertIn(said, err)


if __name__ == "__main__":
    unittest.main()
