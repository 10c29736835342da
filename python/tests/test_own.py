"""Tests of SUMO's own network under an imported one: what its signals show, max-pressure, and what stop lines let through."""

import shutil
import subprocess
import unittest
from collections import Counter
from functools import partial
from pathlib import Path
from tempfile import TemporaryDirectory
from types import SimpleNamespace

from kolvunh.faults import Fault
from kolvunh.sumo.calibrate import Count, rewritten
from kolvunh.sumo.demand import Demand
from kolvunh.sumo.drafts import Draft, write_draft
from kolvunh.sumo.from_sumo import nodes_of
from kolvunh.sumo.layout import SPEED, SUMO_HOME
from kolvunh.sumo.loop import Loop, run_control
from kolvunh.sumo.measures import differences, outcome, run_words
from kolvunh.sumo.own import OwnSensors, OwnSignals
from kolvunh.sumo.pressure import MaxPressure
from kolvunh.sumo.streets import Streets
from kolvunh.sumo.to_sumo import element

from .test_sumo import ring_answer

TEXT = """version = 3

[[node]]
name = "n"
[[node.phase]]
least = 5
loss = 2
[[node.phase]]
least = 5
loss = 2

[[link]]
name = "a"
sat = 500
yield_sat = 100

[[link]]
name = "b"
sat = 500
"""


def junction(**links):
    """A node with a phase for link a and one for link b, of 5 to 20 seconds, whose links have these further keys."""
    times = {"least": 5, "greatest": 20, "yellow": 3, "clear": 2}
    node = {"name": "n", "phase": [{**times, "links": ["a"]}, {**times, "links": ["b"]}]}
    tables = {name: {"name": name, "to": "n", "sat": 500, **links.get(name, {})} for name in ("a", "b")}
    return SimpleNamespace(nodes={"n": node}, links=tables, seconds=100)


class PressureTest(unittest.TestCase):
    def test_the_phase_with_more_than_nine_times_the_pressure(self):
        control = MaxPressure(SimpleNamespace(layout=junction()))
        self.assertEqual(control.act(4, Counter(b=9), {})["n"], [(0, 0, 20)])
        self.assertEqual(control.act(5, Counter(a=1, b=9), {})["n"], [(0, 0, 20)])
        self.assertEqual(control.act(6, Counter(a=1, b=8), {("b", 9): 2})["n"], [(0, 0, 6), (1, 11, 31)])
        self.assertEqual(control.act(31, Counter(b=9), {})["n"], [(0, 0, 6), (1, 11, 31), (0, 36, 56)])

    def test_an_exit_that_is_full(self):
        layout = junction(b={"turn": [{"exit": "a", "share": 1000}]})
        control = MaxPressure(SimpleNamespace(layout=layout))
        self.assertEqual(len(control.act(6, Counter(a=5, b=9), {})["n"]), 1)


class CountTest(unittest.TestCase):
    def count(self, **links):
        signals = SimpleNamespace(layout=junction(**links), lanes={"a": ["w_0"], "b": ["s_0"]}, tls=lambda node: "tls")
        moves = [SimpleNamespace(index=place, lane=lane) for place, lane in enumerate(("w_0", "s_0"))]
        signals.junctions = SimpleNamespace(movements={"tls": moves})
        return Count(signals)

    def run_green(self, count, state, near=frozenset(), seconds=100, every=2):
        """A queue of six of whom one leaves every so many seconds."""
        for now in range(seconds):
            first = now // every
            where = {f"v{n}": ("a", 0) for n in range(first, first + 6)}
            count.look(now, where, Counter(a=6), {"a", *near}, {"tls": state})

    def test_a_queue_that_leaves(self):
        count = self.count()
        self.run_green(count, "Gr", seconds=44)
        self.assertEqual(count.changes()["a"], {})
        self.run_green(count, "rr", seconds=1)
        self.run_green(count, "Gr")
        self.assertEqual(count.changes()["a"], {"sat": 493})

    def test_who_gives_way(self):
        count = self.count(a={"yields": ["b"], "yield_sat": 100})
        self.run_green(count, "gG", near={"b"}, every=20)
        self.assertEqual(count.changes()["a"], {"yield_sat": 42})
        self.run_green(count, "gG")
        self.assertEqual(count.changes()["a"], {"yield_sat": 42})

    def test_the_loss_of_a_phase(self):
        count = self.count()
        for _ in range(5):
            self.run_green(count, "rr", seconds=1)
            self.run_green(count, "Gr", seconds=40)
        self.assertEqual(count.losses(), {("n", 0): 0})

    def test_a_file_with_what_is_measured(self):
        text = rewritten(TEXT, {}, {"a": {"sat": 400, "yield_sat": 30}, "b": {}}, {("n", 1): 3})
        wanted = TEXT.replace('"a"\nsat = 500\nyield_sat = 100', '"a"\nsat = 400\nyield_sat = 30')
        self.assertEqual(text, wanted.replace("loss = 2\n\n", "loss = 3\n\n"))


@unittest.skipUnless(shutil.which("sumo") and (Path(SUMO_HOME) / "tools/traci").is_dir(), "SUMO is not installed")
class OwnTest(unittest.TestCase):
    def setUp(self):
        place = TemporaryDirectory()
        self.addCleanup(place.cleanup)
        self.folder = Path(place.name)
        self.net, self.routes = self.folder / "grid.net.xml", self.folder / "grid.rou.xml"
        words = "--grid --grid.number 2 --grid.length 200 --grid.attach-length 200 --turn-lanes 1 --turn-lanes.length 60"
        words += " --default-junction-type traffic_light --no-turnarounds --crossings.guess --sidewalks.guess"
        subprocess.run(["netgenerate", *words.split(), "-o", self.net], check=True, capture_output=True)
        streets = Streets(self.net)
        starts, exits = ([edge for edge in streets.edges if not ways[edge]] for ways in (streets.before, streets.onward))
        pairs = [(start, exit) for start in starts for exit in exits if streets.edges[start].start != streets.edges[exit].end]
        rows = "".join(f'<trip id="{n}" from="{start}" to="{exit}" depart="{n}"/>' for n, (start, exit) in enumerate(pairs))
        rows += f'<person id="p" depart="56"><walk from="{pairs[0][0]}" to="{pairs[0][1]}"/></person>'
        self.routes.write_text(f"<routes>{rows}</routes>", encoding="utf-8")
        demand = Demand(streets, 3000)
        demand.read_routes(self.routes)
        write_draft(Draft(streets.edges, streets.places, nodes_of(streets)[0], demand.vehicles, demand.walkers), self.folder)
        self.signals = OwnSignals(self.net, self.folder)
        self.signals.layout.seconds = 100

    def run_under(self, name, controller):
        words = run_words(self.folder, name, 1, self.signals, files=(self.net, self.routes))
        lines = run_control(self.signals, controller, words, OwnSensors)
        return lines, list(differences(self.folder, name, 1, self.signals, lines)), outcome(self.folder, name, 1)

    def test_greens_that_are_shown_link_by_link(self):
        loop = Loop(self.signals, partial(ring_answer, phases=len(next(iter(self.signals.layout.nodes.values()))["phase"]), change=6))
        lines, differing, found = self.run_under("decide", loop)
        self.assertEqual((differing, found.collisions, len(lines)), ([], 0, 4))
        other = {node: [(0, 0, 4), *line[1:]] for node, line in lines.items()}
        self.assertTrue(list(differences(self.folder, "decide", 1, self.signals, other)))

    def test_max_pressure(self):
        lines, differing, found = self.run_under("pressure", MaxPressure(self.signals))
        self.assertEqual((differing, found.collisions), ([], 0))
        self.assertTrue(any(len(line) > 2 for line in lines.values()))

    def test_controllers_of_sumo(self):
        path = self.folder / "actuated.xml"
        path.write_text(element("additional", self.signals.programs("actuated")), encoding="utf-8")
        words = run_words(self.folder, "actuated", 1, self.signals, [path], (self.net, self.routes))
        subprocess.run(words, check=True, capture_output=True)
        self.assertEqual(outcome(self.folder, "actuated", 1).vehicles, 56)

    def test_turns_into_one_lane_that_stop_for_each_other(self):
        """Twenty turn left and twenty right into one lane, over a crossing on which people walk at first, in one green without an end."""
        starts = [(5 * n, f"l{n}", "left0A0.140.00") for n in range(20)] + [(3 * n, f"r{n}", "B0A0.140.00") for n in range(20)]
        turn = '<vehicle id="{1}" depart="{0}" departSpeed="max"><route edges="{2} A0A1"/></vehicle>'
        walk = '<walk edges="A1A0.140.00 A0A1" departPos="-5" arrivalPos="20"/>'
        people = "".join(f'<person id="p{n}" depart="{7 * n}">{walk}</person>' for n in range(8))
        self.routes.write_text(f"<routes>{''.join(turn.format(*start) for start in sorted(starts))}</routes>", encoding="utf-8")
        walkers = self.folder / "walkers.rou.xml"
        walkers.write_text(f"<routes>{people}</routes>", encoding="utf-8")
        path, green = self.folder / "green.xml", '<phase duration="999" state="rrrgGgrrrgGgGrGr"/>'
        path.write_text(element("additional", element("tlLogic", green, id="A0", type="static", programID="green", offset=0)), encoding="utf-8")
        self.signals.layout.seconds = 600
        words = run_words(self.folder, "turns", 1, self.signals, [path], (self.net, f"{self.routes},{walkers}"))
        place = words.index("--ignore-junction-blocker")
        self.assertEqual(words[place + 1], str(50 + 3 + 3))
        subprocess.run([*words[:place], *words[place + 2 :]], check=True, capture_output=True)
        self.assertLess(outcome(self.folder, "turns", 1).arrived, 40)
        subprocess.run(words, check=True, capture_output=True)
        self.assertEqual(outcome(self.folder, "turns", 1).arrived, 40)

    def test_whom_a_crossing_meets(self):
        """No other crossing, and who comes over its two edges or goes into them: three ways and three."""
        junctions = self.signals.junctions
        for node in self.signals.streets.programs:
            for crossing in junctions.crossings[node]:
                self.assertFalse(any(junctions.cross(crossing, other) for other in junctions.crossings[node]))
                met = [move for move in junctions.movements[node] if junctions.cross(crossing, move)]
                self.assertEqual((len(met), all(junctions.gives_way(move, crossing) for move in met)), (6, True))

    def test_a_network_that_is_another_one(self):
        (self.folder / "other.net.xml").write_text("<net/>", encoding="utf-8")
        with self.assertRaisesRegex(Fault, "it has no signal"):
            OwnSignals(self.folder / "other.net.xml", self.folder)

    def test_on_which_link_a_vehicle_is(self):
        sensors = OwnSensors(SimpleNamespace(), self.signals)
        way = next(tuple(trip) for trip in [self.signals.streets.route(*self.ends())] if trip)
        stops = sensors._stops(way)
        self.assertEqual([place for place, _, _ in stops], sorted({place for place, _, _ in stops}))
        link = sensors._link(way, stops[0], "")
        self.assertEqual(self.signals.layout.links[link].get("to"), stops[0][2])
        speed, metres = sensors._scaled(way[: stops[0][0] + 1], 0, 0)
        self.assertAlmostEqual(metres, SPEED * sum(self.signals.streets.edges[edge].seconds for edge in way[: stops[0][0] + 1]))
        self.assertEqual(speed, 0 if stops[0][0] == 0 else 5)

    def ends(self):
        streets = self.signals.streets
        start = next(edge for edge in streets.edges if not streets.before[edge])
        exit = next(e for e in streets.edges if not streets.onward[e] and streets.edges[e].end != streets.edges[start].start)
        return start, exit


if __name__ == "__main__":
    unittest.main()
