"""Tests of the tools for SUMO. Where SUMO is not installed, those that need it are skipped."""

import random
import re
import shutil
import subprocess
import tempfile
import unittest
from collections import Counter
from pathlib import Path
from types import SimpleNamespace
from unittest import mock

from kolvunh.faults import Fault
from kolvunh.networks import read_tables
from kolvunh.sumo.layout import SUMO_HOME, Layout, read_places, vehicles, walkers
from kolvunh.sumo.loop import Loop, Sensors, asker, repeat_arrivals, run_loop, seconds_to_end
from kolvunh.sumo.measures import differences, outcome, run_words
from kolvunh.sumo.signals import state_at
from kolvunh.sumo.to_sumo import convert, element, report_programs, write_routes

from .worked import EXAMPLES, ROOT

HERE = ROOT / "tools/sumo"
CORRIDOR = read_tables(EXAMPLES / "corridor.toml")
# The greens of `turns` on the corridor.
GREENS = {
    "first": [(0, 0, 23), (1, 28, 35), (0, 40, 64), (1, 69, 77), (0, 82, 103), (1, 108, 114), (0, 119, 159)],
    "second": [(0, 0, 9), (1, 14, 27), (0, 32, 50), (1, 55, 63), (0, 68, 81), (1, 86, 94), (0, 99, 132)],
    "third": [(0, 0, 21), (1, 26, 31), (0, 36, 59), (1, 64, 70), (0, 75, 99), (1, 104, 110), (0, 115, 150)],
}
# What stands for the program: it keeps what it is sent, gives the first signal a green from each round's begin on, and refuses second 10,810.
PROGRAM = """#!/usr/bin/env python3
import sys

now, sent = 0, open(sys.argv[2] + ".sent", "w")
for line in sys.stdin:
    print(line, end="", file=sent, flush=True)
    if line.startswith("now,"):
        now = int(line.split(",")[2])
    elif line in ("end\\n", "next\\n") and now == 10_810:
        print("refused,signal: bad 2 time 1\\nend", flush=True)
    elif line in ("end\\n", "next\\n"):
        print(f"kind,name,x,y,z\\nplan,first,,none,\\ngreen,first,0,{now},{now + 20}")
        print(f"version,first_second,{now // 5},,\\nrow,first_second,{now + 5},500,\\nend", flush=True)
"""


class ToldSensors(Sensors):
    """Sensors that are told the vehicles: each by its name, link, speed and way to the stop line."""

    def __init__(self, layout):
        self._layout, self._queued, self._walks, self._told = layout, set(), {}, []

    def tell(self, now, *vehicles):
        self._told = vehicles
        return self.look(now)

    def vehicles(self):
        return self._told


def ring_answer(sensed, told, phases=2, change=5):
    """An answer that gives each signal of a state its ring with greens of 10 seconds."""
    rows = [line.split(",") for line in (sensed + told).splitlines()]
    now, lines = int(rows[1][2]), {}
    for kind, name, *cells in rows:
        if kind == "green":
            lines.setdefault(name, []).append([int(cell) for cell in cells])
    answer = ["kind,name,x,y,z"]
    for name, line in lines.items():
        line = [row for row in line if row[2] > now or row is line[-1]]
        while line[-1][2] <= now + 30:
            line.append([(line[-1][0] + 1) % phases, line[-1][2] + change, line[-1][2] + change + 10])
        answer += ["green," + ",".join(map(str, [name, *row])) for row in line]
    boards = ["version,first_second,1,,", "row,first_second,40,500,"] if "first" in lines else []
    return "\n".join([*answer, *boards, ""])


def asker_of_ring(states):
    """Asks for the ring's answers, and keeps the states that were asked."""
    return lambda *state: states.append("".join(state)) or ring_answer(*state)


def with_crossing(network):
    """A network with a crossing over the street beside its first node, in the phase of the side street."""
    zebra = {"name": "zebra", "to": "first", "travel": 1, "sat": 2000, "walk": 5, "cross": 6}
    zebra["turn"] = [{"exit": "pavement", "share": 1000}]
    links = [link | ({"yields": ["zebra"], "yield_sat": 100} if link["name"] == "side_first" else {}) for link in network["link"]]
    links += [zebra, {"name": "pavement", "from": "first", "travel": 1, "sat": 5000}]
    first, *nodes = network["node"]
    phases = [first["phase"][0], first["phase"][1] | {"links": [*first["phase"][1]["links"], "zebra"]}]
    into = [link["name"] for link in links if any(turn["exit"] == "west_out" for turn in link.get("turn", []))]
    conflicts = [{"a": "zebra", "b": name} for name in ("west_in", *into) if name != "side_first"]
    return network | {"node": [first | {"phase": phases}, *nodes], "link": links, "conflict": [*network["conflict"], *conflicts]}


class LayoutTest(unittest.TestCase):
    def test_lanes_of_one_road(self):
        layout = Layout(read_tables(EXAMPLES / "junction.toml"), read_places(HERE / "places_junction.csv"))
        self.assertEqual(layout.edges["north"].lanes, {"north": [0, 1], "north_left": [2]})

    def test_right_and_left(self):
        layout = Layout(CORRIDOR)
        self.assertAlmostEqual(layout.angle("side_first", "first_second"), 90)
        self.assertAlmostEqual(layout.angle("side_first", "west_out"), -90)

    def test_links_on_which_people_walk(self):
        times = {"travel": 1, "sat": 2000, "walk": 5, "cross": 8}
        walk = {"name": "zebra", "to": "first", **times, "turn": [{"exit": "pavement", "share": 1000}]}
        exit = {"name": "pavement", "from": "first", "travel": 1, "sat": 5000}
        pair = {"a": "zebra", "b": "west_in"}
        network = CORRIDOR | {"link": [*CORRIDOR["link"], walk, exit], "conflict": [*CORRIDOR["conflict"], pair]}
        layout = Layout(network)
        self.assertEqual((layout.network, layout.walks), (CORRIDOR, {"zebra": walk}))
        self.assertEqual(layout.crossings, {"zebra": [{"west_in"}]})
        with tempfile.TemporaryDirectory() as folder:
            path = Path(folder) / "arrivals.csv"
            path.write_text("second,link,amount\n0,zebra,1000\n1,west_in,1000\n")
            self.assertEqual([second for second, _ in vehicles(layout, path, 1)], [1])
            self.assertEqual(walkers(layout, path), [(0, "zebra")])

    def test_colours(self):
        phases = [{"yellow": 3}, {"yellow": 3}]
        states = [state_at(phases, ["Gr", "rG"], [(0, 0, 5), (1, 10, 15)], second) for second in (4, 5, 7, 8, 10)]
        self.assertEqual(states, ["Gr", "yr", "yr", "rr", "rG"])

    def test_a_queue_that_moves_is_a_queue(self):
        sensors = ToldSensors(Layout(CORRIDOR))
        self.assertEqual(sensors.tell(0, ("a", "west_in", 13, 90), ("b", "west_in", 4, 10))[0], Counter(west_in=1))
        self.assertEqual(sensors.tell(1, ("a", "west_in", 3, 80), ("b", "west_in", 7, 5))[0], Counter(west_in=2))
        queues, coming = sensors.tell(2, ("a", "west_in", 5, 76), ("b", "first_second", 9, 90))
        self.assertEqual((queues, list(coming)), (Counter(west_in=1), [("first_second", 2 + seconds_to_end(90, 9))]))

    def test_who_passes_in_any_case(self):
        """On a green link whoever is within a second of the line is counted no longer, and others come a second earlier."""
        sensors = ToldSensors(Layout(CORRIDOR))
        sensors._early = {"west_in": 1, "first_second": 1}
        told = ("a", "west_in", 12, 11), ("b", "west_in", 12, 13), ("c", "west_in", 4, 5), ("d", "first_second", 13.89, 90)
        for phase, end, wanted in ((0, 9, {("west_in", 0): 1}), (0, 0, {("west_in", 0): 2}), (1, 9, {("west_in", 0): 2})):
            sensors._told = told
            queues, coming = sensors.look(0, {"first": [(phase, 0, end)], "second": [(0, 0, 9)]})
            self.assertEqual((queues, coming), (Counter(west_in=1), {**wanted, ("first_second", 5): 1}))

    def test_links_that_end_early(self):
        """They are those of nodes where nobody gives way: not where turns to the left meet who comes from the front."""
        sumo = SimpleNamespace(lane=SimpleNamespace(getLength=lambda lane: 100))
        signals = SimpleNamespace(layout=Layout(CORRIDOR), links_of={}, junctions=SimpleNamespace(after={}))
        for state, links in (("Gr", {"west_in", "second_first", "side_first"}), ("Gg", set())):
            signals.green = {"first": [state, "rG"]}
            self.assertEqual(set(Sensors(sumo, signals, 1)._early), links)
            self.assertEqual(set(Sensors(sumo, signals)._early), set())

    def test_how_soon_a_vehicle_comes(self):
        # 90 m at 13.89 m/s are 6.5 s; from a stand 2.7 s go by in speeding up: 13.89 m/s at 2.6 m/s in a second, by half
        self.assertEqual([seconds_to_end(90, speed) for speed in (13.89, 0, 20)], [6, 9, 6])

    def test_a_state(self):
        signals = type("Stub", (), {"layout": Layout(CORRIDOR)})
        loop = Loop(signals, ring_answer)
        self.assertEqual(loop.told.splitlines(), ["green,first,0,0,5", "green,second,0,0,5", "green,third,0,0,5"])
        loop.decide(0, Counter(), Counter())
        loop.see(5, Counter(west_in=2))
        lines = loop.sensed(5, Counter(west_in=2), Counter({("east_in", 9): 1})).splitlines()
        self.assertEqual(lines, ["kind,name,x,y,z", "now,,5,,", "queue,west_in,2000,1,", "coming,east_in,9,1000,"])
        self.assertEqual(loop.told.splitlines()[:2], ["green,first,0,0,5", "green,first,1,10,20"])
        self.assertEqual(loop.told.splitlines()[-2:], ["version,first_second,1,,", "row,first_second,40,500,"])

    def test_what_is_sent(self):
        """What was told is sent in the first round, and where the origin has moved; else `next` is enough."""
        signals, queues = type("Stub", (), {"layout": Layout(CORRIDOR)}), Counter(west_in=1)
        with tempfile.TemporaryDirectory() as folder:
            program, state = Path(folder) / "program", Path(folder) / "state.csv"
            program.write_text(PROGRAM)
            program.chmod(0o755)
            with asker([str(program)], f"{folder}/net.toml", state) as ask:
                loop = Loop(signals, ask)
                for now in (0, 5, 17_995, 18_000, 18_005):
                    loop.act(now, Counter(), Counter())
                with self.assertRaisesRegex(Fault, f"^{state}: serve: signal: bad 2 time 1$"):
                    loop.act(18_010, queues, Counter())
            sent = re.split("(?<=\nend\n)|(?<=\nnext\n)", Path(folder, "net.toml.sent").read_text())
            refused = state.read_text()
        header = "kind,name,x,y,z\nnow,,"
        told = "plan,first,,none,\ngreen,first,0,{},{}\nversion,first_second,{},,\nrow,first_second,{},500,\n"
        greens = "".join(f"green,{name},0,0,5\n" for name in ("first", "second", "third"))
        moved = told.format(10_795, 10_815, 2159, 10_800)
        wanted = [f"0,,\n{greens}end", "5,,\nnext", "17995,,\nnext", f"10800,,\n{moved}end", "10805,,\nnext", "10810,,\nqueue,west_in,1000,1,\nnext"]
        self.assertEqual(sent, [*(f"{header}{text}\n" for text in wanted), ""])
        self.assertEqual(refused, f"{header}10810,,\nqueue,west_in,1000,1,\n{told.format(10_805, 10_825, 2161, 10_810)}")

    def test_the_origin_moves(self):
        """A loop that goes on after five hours tells the state of second 18,000 as one of second 10,800: all seconds 7,200 less."""
        signals = type("Stub", (), {"layout": Layout(CORRIDOR)})
        states = []
        loop = Loop(signals, asker_of_ring(states))
        loop.lines = {name: [(0, 17_970, 17_998), (1, 18_003, 18_013)] for name in loop.lines}
        loop.told = "plan,first,,none,\ngreen,first,0,17970,17998\ngreen,first,1,18003,18013\n"
        loop.told += "version,first_second,3600,,\nrow,first_second,18040,500,\n"
        loop.stood = Counter(west_in=12_000)
        lines = loop.act(18_000, Counter(west_in=2), Counter({("east_in", 18_009): 1}))
        rows = states[0].splitlines()
        self.assertEqual(rows[1:4], ["now,,10800,,", "queue,west_in,2000,10800,", "coming,east_in,10809,1000,"])
        wanted = ["plan,first,,none,", "green,first,0,10770,10798", "green,first,1,10803,10813"]
        self.assertEqual(rows[4:], [*wanted, "version,first_second,2160,,", "row,first_second,10840,500,"])
        self.assertEqual(lines["first"][:2], [(0, 17_970, 17_998), (1, 18_003, 18_013)])

    def test_without_the_tools_of_sumo(self):
        with mock.patch.dict("sys.modules", {"traci": None}), self.assertRaisesRegex(Fault, "^SUMO's tools are not in .*/tools: "):
            run_loop(type("Stub", (), {"layout": Layout(CORRIDOR)}), ring_answer, [])

    def test_arrivals_come_again(self):
        with tempfile.TemporaryDirectory() as folder:
            path, to = Path(folder) / "arrivals.csv", Path(folder) / "again.csv"
            path.write_text("second,link,amount\n1,a,1000\n9,b,500\n10,a,1000\n")
            repeat_arrivals(path, 10, 25, to)
            self.assertEqual(to.read_text(), "second,link,amount\n1,a,1000\n9,b,500\n11,a,1000\n19,b,500\n21,a,1000\n")

    def test_for_how_long_a_queue_has_stood(self):
        """As in the world: the seconds before the round, back without a break, after which it was there (docs/RULES.md)."""
        states, signals = [], type("Stub", (), {"layout": Layout(CORRIDOR)})
        loop = Loop(signals, asker_of_ring(states))
        seen = {2: 1, 3: 1, 4: 0, **dict.fromkeys(range(5, 13), 1), 13: 0, **dict.fromkeys(range(14, 21), 1)}
        for now in range(21):
            loop.act(now, Counter({"west_in": seen[now]} if seen.get(now) else {}), Counter())
        rows = [line for state in states for line in state.splitlines() if line.startswith(("now", "queue"))]
        queue = "queue,west_in,1000"
        wanted = ["now,,0,,", "now,,5,,", f"{queue},1,", "now,,10,,", f"{queue},6,", "now,,15,,", f"{queue},2,", "now,,20,,", f"{queue},7,"]
        self.assertEqual(rows, wanted)


@unittest.skipUnless(shutil.which("sumo") and shutil.which("netconvert"), "SUMO is not installed")
class SumoTest(unittest.TestCase):
    def setUp(self):
        place = tempfile.TemporaryDirectory()
        self.addCleanup(place.cleanup)
        self.folder = Path(place.name)

    def corridor(self):
        signals = convert(CORRIDOR, None, self.folder)
        write_routes(signals.layout, EXAMPLES / "corridor.csv", 1, self.folder / "routes.1.rou.xml")
        return signals

    def test_crossings_of_the_examples_are_declared(self):
        self.assertEqual(list(self.corridor().undeclared_crossings()), [])
        junction = convert(read_tables(EXAMPLES / "junction.toml"), read_places(HERE / "places_junction.csv"), self.folder)
        self.assertEqual(list(junction.undeclared_crossings()), [])

    def test_a_crossing_that_is_not_declared(self):
        network = dict(CORRIDOR, conflict=CORRIDOR["conflict"][1:])
        self.assertEqual(list(convert(network, None, self.folder).undeclared_crossings()), [("first", "side_first", "west_in")])

    def test_greens_replayed(self):
        signals = self.corridor()
        (self.folder / "report.add.xml").write_text(element("additional", report_programs(signals, GREENS)))
        words = run_words(self.folder, "replay", 1, signals, [self.folder / "report.add.xml"])
        subprocess.run(words, check=True, capture_output=True)
        self.assertEqual(list(differences(self.folder, "replay", 1, signals, GREENS)), [])
        self.assertEqual(outcome(self.folder, "replay", 1).collisions, 0)
        other = GREENS | {"second": [(0, 0, 10), *GREENS["second"][1:]]}
        found = list(differences(self.folder, "replay", 1, signals, other))
        self.assertEqual(found, [(9, "second"), (12, "second")])

    def test_vehicles_that_stop_and_start_at_once(self):
        """They lose what the vehicles of the rules lose under the same greens, 418.8 seconds for 49, within a second each."""
        signals = self.corridor()
        write_routes(signals.layout, EXAMPLES / "corridor.csv", 1, self.folder / "routes.1.rou.xml", at_once=True)
        (self.folder / "report.add.xml").write_text(element("additional", report_programs(signals, GREENS)))
        subprocess.run(run_words(self.folder, "once", 1, signals, [self.folder / "report.add.xml"]), check=True, capture_output=True)
        self.assertAlmostEqual(outcome(self.folder, "once", 1).time_loss, 418.8 / 49, delta=1)

    @unittest.skipUnless((Path(SUMO_HOME) / "tools/traci").is_dir(), "SUMO's tools are not installed")
    def test_greens_in_the_loop(self):
        signals = self.corridor()
        lines = run_loop(signals, ring_answer, run_words(self.folder, "loop", 1, signals))
        self.assertEqual(list(differences(self.folder, "loop", 1, signals, lines)), [])
        self.assertEqual(lines["first"][:3], [(0, 0, 5), (1, 10, 20), (0, 25, 35)])

    @unittest.skipUnless((Path(SUMO_HOME) / "tools/traci").is_dir(), "SUMO's tools are not installed")
    def test_people_at_a_crossing(self):
        """Who comes to a crossing waits in its queue, and walks in its green alone."""
        network, states = with_crossing(CORRIDOR), []
        signals = convert(network, None, self.folder)
        self.assertEqual(signals.layout.crossings, {"zebra": [{"first-second", "second-first"}]})
        self.assertEqual((list(signals.undeclared_crossings()), list(signals.layout.on_foot)), ([], ["zebra"]))
        self.assertEqual([spans[-1][:1] for spans in (signals.at("first", [(1, 0, 20)], second) for second in (4, 5))], ["G", "r"])
        arrivals = self.folder / "arrivals.csv"
        arrivals.write_text("second,link,amount\n2,zebra,1000\n3,zebra,2000\n4,west_in,1000\n")
        write_routes(signals.layout, arrivals, 1, self.folder / "routes.1.rou.xml")
        lines = run_loop(signals, asker_of_ring(states), run_words(self.folder, "loop", 1, signals))
        self.assertEqual(list(differences(self.folder, "loop", 1, signals, lines)), [])
        told = [line for state in states for line in state.splitlines() if line.startswith("queue,zebra")]
        self.assertEqual(max(int(line.split(",")[2]) for line in told), 3000)
        self.assertEqual((self.folder / "loop.1.trips.xml").read_text().count("<personinfo"), 3)

    def test_a_grid_of_sumo(self):
        grid, routes, out = self.folder / "grid.net.xml", self.folder / "grid.rou.xml", self.folder / "out"
        make = [
            "netgenerate",
            "--grid",
            "--grid.number",
            "2",
            "--grid.attach-length",
            "100",
            "--default-junction-type",
            "traffic_light",
        ]
        subprocess.run([*make, "--no-turnarounds", "-o", grid], check=True, capture_output=True)
        ways = random.Random(1).sample(["left0A0 A0B0 B0right0", "left1A1 A1B1 B1right1", "bottom0A0 A0A1 A1top0"], 3)
        rows = "".join(f'<vehicle id="{n}" depart="{n}"><route edges="{way}"/></vehicle>' for n, way in enumerate(ways))
        routes.write_text(f"<routes>{rows}</routes>")
        subprocess.run([HERE / "from_sumo.py", grid, "--survey"], check=True, capture_output=True)
        subprocess.run([HERE / "from_sumo.py", grid, routes, out], check=True, capture_output=True)
        network = read_tables(out / "net.toml")
        self.assertEqual(len(network["node"]), 4)
        self.assertEqual((out / "arrivals.csv").read_text().count(",1000\n"), 3)


if __name__ == "__main__":
    unittest.main()
