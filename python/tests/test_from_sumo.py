"""Tests of what becomes of SUMO's networks: signals as nodes, who drives there, and networks there and back."""

import contextlib
import gzip
import io
import shutil
import subprocess
import sys
import tempfile
import unittest
from collections.abc import Callable
from pathlib import Path
from types import SimpleNamespace
from typing import Any
from unittest import mock

from kolvunh.networks import read_tables
from kolvunh.sumo.demand import Demand
from kolvunh.sumo.drafts import Draft, names_in, write_draft
from kolvunh.sumo.from_sumo import main, nodes_of, survey, survey_line
from kolvunh.sumo.groups import Node
from kolvunh.sumo.layout import Layout, read_places
from kolvunh.sumo.signals import Signals, state_at
from kolvunh.sumo.streets import Movement, Streets, edge_of
from kolvunh.sumo.to_sumo import convert, ring_seconds, vehicle_row, write_routes


class Crossroads:
    """Who crosses whom, by pairs of numbers; of each pair the first gives way."""

    def __init__(self, *pairs: tuple[int, int]) -> None:
        self.pairs = set(pairs)

    def cross(self, one: Movement, other: Movement) -> bool:
        """Whether two movements cross."""
        return bool({(one.number, other.number), (other.number, one.number)} & self.pairs)

    def gives_way(self, one: Movement, other: Movement) -> bool:
        """Whether the first gives way."""
        return (one.number, other.number) in self.pairs


def moves(*lanes: str) -> list[Movement]:
    """A movement for each lane, numbered from 0."""
    return [Movement(lane, f"out{place}_0", place, "j", place) for place, lane in enumerate(lanes)]


class NodeTest(unittest.TestCase):
    def test_a_left_turn_that_gives_way_and_has_a_green_of_its_own(self) -> None:
        states = [(30, "GgGr"), (3, "yyyr"), (6, "rGrr"), (3, "ryrr"), (30, "rrrG"), (3, "rrry")]
        node = Node("a", moves("west_0", "west_1", "east_0", "south_0"), states, Crossroads((1, 2), (3, 0), (3, 1), (3, 2)))
        self.assertEqual((node.losses, node.reasons(), node.used, node.marked), ([], [], [0, 1, 2], {1}))
        through, left, opposite, side = node.groups[2], node.groups[3], node.groups[0], node.groups[1]
        self.assertEqual([group.home for group in (through, left, opposite, side)], [0, 1, 0, 2])
        self.assertEqual((left.shown, left.giving), ({0, 1}, {0}))
        self.assertTrue(node.yields(left, opposite) and not node.yields(opposite, left))
        self.assertEqual([node.clear_after(phase) for phase in (0, 1, 2)], [3, 0, 0])

    def test_who_is_trapped(self) -> None:
        """Seconds of all-red follow a green in which somebody gives way: 2 where he has no green next, 3 where that may be left out."""
        relations, lanes = Crossroads((1, 2)), moves("west_0", "west_1", "east_0", "south_0")
        two = Node("a", lanes, [(30, "GgGr"), (3, "yyyr"), (30, "rrrG"), (3, "rrry")], relations)
        self.assertEqual([two.clear_after(phase) for phase in (0, 1)], [2, 0])
        early = Node("a", lanes, [(30, "GgGr"), (3, "ygyr"), (9, "rGrr"), (3, "ryrr"), (30, "rrrG"), (3, "rrry")], relations)
        self.assertEqual((early.marked, early.clear_after(0)), ({1}, 3))
        always = Node("a", lanes, [(30, "GgGr"), (3, "ygyr"), (30, "rGrG"), (3, "rgry")], relations)
        self.assertEqual([always.clear_after(phase) for phase in (0, 1)], [0, 0])

    def test_how_many_are_trapped(self) -> None:
        """Two seconds more of all-red for each third one who has room within the junction."""
        states = [(30, "GgGr"), (3, "yyyr"), (30, "rrrG"), (3, "rrry")]
        for room, seconds in ((14.9, 2), (15, 4), (22.5, 6)):
            lanes = moves("west_0", "west_1", "east_0", "south_0")
            lanes[1] = lanes[1]._replace(room=room)
            self.assertEqual(Node("a", lanes, states, Crossroads((1, 2))).clear_after(0), seconds)

    def test_a_lane_of_which_only_some_is_green(self) -> None:
        states = [(30, "Ggr"), (3, "yyr"), (30, "Grr"), (3, "yrr"), (30, "rrG"), (3, "rry")]
        lanes = [Movement(lane, f"out{place}_0", place, "j", place) for place, lane in enumerate(("west_0", "west_0", "south_0"))]
        node = Node("a", lanes, states, Crossroads((2, 0)))
        self.assertEqual([loss.kind for loss in node.losses], ["lane partly green", "phase left out"])
        self.assertEqual((node.used, [group.greens for group in node.groups]), ([0, 2], [{2}, {0}]))

    def test_five_phases_of_which_one_can_be_left_out(self) -> None:
        states = [(20, "GGrrrr"), (8, "GrGrrr"), (20, "rrGGrr"), (20, "rrrrGr"), (20, "rrrrrG")]
        node = Node("a", moves(*(f"e{place}_0" for place in range(6))), states, Crossroads())
        self.assertEqual(([loss.kind for loss in node.losses], node.used), (["phase left out"], [0, 2, 3, 4]))

    def test_lanes_that_differ_in_a_phase_alone_that_is_left_out(self) -> None:
        """They are one link, as they are green in the same phases of the file; where those stay in which they differ they are two."""
        states = [(20, "GGrrrr"), (8, "GrGrrr"), (20, "rrGGrr"), (20, "rrrrGr"), (20, "rrrrrG")]
        lanes = moves("west_0", "west_1", *(f"e{place}_0" for place in range(4)))
        self.assertEqual([group.lanes for group in Node("a", lanes, states, Crossroads()).groups][-1], ["west_0", "west_1"])
        node = Node("a", lanes, [*states[:2], states[3], states[4]], Crossroads())
        self.assertEqual([group.lanes for group in node.groups if group.edge == "west"], [["west_0"], ["west_1"]])

    def test_a_signal_of_which_only_the_last_phase_is_a_home(self) -> None:
        """It stays, with three others."""
        states = [(20, state) for state in ("grr", "rgr", "rrg", "ggr", "GGG")]
        node = Node("a", moves("e0_0", "e1_0", "e2_0"), states, Crossroads())
        self.assertEqual((node.used, [group.home for group in node.groups], node.reasons()), ([0, 1, 2, 4], [4, 4, 4], []))

    def test_the_home_of_a_crossing(self) -> None:
        """It is a phase in which vehicles are green too, where it is green in one."""
        walk, other = (Movement(f":j_c{n}_0", "", 2 + n, "j", 2 + n, "walk") for n in (0, 1))
        states = [(30, "rrGG"), (3, "rrrr"), (20, "GrrG"), (3, "yrrr"), (20, "rGrr"), (3, "ryrr")]
        node = Node("a", moves("west_0", "south_0"), states, Crossroads(), {walk: 9.0, other: 9.0})
        self.assertEqual([(group.edge, group.home) for group in node.groups if group.cross], [(":j_c0_0", 0), (":j_c1_0", 1)])

    def test_crossings_with_the_same_greens_as_one(self) -> None:
        """It is as long as the longest of them, and a crossing with other greens stays."""
        walks = {Movement(f":j_c{n}_0", "", 2 + n, "j", 2 + n, "walk"): metres for n, metres in enumerate((9.0, 14.5, 6.0))}
        states = [(30, "GrGGr"), (3, "yrrrr"), (20, "rGrrG"), (3, "ryrrr")]
        node = Node("a", moves("west_0", "south_0"), states, Crossroads(), walks)
        found = [(group.lanes, group.cross, group.home) for group in node.walks_alike() if group.cross]
        self.assertEqual(found, [([":j_c0_0", ":j_c1_0"], 13, 0), ([":j_c2_0"], 5, 1)])

    def test_no_nodes(self) -> None:
        one = Node("a", moves("west_0"), [(30, "G"), (3, "y")], Crossroads())
        self.assertEqual([loss.kind for loss in one.reasons()], ["one phase"])
        five = ["".join("G" if at == place else "r" for at in range(5)) for place in range(5)]
        many = Node("a", moves(*(f"e{place}_0" for place in range(5))), [(10, state) for state in five], Crossroads())
        self.assertEqual([loss.kind for loss in many.reasons()], ["more than 4 phases"])

    def test_a_crossing_that_is_green_for_some_seconds(self) -> None:
        walk = Movement(":j_c0_0", "", 2, "j", 2, "walk")
        states = [(20, "GrG"), (5, "Grr"), (3, "yrr"), (20, "rGr"), (3, "ryr")]
        node = Node("a", moves("west_0", "south_0"), states, Crossroads((1, 2)), {walk: 9.0})
        self.assertEqual(([phase.seconds for phase in node.phases], node.losses), ([25, 20], []))
        crossing = node.groups[-1]
        self.assertEqual((crossing.cross, crossing.home, node.least_of(0), node.least_of(1)), (8, 0, 13, 5))
        phases = [{"yellow": 3}, {"yellow": 3}]
        shown = [state_at(phases, ["GrG", "rGr"], [(0, 0, 25), (1, 30, 50)], second, node.walks) for second in (4, 5, 25, 28, 30)]
        self.assertEqual(shown, ["GrG", "Grr", "yrr", "rrr", "rGr"])

    def test_what_is_green_before_and_after_a_change_stays_green(self) -> None:
        phases = [{"yellow": 3}, {"yellow": 3}, {"yellow": 3}]
        rows = [(0, 0, 10), (1, 15, 20), (2, 25, 30)]
        shown = [state_at(phases, ["Ggr", "rGr", "rrG"], rows, second) for second in (9, 10, 13, 15, 20, 23, 25, 30, 33)]
        self.assertEqual(shown, ["Ggr", "ygr", "rgr", "rGr", "ryr", "rrr", "rrG", "rry", "rrr"])


class RingTest(unittest.TestCase):
    def test_a_home_is_longer_than_a_green_that_goes_on(self) -> None:
        """A green after which nothing ends is shown through its change too, so the home of a link is longer than both."""
        phase = {"least": 5, "greatest": 50, "yellow": 3, "clear": 2}
        for greens, seconds in (({"a": (0, 1), "b": (0,)}, [26, 20]), ({"a": (0, 1), "b": (1,)}, [21, 20])):
            layout = SimpleNamespace(nodes={"n": {"phase": [phase, phase]}}, phase_of={"a": ("n", 0), "b": ("n", greens["b"][0])})
            layout.greens_of = {link: {("n", number) for number in on} for link, on in greens.items()}
            self.assertEqual(ring_seconds(SimpleNamespace(layout=layout, free_count=lambda *at: 1), "n"), seconds)


@unittest.skipUnless(shutil.which("netgenerate") and shutil.which("netconvert"), "SUMO is not installed")
class NetworkTest(unittest.TestCase):
    grid: Path
    place: tempfile.TemporaryDirectory[str]

    @classmethod
    def setUpClass(cls) -> None:
        """A square of four signals with lanes to the left, as SUMO makes it."""
        cls.place = tempfile.TemporaryDirectory()
        cls.grid = Path(cls.place.name) / "grid.net.xml"
        words = "--grid --grid.number 2 --grid.length 250 --grid.attach-length 250 --turn-lanes 1 --turn-lanes.length 80"
        words += " --default.lanenumber 2 --default-junction-type traffic_light --no-turnarounds"
        subprocess.run(["netgenerate", *words.split(), "-o", cls.grid], check=True, capture_output=True)
        cls.streets = Streets(cls.grid)

    @classmethod
    def tearDownClass(cls) -> None:
        """Leaves no files."""
        cls.place.cleanup()

    def setUp(self) -> None:
        place = tempfile.TemporaryDirectory()
        self.addCleanup(place.cleanup)
        self.folder = Path(place.name)

    def file(self, inside: str, name: str = "x.rou.xml", root: str = "routes") -> Path:
        path = self.folder / name
        path.write_text(f"<{root}>{inside}</{root}>", encoding="utf-8")
        return path

    def ways(self) -> list[str]:
        """The quickest way from each end of the square to each other one."""
        streets, ends = self.streets, [edge for edge in self.streets.edges if not self.streets.before[edge]]
        exits = [edge for edge in streets.edges if not streets.onward[edge]]
        pairs = [(start, exit) for start in ends for exit in exits if streets.edges[start].start != streets.edges[exit].end]
        return [" ".join(streets.route(*pair) or []) for pair in pairs]

    def demand(self, inside: str) -> Demand:
        demand = Demand(self.streets, 3000)
        demand.read_routes(self.file(inside))
        return demand

    def draft(self, demand: Demand, streets: Streets | None = None) -> Draft:
        streets = streets or self.streets
        return Draft(streets.edges, streets.places, nodes_of(streets)[0], demand.vehicles, demand.walkers)

    def drive(self, copies: int = 1) -> Demand:
        rows = (f'<vehicle id="{n}" depart="{4 * n}"><route edges="{way}"/></vehicle>' for n, way in enumerate(self.ways() * copies))
        return self.demand("".join(rows))

    def test_a_survey(self) -> None:
        kinds = survey(self.grid, True)
        self.assertEqual(survey_line(kinds), "4 signals: 4 wholly (0 of them in version 2), 0 with losses, 0 no nodes")

    def test_routes_trips_and_flows(self) -> None:
        way = self.ways()[0]
        start, end = way.split()[0], way.split()[-1]
        demand = self.demand(
            f'<route id="r" edges="{way}"/><flow id="f" route="r" begin="10" end="30" number="4"/>'
            f'<routeDistribution id="d"><route refId="r" probability="1"/></routeDistribution>'
            f'<vehicle id="v" route="d" depart="0:01:00"/><trip id="t" from="{start}" to="{end}" depart="5"/>'
            f'<flow id="g" from="{start}" to="{end}" begin="0" end="60" period="30"/>'
            f'<flow id="h" from="{start}" to="{end}" begin="0" end="60" vehsPerHour="60"/><vehicle id="late" route="r" depart="9000"/><vehicle id="early" route="r" depart="-5"/>'
            '<flow id="i" route="r" begin="100" number="3" period="2"/><flow id="k" route="r" begin="200" end="210" probability="0.2"/>'
            '<interval begin="300" end="320"><flow id="l" route="r" period="exp(0.1)"/></interval>'
        )
        seconds = sorted(vehicle.second for vehicle in demand.vehicles)
        self.assertEqual(seconds, [0, 0, 5, 10, 15, 20, 25, 30, 60, 100, 102, 104, 200, 205, 300, 310])
        self.assertEqual({vehicle.edges for vehicle in demand.vehicles}, {tuple(way.split())})
        self.assertEqual(list(demand.told.values()), [1, 1])

    def test_turns_and_counts(self) -> None:
        first = self.ways()[0].split()[1]
        after = self.streets.onward[first]
        demand = Demand(self.streets, 3000)
        rows = "".join(f'<edgeRelation from="{first}" to="{exit}" count="{9 - n}"/>' for n, exit in enumerate(after))
        demand.read_turns(self.file(f'<interval begin="0" end="100">{rows}</interval>', "t.xml", "edgeRelations"))
        demand.read_counts(self.file(f'<interval begin="0" end="100"><edge id="{first}" entered="20"/></interval>', "c.xml", "data"))
        self.assertEqual([vehicle.second for vehicle in demand.vehicles], [5 * n for n in range(20)])
        self.assertEqual({vehicle.edges[0] for vehicle in demand.vehicles}, {first})
        demand.read_routes(self.file(f'<flow id="f" from="{first}" begin="0" end="100" number="5"/>'))
        self.assertEqual(len(demand.vehicles), 25)

    def test_a_network_with_greens_that_overlap(self) -> None:
        draft = self.draft(self.drive())
        write_draft(draft, self.folder)
        network = read_tables(self.folder / "net.toml")
        self.assertEqual((network["version"], len(network["node"])), (3, 4))
        lefts = [link for link in network["link"] if "yields" in link]
        self.assertTrue(lefts and all(link["yield_sat"] <= link["sat"] for link in lefts))
        also = {name for node in network["node"] for phase in node["phase"] for name in phase.get("also", [])}
        self.assertEqual(also, {link["name"] for link in lefts})
        self.assertEqual((self.folder / "arrivals.csv").read_text().count(",1000\n"), 56)

    def there_and_back(
        self, streets: Streets, demand: Demand, routes: Callable[[Layout, Path, Path], None] | None = None
    ) -> tuple[dict[str, Any], dict[str, Any], Signals]:
        """The parts of an imported network, those of the one that SUMO's network of it gives, and the signals of that.

        Who drives on the way back is drawn from the arrivals, or written by `routes`.
        """
        write_draft(self.draft(demand, streets), self.folder)
        network, places = read_tables(self.folder / "net.toml"), read_places(self.folder / "places.csv")
        signals = convert(network, places, self.folder / "there")
        arrivals, there = self.folder / "arrivals.csv", self.folder / "there.rou.xml"
        if routes:
            routes(signals.layout, arrivals, there)
        else:
            write_routes(signals.layout, arrivals, 1, there)
        back = Streets(self.folder / "there/net.net.xml")
        demand = Demand(back, 3000)
        demand.read_routes(there)
        write_draft(self.draft(demand, back), self.folder / "back")
        return parts(network, lambda name: name), parts_back(signals, self.folder / "back"), signals

    def test_there_and_back(self) -> None:
        """The network that SUMO has of an imported one has the same links, homes, greens and conflicts."""
        first, back, signals = self.there_and_back(self.streets, self.drive(5))
        self.assertEqual(list(signals.undeclared_crossings()), [])
        self.assertEqual(first, back)

    def test_there_and_back_where_ways_begin_and_end_between_signals(self) -> None:
        """Links that share a stop line, and exits that share a road, are lanes of one road there."""
        rows = all_ways(self.streets)
        first, back, signals = self.there_and_back(self.streets, self.demand(rows))
        self.assertTrue(any(len(links) > 1 for links in signals.links_of.values()))
        self.assertEqual(list(signals.undeclared_crossings()), [])
        self.assertEqual(first, back)

    def walks(self) -> tuple[Streets, Demand]:
        """A square of four signals with crossings, vehicles on all ways in it, and somebody at each crossing."""
        net = self.folder / "walks.net.xml"
        words = "--grid --grid.number 2 --grid.length 200 --grid.attach-length 200 --turn-lanes 1 --turn-lanes.length 60"
        words += " --default-junction-type traffic_light --no-turnarounds --crossings.guess --sidewalks.guess"
        subprocess.run(["netgenerate", *words.split(), "-o", net], check=True, capture_output=True)
        streets = Streets(net)
        rows = all_ways(streets)
        over = [move.over for node in streets.programs for move in streets.junctions.crossings[node]]
        rows += "".join(f'<person id="p{n}" depart="{n}"><walk from="{a}" to="{b}"/></person>' for n, (a, b) in enumerate(over))
        demand = Demand(streets, 3000)
        demand.read_routes(self.file(rows))
        return streets, demand

    def test_there_and_back_on_foot(self) -> None:
        """Crossings come back with whom they meet, for how long they are entered and crossed, and who comes to them."""
        streets, demand = self.walks()
        first, back, signals = self.there_and_back(streets, demand)
        self.assertEqual((len(first["walks"]), len(signals.layout.on_foot)), (16, 16))
        self.assertEqual(list(signals.undeclared_crossings()), [])
        self.assertEqual(first, back)
        came = [(self.folder / name).read_text(encoding="utf-8").count("\n") for name in ("arrivals.csv", "back/arrivals.csv")]
        self.assertEqual(*came)

    def test_there_and_back_at_odd_angles(self) -> None:
        """Random networks with a vehicle for each turn: a ring with a green that goes on, and crossings with who meets them.

        In the last one a signal would have more than 16 links, did not crossings with the same greens count as one.
        """
        words = "--rand --rand.iterations 14 --turn-lanes 1 --turn-lanes.length 60 --tls.guess --tls.guess.threshold 20 --no-turnarounds"
        for seed, more in (("3", ""), *((seed, "--crossings.guess --sidewalks.guess") for seed in "267")):
            net = self.folder / f"random{seed}.net.xml"
            subprocess.run(["netgenerate", *words.split(), "--seed", seed, *more.split(), "-o", net], check=True, capture_output=True)
            streets = Streets(net)
            demand = Demand(streets, 3000)
            demand.read_routes(self.file(all_ways(streets) + all_movements(streets)))
            first, back, _ = self.there_and_back(streets, demand, every_turn)
            self.assertEqual(first, back, seed)

    def command(self, *words: str | Path) -> tuple[object, list[str]]:
        """The status and the lines on standard error of the command."""
        argv = mock.patch.object(sys, "argv", ["from-sumo", *map(str, words)])
        with argv, contextlib.redirect_stderr(io.StringIO()) as said, self.assertRaises(SystemExit) as ended:
            main()
        return ended.exception.code, said.getvalue().splitlines()

    def changed(self, name: str, old: str, new: str) -> Path:
        """The square's file with all of one text in place of another."""
        text = self.grid.read_text(encoding="utf-8")
        self.assertIn(old, text)
        path = self.folder / name
        path.write_text(text.replace(old, new), encoding="utf-8")
        return path

    def test_what_is_no_network_or_says_no_vehicles(self) -> None:
        way, out = self.ways()[0], self.folder / "out"
        good = self.file(f'<vehicle id="a" depart="0"><route edges="{way}"/></vehicle>', "good.rou.xml")
        start = way.split()[0]
        for net, routes, said in (
            (self.folder / "none.net.xml", good, "No such file"),
            (self.file("", "a.xml"), good, "its first element is <routes>, and has to be <net>"),
            (self.changed("b.net.xml", "</net>", ""), good, "it is no XML"),
            (self.changed("c.net.xml", "tlLogic", "other"), good, "the network has no signals"),
            (self.changed("l.net.xml", ' length="', ' length="?'), good, "it is not as SUMO writes it: could not convert"),
            (self.changed("m.net.xml", ' duration="', ' duration="nan" was="'), good, "duration of <phase> is nan"),
            (self.changed("n.net.xml", ' via=":A0_', ' via="A0_'), good, "via of <connection> is no lane within a junction: 'A0_"),
            (self.grid, self.folder / "none.rou.xml", "No such file"),
            (self.grid, self.file("", "d.rou.xml"), "there is no vehicle in it"),
            (self.grid, self.grid, "its first element is <net>, and has to be <routes>"),
            (self.grid, "-", "no --counts says who drives"),
            (self.grid, self.file('<route id="r" edges="none"/>', "e.rou.xml"), 'the route "r" names edge "none", which the network'),
            (self.grid, self.file(f'<route id="r" edges="{start} {start}"/>', "f.rou.xml"), "and nothing leads there"),
            (self.grid, self.file('<vehicle id="a" route="r" depart="0"/>', "g.rou.xml"), 'vehicle "a" has route "r", which is not in'),
            (self.grid, self.file('<trip id="a" from="none" to="none" depart="0"/>', "h.rou.xml"), 'trip "a" names edge "none"'),
            (self.grid, self.file(f'<flow id="a" from="{start}" begin="0" number="few"/>', "i.rou.xml"), "<flow> has no number number"),
            (self.grid, self.file(f'<trip id="a" from="{start}" to="{start}" depart="0"/>', "j.rou.xml"), "no vehicle passes a signal"),
            (self.grid, self.file('<vehicle id="a" depart="0"><route/></vehicle>', "k.rou.xml"), "a route has no edges"),
            (self.grid, self.file(f'<route id="r" edges="{way}" probability="inf"/>', "o.rou.xml"), "probability of <route> is inf"),
        ):
            status, lines = self.command(net, routes, out)
            self.assertEqual((status, len(lines)), (2, 1), lines)
            self.assertIn(said, lines[0])
        self.assertEqual(self.command(self.grid)[0], 2)

    def test_packed_files(self) -> None:
        self.drive()
        plain = self.folder / "x.rou.xml"
        for path in (self.grid, plain):
            (self.folder / f"{path.name}.gz").write_bytes(gzip.compress(path.read_bytes()))
        for name, files in (("a", (self.grid, plain)), ("b", (self.folder / "grid.net.xml.gz", self.folder / "x.rou.xml.gz"))):
            self.assertEqual(self.command(*files, self.folder / name), (0, []))
        self.assertEqual((self.folder / "a/net.toml").read_text(), (self.folder / "b/net.toml").read_text())

    def test_what_is_told_in_a_line(self) -> None:
        self.drive()
        routes, logic = self.folder / "x.rou.xml", '<tlLogic id="A0" type="static" programID="0" offset="0">'
        phases = '<phase duration="40" state="GGGggrrrrrGGGggrrrrr"/></tlLogic>'
        two = self.changed("two.net.xml", logic, logic.replace('programID="0"', 'programID="1"') + phases + logic)
        status, lines = self.command(two, routes, self.folder / "two")
        self.assertEqual((status, lines), (0, ["signal A0: it has 2 programs: the last one, 0, is taken, which SUMO shows"]))
        left = self.changed("left.net.xml", "<net ", '<net lefthand="true" ')
        status, lines = self.command(left, routes, self.folder / "left")
        self.assertEqual((status, len(lines), "traffic keeps left" in lines[0]), (0, 1, True))


def all_ways(streets: Streets) -> str:
    """A vehicle on the quickest way from each long edge to each other one, as rows of a file of routes."""
    edges = [edge for edge in streets.edges if streets.edges[edge].lanes[0].length > 90]
    ways = [way for start in edges for end in edges if len(way := streets.route(start, end) or []) > 1]
    return "".join(f'<vehicle id="{n}" depart="{n}"><route edges="{" ".join(way)}"/></vehicle>' for n, way in enumerate(ways))


def all_movements(streets: Streets) -> str:
    """A vehicle for each turn that a signal allows, from where its road begins, as rows of a file of routes."""
    ways = []
    for name in streets.programs:
        for start, end in sorted({(edge_of(move.lane), edge_of(move.exit_lane)) for move in streets.junctions.movements[name]}):
            way = [start, end]
            while len(before := streets.before[way[0]]) == 1 and before[0] not in way:
                way.insert(0, before[0])
            ways.append(way)
    return "".join(f'<vehicle id="turn{n}" depart="1"><route edges="{" ".join(way)}"/></vehicle>' for n, way in enumerate(ways))


def every_turn(layout: Layout, arrivals: Path, to: Path) -> None:
    """Writes a file of routes with a vehicle for each turn of a network that is laid out; arrivals are not asked."""
    before = {name: [name] for name, link in layout.links.items() if "from" not in link}
    for name in (found := list(before)):
        for turn in layout.links[name].get("turn", []):
            if turn["exit"] not in before:
                before[turn["exit"]] = [*before[name], turn["exit"]]
                found.append(turn["exit"])
    after = {name: [name] for name, link in layout.links.items() if "to" not in link}
    for exit in (found := list(after)):
        for name, link in layout.links.items():
            if name not in after and any(turn["exit"] == exit and turn["share"] for turn in link.get("turn", [])):
                after[name] = [name, *after[exit]]
                found.append(name)
    turns = [(name, turn["exit"]) for name, link in layout.links.items() for turn in link.get("turn", []) if turn["share"]]
    ways = [[*before[name], *after[exit]] for name, exit in turns if name in before and exit in after]
    rows = "".join(vehicle_row(layout, number, number, way) for number, way in enumerate(ways))
    to.write_text(f"<routes>{rows}</routes>", encoding="utf-8")


def parts_back(signals: Signals, folder: Path) -> dict[str, Any]:
    """The parts of the network that came back into a folder, by the names of the first one."""
    found, names = names_in(folder), {}
    network = read_tables(folder / "net.toml")
    for link in network["link"]:
        start, of = found["node"].get(link.get("from", "")), found["link"][link["name"]].split(";")
        links = {name for lane in of for name in signals.links_of.get(lane, [])}
        links = {name for name in links if signals.layout.tables[name].get("from") == start}
        names[link["name"]] = "+".join(sorted(links)) or of[0]
    return parts(network, lambda name: names.get(name) or found["node"][name])


def parts(network: dict[str, Any], named: Callable[[str], str]) -> dict[str, Any]:
    """The ends of a network's links to nodes, their homes, greens, and to whom they give way, and the conflicts, by other names."""
    found: dict[str, Any] = {"homes": {}, "greens": set()}
    for node in network["node"]:
        for number, phase in enumerate(node["phase"]):
            found["homes"] |= {named(link): (named(node["name"]), number) for link in phase["links"]}
            found["greens"] |= {(named(link), number) for link in [*phase["links"], *phase.get("also", [])]}
    to = [link for link in network["link"] if "to" in link]
    found["ends"] = {named(link["name"]): ("from" in link and named(link["from"]), named(link["to"])) for link in to}
    found["walks"] = {named(link["name"]): (link["walk"], link["cross"]) for link in to if "walk" in link}
    found["yields"] = {named(link["name"]): set(map(named, link.get("yields", []))) for link in to}
    found["conflicts"] = {frozenset((named(pair["a"]), named(pair["b"]))) for pair in network["conflict"]}
    return found


if __name__ == "__main__":
    unittest.main()
