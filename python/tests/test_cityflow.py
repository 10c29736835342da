"""Tests of what becomes of CityFlow's files."""

import contextlib
import io
import json
import math
import shutil
import sys
import unittest
from pathlib import Path
from unittest import mock

from kolvunh.cityflow import Crossing, RoadNet, main, segments_cross
from kolvunh.networks import read_tables
from kolvunh.sumo.demand import Demand
from kolvunh.sumo.drafts import Draft, write_draft
from kolvunh.sumo.from_sumo import nodes_of
from kolvunh.sumo.layout import read_places
from kolvunh.sumo.streets import Streets
from kolvunh.sumo.to_sumo import convert, write_routes

from .cityflow_grid import write_grid
from .test_from_sumo import parts, parts_back
from .worked import FilesTest

HERE = Path(__file__).parent / "cityflow"


class CityFlowTest(FilesTest):
    def test_ways_that_cross(self) -> None:
        self.assertTrue(segments_cross((0, 0), (2, 2), (0, 2), (2, 0)))
        self.assertFalse(segments_cross((0, 0), (2, 2), (3, 2), (5, 0)))
        table = json.loads((HERE / "roadnet.json").read_text())["intersections"]
        crossing = Crossing(next(place for place in table if place["roadLinks"]))
        moves = {(move.number, move.direction): move for move in crossing.moves()}
        kinds = [crossing.ways[number]["direction"] for number in range(12)]
        left, straight, right = (next(m for (n, d), m in moves.items() if d == kind and kinds[n] == 0) for kind in "lsr")
        opposite = next(m for (n, d), m in moves.items() if d == "s" and kinds[n] == 2)
        side = next(m for (n, d), m in moves.items() if d == "s" and kinds[n] == 3)
        self.assertTrue(crossing.cross(left, opposite) and crossing.gives_way(left, opposite))
        self.assertFalse(crossing.gives_way(opposite, left))
        self.assertTrue(crossing.cross(straight, side) and crossing.cross(right, side) and crossing.gives_way(right, side))
        self.assertFalse(crossing.cross(straight, opposite) or crossing.cross(left, straight))

    def test_a_small_file(self) -> None:
        net = RoadNet(HERE / "roadnet.json")
        draft = Draft(net.edges, net.places, net.nodes, net.vehicles(HERE / "flow.json", 3000))
        write_draft(draft, self.folder)
        network = read_tables(self.folder / "net.toml")
        [node] = network["node"]
        self.assertEqual((network["version"], [phase["skip"] for phase in node["phase"]]), (3, [False] * 4))
        self.assertEqual([(phase["yellow"], phase["clear"]) for phase in node["phase"]], [(3, 2)] * 4)
        greens = {link: 0 for phase in node["phase"] for link in phase["links"]}
        for phase in node["phase"]:
            for link in [*phase["links"], *phase.get("also", [])]:
                greens[link] += 1
        self.assertEqual(sorted(greens.values()), [1] * 6 + [4] * 4)
        self.assertEqual(sum("yields" in link for link in network["link"]), 4)
        self.assertEqual(len(network["conflict"]), 11)
        self.assertEqual((self.folder / "arrivals.csv").read_text().count(",1000\n"), 40)

    def test_a_grid(self) -> None:
        paths = write_grid(3, 3, self.folder, 300)
        net = RoadNet(paths[0])
        draft = Draft(net.edges, net.places, net.nodes, net.vehicles(paths[1], 3000))
        self.assertEqual((len(draft.met()), len(draft.arrivals), dict(draft.told)), (9, 300, {}))
        self.assertEqual(len(net.told), 4)

    @unittest.skipUnless(shutil.which("netconvert"), "SUMO is not installed")
    def test_there_and_back(self) -> None:
        """The network that SUMO has of an imported grid has the same links, homes, greens and conflicts."""
        paths = write_grid(2, 2, self.folder, 800)
        net = RoadNet(paths[0])
        write_draft(Draft(net.edges, net.places, net.nodes, net.vehicles(paths[1], 3000)), self.folder)
        network, places = read_tables(self.folder / "net.toml"), read_places(self.folder / "places.csv")
        signals = convert(network, places, self.folder / "there")
        write_routes(signals.layout, self.folder / "arrivals.csv", 1, self.folder / "there.rou.xml")
        streets = Streets(self.folder / "there/net.net.xml")
        demand = Demand(streets, 3000)
        demand.read_routes(self.folder / "there.rou.xml")
        write_draft(Draft(streets.edges, streets.places, nodes_of(streets)[0], demand.vehicles), self.folder / "back")
        first, back = parts(network, lambda name: name), parts_back(signals, self.folder / "back")
        for part in ("ends", "homes", "greens", "conflicts"):
            self.assertEqual(first[part], back[part], part)

    def command(self, *words: str | Path) -> tuple[int, str]:
        """The status and the standard error of the command."""
        argv = mock.patch.object(sys, "argv", ["from-cityflow", *map(str, words)])
        with argv, contextlib.redirect_stderr(io.StringIO()) as said, self.assertRaises(SystemExit) as ended:
            main()
        return ended.exception.code, said.getvalue()

    def test_broken_files(self) -> None:
        out, flows = self.folder / "out", json.loads((HERE / "flow.json").read_text())
        strange = [{**flows[0], "route": ["road_9_9_0"]}]
        gap = [{**flows[0], "route": [flows[0]["route"][0], flows[0]["route"][0]]}]
        no_light = {"intersections": [], "roads": []}
        for roadnet, flow, said in (
            (HERE / "none.json", HERE / "flow.json", "No such file"),
            (self.file("{", "a.json"), HERE / "flow.json", "it is no JSON"),
            (self.file("[" * 100_000, "deep.json"), HERE / "flow.json", "it is no JSON"),
            (self.file("{}", "b.json"), HERE / "flow.json", "it is no roadnet of CityFlow"),
            (self.file(json.dumps(no_light), "c.json"), HERE / "flow.json", "no intersection has light phases"),
            (HERE / "roadnet.json", self.file("[{}]", "d.json"), "it is no flow of CityFlow"),
            (HERE / "roadnet.json", self.file("[]", "e.json"), "there is no vehicle in it"),
            (HERE / "roadnet.json", self.file(json.dumps(strange), "f.json"), 'a route names road "road_9_9_0"'),
            (HERE / "roadnet.json", self.file(json.dumps(gap), "g.json"), "no way leads there"),
            (HERE / "roadnet.json", self.file(json.dumps([{**flows[0], "route": []}]), "h.json"), "a flow has no road in its route"),
            (HERE / "roadnet.json", self.file(json.dumps([{**flows[0], "startTime": -5}]), "i.json"), "startTime is -5"),
            (HERE / "roadnet.json", self.file(json.dumps([{**flows[0], "interval": math.nan}]), "j.json"), "NaN is no number"),
            (HERE / "roadnet.json", self.file(json.dumps([{**flows[0], "interval": 0, "endTime": -1}] * 3), "k.json"), "more than 2,000,000 vehicles"),
            (self.file((HERE / "roadnet.json").read_text().replace('"maxSpeed": 11', '"maxSpeed": -1'), "l.json"), HERE / "flow.json", "maxSpeed of road"),
        ):
            status, err = self.command(roadnet, flow, out)
            self.assertEqual((status, err.count("\n")), (2, 1), err)
            self.assertIn(said, err)


if __name__ == "__main__":
    unittest.main()
