"""Tests of `street` against SUMO: the network that netconvert makes of the same street, lane by lane and link by
link."""

import shutil
import unittest
from itertools import combinations
from pathlib import Path
from tempfile import TemporaryDirectory

from kolvunh.street.junction_file import read_street
from kolvunh.street.plan import Crossing
from kolvunh.sumo.from_sumo import nodes_of
from kolvunh.sumo.streets import Streets

from .plain_street import PlainStreet
from .worked import EXAMPLES, FilesTest

MERGING = """[[junction]]
name = "oak"
[junction.approach]
west = { lanes = ["through", "through right"] }
east = { lanes = ["left", "through", "through"], left = "protected", out = 3 }
north = { lanes = ["left", "right"] }
south = { lanes = ["left", "through right"], left = "protected" }
[[junction.stage]]
green = ["west", "east"]
[[junction.stage]]
green = ["east left"]
[[junction.stage]]
green = ["north"]
[[junction.stage]]
green = ["south left", "south"]
"""


class Compared:
    """A junction twice: the groups of its lanes here, and those of SUMO's signal; lanes are (approach, number from the
    left)."""

    def __init__(self, plain: PlainStreet, name: str, node) -> None:
        self.signals, self.node = plain.signals[name], node
        counts = {leg: len(approach.lanes) for leg, approach in self.signals.junction.approaches.items()}

        def lane_of(sumo: str):
            edge, _, index = sumo.rpartition("_")
            leg = edge.removeprefix(f"{name}_")
            return "crossing" if sumo.startswith(":") else (leg, counts[leg] - 1 - int(index) + (edge in plain.walked))

        self.own = {
            lane: group
            for group in self.signals.groups for lane in [
                (group.approach, number) for number in group.lanes
            ] or ["crossing"]
        }
        self.sumo = {lane_of(lane): group for group in node.groups for lane in group.lanes}

    def greens(self):
        """The stages in which each lane is green, twice."""
        return [{lane: group.greens for lane, group in groups.items()} for groups in (self.own, self.sumo)]

    def conflicts(self):
        """The pairs of lanes of which the links are in conflict, twice."""
        found = set(), set()
        for one, other in combinations(self.own, 2):
            crosses = self.signals.crosses(self.own[one], self.own[other]), self.node.crosses(
                self.sumo[one], self.sumo[other],
            )
            for pairs, groups, is_so in zip(found, (self.own, self.sumo), crosses):
                if is_so and not groups[one].greens & groups[other].greens:
                    pairs.add((one, other))
        return found

    def links(self):
        """The lanes of each link, twice; a bus lane and those that give way to it alone are here one with the lanes
        beside them, as SUMO has it."""
        own = {lane: (group.approach, group.greens, frozenset(self.giving(group))) for lane, group in self.own.items()}
        sumo = {lane: id(group) for lane, group in self.sumo.items()}
        return [
            {frozenset(lane for lane in keys if keys[lane] == each) for each in keys.values()} for keys in (own, sumo)
        ]

    def giving(self, group):
        """The stages in which a link gives way to others than those of its own approach."""
        for stage in group.giving:
            others = {other for path in group.paths for other in self.signals.giving[stage].get(path, ())}
            if any(isinstance(other, Crossing) or other.approach != group.approach for other in others):
                yield stage


@unittest.skipUnless(shutil.which("netconvert"), "SUMO is not installed")
class StreetSumoTest(FilesTest):
    def compared(self, file: Path):
        """The junctions of a street."""
        plain = PlainStreet(read_street(file))
        with TemporaryDirectory() as folder:
            nodes, reasons = nodes_of(Streets(plain.write(Path(folder))))
        self.assertEqual(reasons, {})
        return {name: Compared(plain, name, nodes[name]) for name in plain.signals}

    def test_the_arterial(self):
        """Lanes, greens and conflicts are equal; a bus lane, which the import does not know, is there one link with
        the lanes beside it."""
        for name, both in self.compared(EXAMPLES / "streets/arterial.toml").items():
            with self.subTest(name):
                self.assertEqual([loss.words for loss in both.node.losses], [])
                for own, sumo in (both.greens(), both.conflicts(), both.links()):
                    self.assertEqual(own, sumo)

    def test_lanes_of_one_exit(self):
        """The left from the north and those from the west lead into lanes of their own of one exit: their links are in
        conflict, and not in SUMO."""
        both = self.compared(self.file(MERGING, "street.toml"))["oak"]
        own, sumo = both.conflicts()
        self.assertEqual(
            (own - sumo, sumo - own),
            ({(("west", one), ("north", other)) for one in (0, 1) for other in (0, 1)}, set()),
        )
        for own, sumo in (both.greens(), both.links()):
            self.assertEqual(own, sumo)
