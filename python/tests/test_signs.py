"""Tests of the greens of links, and of the vehicles under them where links go through changes, give way and are crossings."""

import unittest

from kolvunh.arrivals import read_arrivals
from kolvunh.flows import flows_of_greens
from kolvunh.networks import read_network
from kolvunh.reports import Green
from kolvunh.signs import Light, gives_way_in, has_overlaps, lights_of

from .worked import EXAMPLES, FilesTest

# A green of each phase: of three phases 0, 1 and 2, with the changes between them.
ROWS = [Green("a", 0, 0, 10), Green("a", 1, 15, 20), Green("a", 2, 25, 30)]

# `left` has its home in phase 1 and is green in phase 0 also, where it gives way to `opp`; `walk` crosses beside `cross`.
NETWORK = """version = 3
[run]
step = 10
look = 30
gap = 1
rounds = 3
[[node]]
name = "a"
phase = [
  { least = 5, greatest = 30, yellow = 3, clear = 2, loss = 2, wait = 120, skip = false, links = ["opp"], also = ["left"] },
  { least = 5, greatest = 30, yellow = 3, clear = 2, loss = 2, wait = 120, skip = true, links = ["left"] },
  { least = 5, greatest = 30, yellow = 3, clear = 2, loss = 2, wait = 120, skip = false, links = ["cross", "walk"] },
]
[[link]]
name = "opp"
to = "a"
travel = 1
sat = 500
weight = 1
turn = [{ exit = "out", share = 1000 }]
[[link]]
name = "left"
to = "a"
travel = 1
sat = 500
weight = 1
turn = [{ exit = "out", share = 1000 }]
yields = ["opp"]
yield_sat = 100
[[link]]
name = "cross"
to = "a"
travel = 1
sat = 500
weight = 1
turn = [{ exit = "out", share = 1000 }]
[[link]]
name = "walk"
to = "a"
travel = 1
sat = 2000
weight = 1
walk = 2
cross = 3
turn = [{ exit = "out", share = 1000 }]
[[link]]
name = "out"
from = "a"
travel = 1
sat = 500
weight = 1
"""


class SignsTest(FilesTest):
    def setUp(self):
        super().setUp()
        self.network = read_network(self.file(NETWORK, "net"))

    def lights(self, name):
        return lights_of(self.network, self.network.link_named(name), ROWS)

    def test_greens_of_links(self):
        lost = frozenset((0, 1))
        self.assertEqual(self.lights("opp"), [Light(0, 10, 13, lost)])
        # It stays green through the change from 10 to 15, and loses nothing as its home begins.
        self.assertEqual(self.lights("left"), [Light(0, 20, 23, lost)])
        self.assertEqual(self.lights("walk"), [Light(25, 27, 30, frozenset((25, 26)))])
        self.assertTrue(has_overlaps(self.network, "a"))
        self.assertEqual([gives_way_in(self.network, self.network.link_named("left"), phase) for phase in range(3)], [True, False, False])

    def test_vehicles_under_them(self):
        rows = "".join(f"0,{link},1000\n" for link in ("opp", "left", "walk"))
        flows = flows_of_greens(self.network, read_arrivals(self.file("second,link,amount\n" + rows, "arr")), ROWS)
        # All reach the stop line in second 1, where a green that began at 0 found no queue. `opp` is busy in seconds 1 and 2, and then `left`
        # lets 500 through.
        self.assertEqual(flows["opp"].left[:5], [0, 0, 500, 1000, 1000])
        self.assertEqual(flows["left"].left[:6], [0, 0, 100, 200, 700, 1000])
        # Who waits for the crossing loses its two seconds, which are all of the walk: nothing leaves.
        self.assertEqual(flows["walk"].left[-1], 0)

    def test_a_network_without_overlaps(self):
        network = read_network(EXAMPLES / "corridor.toml")
        self.assertFalse(has_overlaps(network, "first"))
        self.assertEqual(network.greens_of["side_first"], frozenset((1,)))


if __name__ == "__main__":
    unittest.main()
