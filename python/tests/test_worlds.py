"""Tests of the closed loop of the package, on the worked network with numbers by hand, and of its reports over the built program."""

import tomllib
import unittest

from kolvunh import Arrival, Fault, World, max_pressure, read_arrivals, read_network, run
from kolvunh.networks import network_of
from kolvunh.worlds import Showing, followers

from .test_mistakes import program
from .worked import EXAMPLES, NETWORK, FilesTest

WORKED = network_of(tomllib.loads(NETWORK))


class WorldTest(FilesTest):
    def test_greens_and_queues_by_hand(self):
        # A vehicle enters `sa` in second 0 and reaches its end in second 10. Phase 0 of a ends at 7, so phase 1 is green from 12, of which two
        # seconds are lost; 500 leave in each of the seconds 14 and 15. So 1000 wait at the moments 11 to 14, and 500 at 15.
        world = World(WORKED, [Arrival(0, "sa", 1000)])
        while not world.is_over:
            if world.now == 7:
                world.change("a", 1)
                self.assertEqual(world.showing("a"), Showing(1, 12, 42))
            if world.now == 9:
                self.assertEqual((world.coming("sa", 1), world.coming("sa", 2), world.on_link("sa")), (0, 1, 1))
            if world.now == 15:
                self.assertEqual((world.queue("sa"), world.on_link("sa")), (0.5, 0.5))
            world.move()
        self.assertEqual((world.entered, world.delay), (1, 4.5))
        self.assertIn("green,,a,0,0,7,\ngreen,,a,1,12,42,\n", world.report_text())

    def test_what_a_controller_may_not(self):
        world = World(WORKED, [])
        with self.assertRaisesRegex(Fault, "lasts 5 seconds at the least, and it is second 0"):
            world.change("a", 1)
        while not world.may_end("a"):
            world.move()
        self.assertEqual(world.now, 5)
        with self.assertRaisesRegex(Fault, "phase 0 can't follow phase 0"):
            world.change("a", 0)
        with self.assertRaisesRegex(Fault, 'by link "ab"'):
            World(WORKED, [Arrival(0, "ab", 1000)])

    def test_followers(self):
        marks = {(): {0: (1,), 2: (0,)}, (1,): {0: (1, 2), 1: (2,)}, (0, 1, 2): {0: (1, 2), 1: (2, 0)}}
        phase = WORKED.nodes[0].phases[0]
        for skips, wanted in marks.items():
            node = type(WORKED.nodes[0])("x", tuple(type(phase)(5, 30, 3, 2, 2, 120, (), at in skips) for at in range(3)))
            self.assertEqual({at: followers(node, at) for at in wanted}, wanted)

    @unittest.skipUnless(program(), "no program is built")
    def test_the_audit_accepts_reports(self):
        for name in ("corridor", "left_turn", "bus_lane", "crossing"):
            files = [EXAMPLES / f"{name}.toml", EXAMPLES / f"{name}.csv"]
            network, arrivals = read_network(files[0]), read_arrivals(files[1])
            for controller in (max_pressure, lambda world, node: None):
                world = World(network, arrivals)
                world.run(controller)
                report = self.file(world.report_text(), "own.csv")
                self.assertEqual(run(["audit", *files, report], [program()]).text, "accepted\n", name)


if __name__ == "__main__":
    unittest.main()
