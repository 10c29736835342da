"""Tests of who crosses whom in `street`. What is expected is counted in a drawing of four legs, and change times are computed by hand."""

import unittest
from itertools import combinations

from kolvunh import Fault
from kolvunh.street.change_times import all_red_of, yellow_of
from kolvunh.street.draft import Drafter
from kolvunh.street.junction_file import nema_of, read_street
from kolvunh.street.legs import Movement, Path, cross, exits_of

from .worked import FilesTest

LEGS = ["north", "east", "south", "west"]
MERGING = """[[junction]]
name = "oak"
[junction.approach]
west = { lanes = ["through", "through right"] }
east = { lanes = ["through", "through right"], out = 3 }
north = { lanes = ["left", "through right"] }
[[junction.stage]]
green = ["west", "north left"]
[[junction.stage]]
green = ["east", "north"]
"""


def paths() -> list[Path]:
    """The paths of a junction with four legs and a lane for each movement, which leads into a lane of its own."""
    found = []
    for leg in LEGS:
        exits = exits_of(leg, LEGS)
        found += [Path(leg, lane, movement, exits[movement], lane) for lane, movement in enumerate(Movement)]
    return found


class LegsTest(FilesTest):
    def test_paths_that_cross(self) -> None:
        """A left and a path straight ahead cross four others each in the plane, and meet each other in one exit; a right crosses none."""
        counts = {path: 0 for path in paths()}
        for one, other in combinations(paths(), 2):
            self.assertEqual(cross(one, other), cross(other, one))
            if cross(one, other):
                counts[one] += 1
                counts[other] += 1
        wanted = {Movement.LEFT: 5, Movement.THROUGH: 5, Movement.RIGHT: 0}
        self.assertEqual(counts, {path: wanted[path.movement] for path in counts})

    def test_who_meets_in_an_exit_is_not_green_together(self) -> None:
        text = MERGING.replace('["left", "through right"]', '["left", "right"]').replace('"through right"]', '"through"]')
        with self.assertRaises(Fault) as refused:
            Drafter(read_street(self.file(text, "street.toml")))
        self.assertIn("street.toml:7: junction oak, stage 1, approach north: north left and west through cross", str(refused.exception))

    def test_a_key_that_is_not_known_names_the_junction(self) -> None:
        with self.assertRaises(Fault) as refused:
            read_street(self.file(MERGING.replace("[junction.approach]", "[junction.approaches]"), "street.toml"))
        self.assertIn('street.toml:3: junction oak: there is no key "approaches": write one of', str(refused.exception))

    def test_exits(self) -> None:
        self.assertEqual(exits_of("west", LEGS), {Movement.THROUGH: "east", Movement.LEFT: "north", Movement.RIGHT: "south"})
        self.assertEqual(exits_of("south", ["south", "east", "north"]), {Movement.THROUGH: "north", Movement.RIGHT: "east"})

    def test_phases_of_nema(self) -> None:
        """With phase 2 from the west: 6 from the east, 4 from the north, 8 from the south, and the lefts of these are 5, 1, 7 and 3."""
        wanted = {2: "west", 6: "east", 4: "north", 8: "south", 5: "west", 1: "east", 7: "north", 3: "south"}
        self.assertEqual({n: nema_of(n, "west") for n in wanted}, {n: (leg, Movement.LEFT if n % 2 else None) for n, leg in wanted.items()})

    def test_change_times(self) -> None:
        """50 km/h: 1 + 13.89 / 6.1 = 3.28, so 4; downhill by 6 %: 1 + 13.89 / 4.92 = 3.82; 25 m: (25 + 6.1) / 13.89 = 2.24, so 3."""
        self.assertEqual((yellow_of(50), yellow_of(50, -6), yellow_of(30), yellow_of(70)), (4, 4, 3, 5))
        self.assertEqual((all_red_of(50, 25), all_red_of(50, 6.9), all_red_of(20, 60)), (3, 1, 10))


if __name__ == "__main__":
    unittest.main()
