"""Tests of `street`: what is expected is counted by hand over junctions that are drawn in the words of the trade."""

import unittest

from kolvunh import read_network, run
from kolvunh.faults import Fault
from kolvunh.street.command import write_draft
from kolvunh.street.draft import Drafter
from kolvunh.street.junction_file import read_street

from .test_mistakes import program
from .worked import EXAMPLES, FilesTest

LANE = '{ lanes = ["left through right"] }'
CROSS = f"""
[street]
nema = "west"
[[junction]]
name = "x"
[junction.approach]
west = {LANE}
east = {LANE}
north = {LANE}
south = {LANE}
[[junction.stage]]
green = [2, 6]
[[junction.stage]]
green = [4, 8]
"""
# What is changed in the crossing, what it becomes, and what the line of the fault says
FAULTS = [
    (f"west = {LANE}\n", 'west = { lanes = ["left uturn"] }\n', ("junction x, approach west", "uturn")),
    (f"west = {LANE}\n", 'west = { lanes = ["through"], left = "maybe" }\n', ("junction x, approach west", "left")),
    (f"west = {LANE}\n", 'west = { lanes = ["through"], next = "y" }\n', ("junction x, approach west", "next", "no other junction")),
    (f"west = {LANE}\n", 'west = { lanes = ["through"], speed = 400 }\n', ("junction x, approach west", "speed", "from 5 to 130")),
    (f"west = {LANE}\n", 'west = { lane = ["through"] }\n', ("junction x, approach west", "lanes")),
    ('name = "x"', 'name = "Crossing North"', ("name",)),
    ("green = [2, 6]", "green = [2, 9]", ("junction x, stage 1", "9")),
    ("green = [2, 6]", "green = [2, 6, 4]", ("junction x, stage 1",)),
    ("green = [4, 8]", "green = [4]", ("junction x", "green in no stage")),
    ("[street]", "[run]\nrounds = 99999\n[street]", (":3: run: rounds is 99999", "from 1 to 17280")),
    ("[street]", '[run]\nstep = "2"\n[street]', ("run: step is '2'", "from 1 to 30")),
    ("green = [4, 8]", "green = [4, 8]\nleast = 60\ngreatest = 40", ("junction x, stage 2", "greatest")),
]


class StreetTest(FilesTest):
    def drafted(self, text):
        """What is drafted of a junction file's text."""
        return Drafter(read_street(self.file(text, "street.toml"))).draft()

    def test_a_crossing_of_two_streets(self):
        net = self.drafted(CROSS).network
        self.assertEqual({(c.a, c.b) for c in net.conflicts}, {("x_eb", "x_sb"), ("x_eb", "x_nb"), ("x_wb", "x_sb"), ("x_wb", "x_nb")})
        self.assertEqual({link.name: link.yields for link in net.links if link.yields},
                         {"x_eb": ("x_wb",), "x_wb": ("x_eb",), "x_nb": ("x_sb",), "x_sb": ("x_nb",)})
        # 50 km/h are 13.9 metres a second: yellow 1 + 13.9 / 6.1 = 3.3, and two lanes are 16.5 metres wide: all-red 22.6 / 13.9 = 1.6.
        self.assertEqual([(phase.yellow, phase.clear) for phase in net.nodes[0].phases], [(4, 2), (4, 2)])

    def test_protected_lefts_have_links_of_their_own(self):
        lanes = '{ lanes = ["left bay 60", "through right"], left = "protected" }'
        text = CROSS.replace(f"west = {LANE}", f"west = {lanes}").replace(f"east = {LANE}", f"east = {lanes}")
        net = self.drafted(text.replace("green = [2, 6]", "green = [2, 6]\n[[junction.stage]]\ngreen = [1, 5]\nskip = true")).network
        self.assertEqual([phase.links for phase in net.nodes[0].phases], [("x_eb", "x_wb"), ("x_ebl", "x_wbl"), ("x_sb", "x_nb")])
        self.assertIn(("x_ebl", "x_wb"), {tuple(sorted((c.a, c.b))) for c in net.conflicts})
        self.assertEqual([link.name for link in net.links if link.yields], ["x_sb", "x_nb"])

    def test_the_street_of_three_junctions(self):
        street = read_street(EXAMPLES / "streets/arterial.toml")
        draft = Drafter(street).draft()
        write_draft(draft, street, self.folder / "one")
        write_draft(Drafter(street).draft(), street, self.folder / "two")
        for name in ("net.toml", "movements.csv", "lanes.csv", "store.csv", "places.csv"):
            self.assertEqual((self.folder / "one" / name).read_bytes(), (self.folder / "two" / name).read_bytes())
        self.assertEqual([node.name for node in draft.network.nodes], ["oak", "elm", "pine"])
        self.assertEqual({name: (round(x), round(y)) for name, (x, y) in draft.places.items()}, {"oak": (0, 0), "elm": (350, 0), "pine": (600, 0)})
        self.assertEqual(read_network(self.folder / "one/net.toml"), draft.network)
        if program():
            self.assertEqual(run(["bounds", self.folder / "one/net.toml"], [program()]).status, 0)

    def test_faults_are_told_in_a_line(self):
        for old, new, words in FAULTS:
            self.assertIn(old, CROSS)
            with self.assertRaises(Fault, msg=new) as caught:
                self.drafted(CROSS.replace(old, new))
            line = str(caught.exception)
            self.assertNotIn("\n", line)
            for word in ("street.toml:", *words):
                self.assertIn(word, line)


if __name__ == "__main__":
    unittest.main()
