"""Tests of `from-utdf` on two networks that were made by hand; no file of Synchro's was there. Stages and offsets are
counted on paper."""

from collections import Counter
from pathlib import Path

from kolvunh import Fault, run
from kolvunh.networks import read_network
from kolvunh.plans import PlanRow, plan_text
from kolvunh.street.command import write_draft
from kolvunh.street.from_utdf import imported
from kolvunh.street.rings import RingPhase, Rings

from .test_mistakes import program
from .worked import FilesTest

FILES = Path(__file__).parent / "utdf"
CROSSING, STREET = ((FILES / name).read_text(encoding="utf-8") for name in ("crossing.csv", "street.csv"))
# What the crossing has in place of something, and what the line of the fault says
BAD = [
    ("[Phases]", "[Phasing]", ("no section [Phases]", "export all of")),
    ("INTID,TYPE,X,Y,Z", "INTID,X,Y,Z", (":9:", "no column TYPE")),
    ("3,0,0,0,0,", "3,3,0,0,0,", ("no node has TYPE 0",)),
    ("Up ID,3,14,13,11,12", "Up ID,3,14,13,11,99", (":18:", "junction 3, approach east", "no such node")),
    ("Speed,3,40,40", "Speed,3,40,fast", (":21:", "junction 3, approach north", '"fast"', "write a number")),
    ("Lanes,3,0,1,0,0,1", "Lanes,7,0,1,0,0,1", (":26:", "junction 7", "[Nodes] has no INTID")),
    (
        "Shared,3,,3,,,3,,,3",
        "Shared,3,,1,,,3,,,3",
        ("junction 3, approach south, right", "10 vehicles", "write Lanes, or Shared"),
    ),
    ("Phase1,3,,8,", "Phase1,3,,7,", ("junction 3, approach south, through", "phase 7", "write both")),
    ("BRP,3,111", "BRP,3,11", (":43:", "junction 3, phase 2", "as 111")),
    ("BRP,3,111,211,121,221\n", "", ("junction 3", "no BRP")),
    ("Yellow,3,3,3,3,3", "Yellow,3,13,3,3,3", ("junction 3, phases [2, 6]", "yellow is 13 s", "write 1 to 10")),
    ("Volume,3,10,", "Volume,3,10,80,20,30,20,10,80,20,10,20,30,20,10,80,20,", (":28:", "take out what is too much")),
]


class UtdfTest(FilesTest):
    def imported(self, text):
        """What is imported of a text, written to the test's folder."""
        found = imported(self.file(text, "file.csv"))
        write_draft(found.draft, found.street, self.folder)
        self.assertEqual(read_network(self.folder / "net.toml"), found.draft.network)
        return found

    def test_a_crossing_with_people(self):
        found = self.imported(CROSSING)
        net = found.draft.network
        self.assertEqual(
            [(phase.least, phase.greatest, phase.yellow, phase.clear) for phase in net.nodes[0].phases],
            [(10, 30, 3, 2), (16, 20, 3, 2)],
        )
        self.assertEqual(
            [(link.name, link.walk, link.cross) for link in net.links if link.walk], [("n3_pe", 5, 11)],
        )  # beside those to the north
        self.assertEqual(found.plan, [PlanRow("n3", 0, 30, 10), PlanRow("n3", 1, 20, 10)])
        entered = Counter(row.link.split("_")[1][0] for row in found.arrivals for _ in range(row.amount // 1000))
        self.assertEqual(entered, {"n": 100, "s": 100, "e": 360, "w": 300, "p": 12})
        self.assertEqual(found.told, [])
        short = self.imported(CROSSING.replace("DontWalk,3,,,,11", "DontWalk,3,,,,18"))  # 5 + 18 s, and 20 of green
        self.assertEqual([link.name for link in short.draft.network.links if link.walk], [])

    def test_two_rings_are_stages_of_one(self):
        """n1: {1, 5} 15 s, {1, 6} 5 s without a green, {2, 6} up to 60, {4, 8} up to 90. Its 2 turns green at 15, and
        its offset is 20: 5. n2: 1 lasts
        30 s; 2 and 6 turn yellow at 55, the offset: 35. The bend of the street is passed: 1300 feet."""
        found = self.imported(STREET)
        rows = {(row.node, row.phase): (row.green, row.offset) for row in found.plan}
        self.assertEqual(
            rows,
            {
                ("n1", 0): (10, 5),
                ("n1", 1): (40, 5),
                ("n1", 2): (25, 5),
                ("n2", 0): (10, 35),
                ("n2", 1): (10, 35),
                ("n2", 2): (25, 35),
                ("n2", 3): (25, 35),
            },
        )
        net = found.draft.network
        self.assertEqual([(phase.links, phase.also) for phase in net.nodes[1].phases],
                         [(("n2_ebl",), ("n2_wbl",)), (("n2_wbl", "n2_wb"), ()), (("n2_eb",), ("n2_ebl", "n2_wbl", "n2_wb")), (("n2_nb", "n2_sb"), ())])
        self.assertEqual(net.link_named("n2_eb").travel, round(1300 * 0.3048 / (35 * 1.609344 / 3.6)))
        self.assertEqual(net.link_named("n1_ebl").yields, ())  # protected at n1, and both at n2
        self.assertEqual(net.link_named("n2_ebl").yields, ("n2_wb",))
        self.assertIn("junction 1: phases 1 and 6 have no stage of their own: it is too short for a green", found.told)
        self.assertIn("junction 2: yellow and all-red are rounded up to whole seconds", found.told)
        if program():
            plan = self.file(plan_text(found.plan), "plan.csv")
            self.assertEqual(run(["bounds", self.folder / "net.toml", plan], [program()]).status, 0)

    def test_what_is_no_junction_is_listed(self):
        """With five seconds of 1 and 5, all of them change, n1 is none, and n2 comes from outside."""
        found = self.imported(STREET.replace("MaxGreen,1,15,35,25,10,40,25", "MaxGreen,1,0.4,35,25,0.4,40,25"))
        self.assertEqual([node.name for node in found.draft.network.nodes], ["n2"])
        words = (
            "junction 1: it is no junction of the network, and its neighbours lead outside: the green of phases [1, "
            "5] is no longer than their"
        )
        self.assertTrue(any(line.startswith(words) for line in found.told), found.told)

    def test_eight_phases_are_four_stages(self):
        """Two lefts in each ring and barrier: of six stages the two shorter ones that are not needed go into what
        follows them."""
        splits = {1: 30, 2: 40, 5: 20, 6: 50, 3: 25, 4: 35, 7: 15, 8: 45}
        places = {
            1: (1, 1, 1),
            2: (1, 1, 2),
            5: (1, 2, 1),
            6: (1, 2, 2),
            3: (2, 1, 1),
            4: (2, 1, 2),
            7: (2, 2, 1),
            8: (2, 2, 2),
        }
        rings = Rings([RingPhase(number, *places[number], split, 4, 1) for number, split in splits.items()])
        self.assertEqual([sorted(stage.phases) for stage in rings.stages], [[1, 5], [2, 6], [3, 7], [4, 8]])
        self.assertEqual(
            [(stage.begin, stage.green) for stage in rings.stages], [(0, 15), (20, 45), (70, 10), (85, 40)],
        )
        self.assertEqual((rings.cycle, len(rings.told)), (130, 2))
        self.assertEqual([rings.point((2, 6), way) for way in (0, 1, 2, 3)], [20, 65, 69, 20])

    def test_faults_are_told_in_a_line(self):
        for old, new, words in BAD:
            self.assertIn(old, CROSSING)
            with self.assertRaises(Fault, msg=new) as caught:
                imported(self.file(CROSSING.replace(old, new), "file.csv"))
            line = str(caught.exception)
            self.assertNotIn("\n", line)
            for word in ("file.csv:", *words):
                self.assertIn(word, line)
