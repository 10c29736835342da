"""Tests of `counts`. What enters and how it turns is counted by hand over two junctions that are drawn in the words of
the trade."""

from collections import Counter

from kolvunh import Fault, run
from kolvunh.arrivals import arrivals_text
from kolvunh.street.command import write_draft
from kolvunh.street.counts import demand_of
from kolvunh.street.draft import Drafter
from kolvunh.street.junction_file import read_street

from .test_mistakes import program
from .worked import EXAMPLES, FilesTest

LANE = '{ lanes = ["left through right"] }'
STAGES = '[[junction.stage]]\ngreen = ["west", "east"]\n[[junction.stage]]\ngreen = ["north", "south"]\n'
CROSS = f'[[junction]]\nname = "x"\n[junction.approach]\nwest = {LANE}\neast = {LANE}\nnorth = {LANE}\nsouth = {LANE}\n{STAGES}'
SECOND = CROSS.replace('"x"', '"y"').replace(f"west = {LANE}", f'west = {LANE[:-2]}, next = "x" }}')
PAIR = CROSS.replace(f"east = {LANE}", f'east = {LANE[:-2]}, next = "y" }}') + SECOND

LONG = "junction,approach,movement,begin,minutes,vehicles\n" + "".join(
    f"x,{leg},{movement},07:00,15,{vehicles}\n"
    for leg, three in {"west": (2, 4, 0), "east": (0, 3, 0), "north": (1, 1, 1), "south": (0, 0, 0)}.items()
    for movement, vehicles in zip(("left", "through", "right"), three)
)
WIDE = """Turning Movement Count
15 Minute Counts
DATE,TIME,INTID,NBL,NBT,NBR,SBL,SBT,SBR,EBL,EBT,EBR,WBL,WBT,WBR,EB Total
05/04/2026,0700,x,0,0,0,1,1,1,2,4,0,0,3,0,6
"""
BY_APPROACH = """date,start time,intersection,direction,left,thru,right,minutes
2026-05-04,7:00 AM,x,eastbound,2,4,0,15
2026-05-04,7:00 AM,x,WB,0,3,0,15
2026-05-04,7:00 AM,x,southbound,1,1,1,15
2026-05-04,7:00 AM,x,NB,,,,15
"""
# What the long file has in place of something, and what the line of the fault says
ROW = "x,west,left,07:00,15,2\n"
BAD = [
    (
        "junction,approach,movement,begin,minutes,vehicles",
        "junction,approach,movement,begin,minutes,lorries",
        (":1:", '"lorries"', "write junction,"),
    ),
    (
        "junction,approach,movement,begin,",
        "junction,approach,movement,hour,",
        ("no header with a column begin", "write junction,"),
    ),
    (ROW, "z,west,left,07:00,15,2\n", (":2:", "junction z, approach west, left", "write one of x")),
    (ROW, "x,up,left,07:00,15,2\n", (":2:", "junction x", "north, east, south or west")),
    (ROW, "x,west,back,07:00,15,2\n", (":2:", "junction x, approach west", '"back"', "write left, through")),
    (ROW, "x,west,left,7,15,2\n", (":2:", "junction x", "write a time of the day as 07:15")),
    (ROW, "x,west,left,07:00,15,-2\n", (":2:", "junction x, approach west, left", "a whole number from 0 to")),
    (ROW, "", ("junction x, approach west, left", "add its rows")),
    (ROW, ROW + ROW, (":3:", "junction x, approach west, left", "counted twice")),
    (ROW, ROW.replace("07:00", "07:15"), (":2:", "junction x, approach west, left", "no row counts 07:00 to 07:15")),
    (
        ROW,
        ROW + "x,west,bus left,07:00,15,2\n",
        (":3:", "junction x, approach west, bus left", "write 0, or give a lane the movement"),
    ),
    (ROW, ROW.replace(",15,", ","), (":2:", "5 fields")),
]


class CountsTest(FilesTest):
    def network(self, text):
        """The network file of a junction file's text, with its movements beside it."""
        street = read_street(self.file(text, "street.toml"))
        write_draft(Drafter(street).draft(), street, self.folder)
        return self.folder / "net.toml"

    def test_one_junction_in_three_layouts(self):
        net = self.network(CROSS)
        demand = demand_of(net, self.file(LONG, "counts.csv"))
        entered = [(arrival.second, arrival.amount) for arrival in demand.arrivals if arrival.link == "x_eb"]
        self.assertEqual(entered, [(second, 1000) for second in (75, 225, 375, 525, 675, 825)])  # six in 900 seconds
        turns = {turn.exit: turn.share for turn in demand.network.link_named("x_eb").turns}
        self.assertEqual(turns, {"x_n": 333, "x_e": 667, "x_s": 0})
        # A third of the vehicles turns left, at a fifth of the 500: 500 / (5 / 3 + 2 / 3); from the east nobody does.
        self.assertEqual([demand.network.link_named(name).yield_sat for name in ("x_eb", "x_wb")], [214, 500])
        self.assertEqual((demand.network.run.seconds, demand.told), (900, []))
        for text in (WIDE, BY_APPROACH):
            other = demand_of(net, self.file(text, "other.csv"))
            self.assertEqual((other.network, other.arrivals), (demand.network, demand.arrivals))

    def test_neighbours_that_do_not_fit_are_told(self):
        """x sends 4 + 1 to y from the west, where 10 are counted; y sends 3 + 1 + 2 back, where 3 are."""
        y = [("west", 1, 8, 1), ("east", 0, 3, 0), ("north", 0, 0, 1), ("south", 2, 0, 0)]
        rows = [f"y,{leg},{movement},07:00,15,{many}\n" for leg, *three in y for movement, many in zip(("left", "through", "right"), three)]
        demand = demand_of(self.network(PAIR), self.file(LONG + "".join(rows), "counts.csv"))
        self.assertEqual(demand.told, [
            "junction x, approach east: 3 vehicles are counted, and y sends 6, so its counts are scaled by 2.00",
            "junction y, approach west: 10 vehicles are counted, and x sends 5, so its counts are scaled by 0.50",
        ])  # fmt: skip
        self.assertEqual(
            Counter(arrival.link for arrival in demand.arrivals),
            {"x_eb": 6, "x_sb": 3, "y_wb": 3, "y_sb": 1, "y_nb": 2},
        )

    def test_totals_of_intervals_and_seeds(self):
        street = read_street(EXAMPLES / "streets/arterial.toml")
        write_draft(Drafter(street).draft(), street, self.folder)
        net, counts = self.folder / "net.toml", EXAMPLES / "streets/arterial_counts.csv"
        even, drawn, again, other = (demand_of(net, counts, seed=seed) for seed in (None, 7, 7, 8))
        self.assertEqual(arrivals_text(drawn.arrivals), arrivals_text(again.arrivals))
        self.assertNotEqual(drawn.arrivals, other.arrivals)
        west = ("oak_eb", "oak_ebtr", "oak_ebl")
        for demand in (even, drawn, other):
            found = Counter(
                arrival.second // 900
                for arrival in demand.arrivals for _ in range(arrival.amount // 1000) if arrival.link in west
            )
            self.assertEqual(
                [found[number] for number in range(4)], [15 + 154 + 12, 16 + 172 + 14, 18 + 196 + 16, 17 + 178 + 14],
            )
        if program():
            self.assertEqual(run(["bounds", net], [program()]).status, 0)

    def test_a_part_of_the_day(self):
        later = LONG + "".join(line.replace("07:00", "07:15") + "\n" for line in LONG.splitlines()[1:])
        demand = demand_of(self.network(CROSS), self.file(later, "counts.csv"), between=(435, 450))
        self.assertEqual(demand.arrivals, demand_of(self.folder / "net.toml", self.file(LONG, "one.csv")).arrivals)

    def test_faults_are_told_in_a_line(self):
        net = self.network(CROSS)
        for old, new, words in BAD:
            self.assertIn(old, LONG)
            with self.assertRaises(Fault, msg=new) as caught:
                demand_of(net, self.file(LONG.replace(old, new), "counts.csv"))
            line = str(caught.exception)
            self.assertNotIn("\n", line)
            for word in ("counts.csv", *words):
                self.assertIn(word, line)

    def test_a_network_without_movements_is_told(self):
        net = self.network(CROSS)
        (self.folder / "movements.csv").unlink()
        with self.assertRaises(Fault) as caught:
            demand_of(net, self.file(LONG, "counts.csv"))
        self.assertIn("movements.csv: there is no such file", str(caught.exception))
