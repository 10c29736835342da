"""Tests of the readers of reports, queues, arrivals and networks, by the worked network of docs/FORMATS.md."""

from kolvunh import Fault
from kolvunh.arrivals import Arrival, arrivals_text, read_arrivals
from kolvunh.networks import Conflict, Link, Turn, read_network
from kolvunh.queues import Change, Most, read_queues
from kolvunh.reports import Green, LinkTotals, Plan, Step, Totals, read_report

from . import worked
from .worked import FilesTest


class ReportsTest(FilesTest):
    def fault(self, text):
        with self.assertRaises(Fault) as raised:
            read_report(self.file(text, "a report.csv"))
        self.assertNotIn("\n", str(raised.exception))
        return str(raised.exception).removeprefix(str(self.folder / "a report.csv"))

    def test_records(self):
        report = read_report(self.file(worked.REPORT))
        self.assertEqual(len(report.steps), 16)
        self.assertEqual(report.steps[2], Step(0, "b", "read", "ab", 1))
        self.assertEqual(report.plans[2], Plan(1, "a", {"ba": 1}, 2000, (1,)))
        self.assertEqual(report.plans[7], Plan(3, "b", {"ab": 4}, 0, (0, 0)))
        self.assertEqual(report.plans[0].sequence, ())
        self.assertTrue(report.plans[0].is_found)
        self.assertEqual(report.greens_of()["a"], [Green("a", 0, 0, 5), Green("a", 1, 10, 27)])
        self.assertEqual(report.greens[1].seconds, 17)
        self.assertEqual([totals.link for totals in report.links], ["sa", "ab", "ba", "sb", "xb"])
        self.assertEqual(report.links[0], LinkTotals("sa", 1000, 1000, 500))
        self.assertEqual(report.totals, Totals(1000, 0, 1000, 500))

    def test_a_round_without_plan_and_several_versions(self):
        head, rows = "kind,round,node,x,y,z,w\n", "plan,3,b,ab=4;cb=12,none,,\nplan,4,b,,plan,24000,100\n"
        none, found = read_report(self.file(head + rows)).plans
        self.assertEqual(none, Plan(3, "b", {"ab": 4, "cb": 12}, None, ()))
        self.assertFalse(none.is_found)
        self.assertEqual((found.delay, found.sequence), (24000, (1, 0, 0)))

    def test_quotes_carriage_returns_and_empty_lines(self):
        rows = '\ufeff"kind",round,node,x,y,z,w\r\n\r\ngreen,,"a",0,0,5,\r\n\r\n'
        self.assertEqual(read_report(self.file(rows)).greens, [Green("a", 0, 0, 5)])

    def test_faults(self):
        head = "kind,round,node,x,y,z,w\n"
        self.assertEqual(self.fault(""), ": the file is empty, and has to begin with kind,round,node,x,y,z,w")
        self.assertEqual(self.fault("kind,round\n"), ':1: the header is "kind,round", and has to be kind,round,node,x,y,z,w')
        self.assertEqual(self.fault(head + "green,,a,0,0,5\n"), ":2: the row has 6 fields, and has to have 7")
        self.assertEqual(self.fault(head + "\ngreen,,a,x,0,5,\n"), ':3: phase of a green is "x", and has to be a whole number')
        self.assertEqual(
            self.fault(head + "red,,a,0,0,5,\n"), ':2: the kind is "red", and has to be one of step, plan, green, link, total'
        )
        self.assertIn(":2: a green goes from second 20 to 10,", self.fault(head + "green,,a,0,20,10,\n"))
        digits = ":2: phase of a green has 5000 digits, and may have at most 20"
        self.assertEqual(self.fault(head + f"green,,a,{5000 * '1'},0,5,\n"), digits)
        self.assertIn(": it is no file of records: field larger than", self.fault(head + 'green,,"a' + 200_000 * "x"))
        self.assertEqual(self.fault(head + 2 * "total,,,1,0,1,0\n"), ": there are 2 records `total`, and has to be one")
        with self.assertRaisesRegex(Fault, "nowhere: No such file or directory"):
            read_report(self.folder / "nowhere")

    def test_another_network(self):
        network, report = read_network(self.file(worked.NETWORK, "net")), self.file(worked.REPORT, "report")
        read_report(report).require_network(network, report)
        other = read_network(worked.EXAMPLES / "corridor.toml")
        with self.assertRaisesRegex(Fault, 'a green is of node "a", which the network has not'):
            read_report(report).require_network(other, report)
        renamed = self.file(worked.REPORT.replace("link,,,sb", "link,,,sc"), "renamed")
        with self.assertRaisesRegex(Fault, "its links are not those of the network"):
            read_report(renamed).require_network(network, renamed)
        third = self.file(worked.REPORT.replace("green,,a,1", "green,,a,2"), "third")
        with self.assertRaisesRegex(Fault, 'phase 2 of node "a", which has 2 phases'):
            read_report(third).require_network(network, third)


class QueuesTest(FilesTest):
    def test_records(self):
        queues = read_queues(self.file(worked.QUEUES))
        self.assertEqual(queues.changes[1], Change(11, "sa", 1000, 1000))
        self.assertEqual(queues.changes_of()["ab"], [Change(18, "ab", 0, 500), Change(19, "ab", 0, 1000)])
        self.assertEqual(queues.changes_of()["xb"], [])
        self.assertEqual(queues.most[0], Most("sa", 1000, 11))
        self.assertEqual(queues.most[4], Most("xb", 0, 0))

    def test_a_verdict_is_none(self):
        with self.assertRaisesRegex(Fault, 'the header is "rejected next second 4", and has to be second,link,queue,on'):
            read_queues(self.file("rejected next second 4\n"))

    def test_a_change_after_the_most(self):
        with self.assertRaisesRegex(Fault, ":3: a change comes after the first record `most`"):
            read_queues(self.file("second,link,queue,on\nmost,a,0,0\n1,a,0,5\n"))


class ArrivalsTest(FilesTest):
    def test_rows(self):
        path = self.file(worked.ARRIVALS)
        self.assertEqual(read_arrivals(path), [Arrival(0, "sa", 1000)])
        self.assertEqual(arrivals_text(read_arrivals(path)), worked.ARRIVALS)

    def test_faults(self):
        with self.assertRaisesRegex(Fault, ':2: the amount is "1.0", and has to be a whole number'):
            read_arrivals(self.file("second,link,amount\n0,sa,1.0\n"))
        with self.assertRaisesRegex(Fault, 'the header is "second,amount", and has to be second,link,amount'):
            read_arrivals(self.file("second,amount\n0,1000\n"))


class NetworksTest(FilesTest):
    def test_the_worked_network(self):
        network = read_network(self.file(worked.NETWORK))
        self.assertEqual((network.run.step, network.run.look, network.run.gap, network.run.rounds), (5, 30, 1, 4))
        self.assertEqual((network.run.seconds, network.run.split, network.run.age, network.run.hold), (20, False, None, None))
        self.assertEqual([node.name for node in network.nodes], ["a", "b"])
        self.assertEqual(network.node_named("a").phases[1].links, ("sa",))
        turns = (Turn("ba", 500), Turn("xb", 500))
        self.assertEqual(network.link_named("ab"), Link("ab", 10, 500, "a", "b", turns, 1))
        self.assertEqual((network.links[0].start, network.links[4].end), (None, None))
        self.assertEqual(network.conflicts[1], Conflict("ab", "sb"))
        self.assertEqual(network.phase_of["sb"], (network.node_named("b"), 1))
        self.assertEqual([link.name for link in network.links_to("a")], ["sa", "ba"])
        self.assertEqual([link.name for link in network.links_from("b")], ["ba", "xb"])
        self.assertIsNone(network.node_named("c"))

    def test_keys_that_may_be_there(self):
        network = read_network(worked.EXAMPLES / "bus_lane.toml")
        self.assertEqual([phase.skip for phase in network.nodes[0].phases], [False, True, False])
        self.assertEqual(network.link_named("bus_in").weight, 5)
        run = read_network(worked.EXAMPLES / "corridor.toml").run
        self.assertEqual((run.split, run.age, run.hold, run.act_step), (True, 20, 2, 1))
        text = worked.NETWORK.replace("rounds = 4\n", "rounds = 4\nact_step = 1\n")
        self.assertEqual(read_network(self.file(text)).run.act_step, 1)
        text = worked.NETWORK.replace("rounds = 4\n", "rounds = 4\nrate = 600\n")
        self.assertEqual(read_network(self.file(text)).run.rate, 600)

    def test_faults(self):
        with self.assertRaisesRegex(Fault, "a table has no key 'sat'"):
            read_network(self.file(worked.NETWORK.replace("sat = 500\n", "", 1)))
        with self.assertRaisesRegex(Fault, "at line 1, column 5"):
            read_network(self.file("[run\n"))
        for text in (worked.NETWORK.replace("rounds = 4", f"rounds = {5000 * '4'}"), "a = " + 100_000 * "[", 50_000 * "a." + "a = 1"):
            with self.assertRaisesRegex(Fault, "net.toml: "):
                read_network(self.file(text, "net.toml"))
        with self.assertRaisesRegex(Fault, "another kind"):
            read_network(self.file("run = 1\nnode = []\nlink = []\n"))
        latin = self.folder / "latin"
        latin.write_bytes(b"# caf\xe9\n")
        with self.assertRaisesRegex(Fault, "latin: the file is not in UTF-8"):
            read_network(latin)
