"""Tests of kolvunh.districts: one district and several count the same, and so does the world of kolvunh.flows. No MPI is needed."""

import contextlib
import io
import os
import threading
import unittest
from argparse import Namespace
from collections import defaultdict
from unittest import mock

from kolvunh import Fault, read_arrivals, read_network, run
from kolvunh.districts import command
from kolvunh.districts.cut import Cut, blocks_of, read_cut, require_travel
from kolvunh.districts.ranks import Alone, Threads, ranks_here
from kolvunh.flows import flows_of_greens
from kolvunh.orders import READ_FIRST, history_text
from kolvunh.reports import records_of_report
from kolvunh.serving import HEADER, Serving

from .test_mistakes import program
from .worked import ARRIVALS, EXAMPLES, NETWORK, FilesTest

LEAST, CHANGE, AHEAD, STEP = 5, 5, 60, 5
BACK = {"e": "w", "w": "e", "s": "n", "n": "s"}
SIDES = {"e": "ens", "w": "wsn", "s": "sew", "n": "nwe"}


class Ring:
    """Stands for the program: each number that a node senses or hears changes its greens and what it tells."""

    def __init__(self, network):
        self._network, self._step = network, network.run.step

    def turns(self, state, names):
        rows = defaultdict(list)
        for line in state.splitlines()[1:]:
            kind, name, *cells = line.split(",")
            rows[kind, name].append([int(cell or 0) for cell in cells])
        return [self._turn(rows, rows["now", ""][0][0], name) for name in names]

    def _turn(self, rows, now, node):
        entries = self._network.links_to(node)
        told = [row for link in entries for kind in ("queue", "coming", "row") for row in rows[kind, link.name]]
        seen = sum(place * number for row in told for place, number in enumerate(row, 1))
        versions = {row[0] for link in entries for row in rows["version", link.name]}
        assert versions <= {now // self._step}, (versions, now)
        exits = [link for link in self._network.links_from(node) if link.end]
        boards = [f"version,{link.name},{now // self._step + 1},,\nrow,{link.name},{now + link.travel},{1 + seen % 900}," for link in exits]
        greens = [f"green,{node}," + ",".join(map(str, row)) for row in self._line(rows["green", node], now, node, seen)]
        return "\n".join([HEADER, f"plan,{node},,0,", *greens, *boards, ""])

    def _line(self, line, now, node, seen):
        """The ring from the last green on that has begun, which may end later than it was to end."""
        phase, begin, end = line[max(place for place, row in enumerate(line) if row[1] <= now)]
        if now < end:
            end = max(now, begin + LEAST) + seen % 7
        line, phases = [(phase, begin, end)], len(self._network.node_named(node).phases)
        while end <= now + AHEAD:
            phase, begin, end = (phase + 1) % phases, end + CHANGE, end + CHANGE + LEAST + seen % 11
            line.append((phase, max(begin, now), max(end, now + LEAST)))
        return line


def city(side, rounds):
    """A network of side x side nodes, with links both ways between neighbours and from outside and to it at the rim."""
    places = [(x, y) for y in range(side) for x in range(side)]
    phases, links = {place: ([], []) for place in places}, []
    for place in places:
        x, y = place
        for way, other in {"e": (x + 1, y), "w": (x - 1, y), "s": (x, y + 1), "n": (x, y - 1)}.items():
            inner = other in phases
            roads = [(f"n{x}_{y}{way}", place, other if inner else None, way)]
            roads += [] if inner else [(f"in{x}_{y}{way}", None, place, BACK[way])]
            for name, start, end, ahead in roads:
                links.append(link_text(name, STEP + 3 * len(links) % 20, start, end, ahead))
                if end:
                    phases[end][ahead in "sn"].append(name)
    times = "least = 5\ngreatest = 40\nyellow = 3\nclear = 2\nloss = 2\nwait = 300\nskip = false\n"
    nodes = "".join(
        f'[[node]]\nname = "n{x}_{y}"\n' + "".join(f"[[node.phase]]\n{times}links = {list(names)}\n" for names in phases[x, y]) for x, y in places
    )
    return f"version = 2\n[run]\nstep = {STEP}\nlook = 60\ngap = 2\nrounds = {rounds}\n" + nodes.replace("'", '"') + "".join(links)


def link_text(name, travel, start, end, ahead):
    """A link, of which a half goes straight on and the rest to either side."""
    ends = [f'{key} = "n{at[0]}_{at[1]}"\n' for key, at in (("from", start), ("to", end)) if at]
    shares = zip(SIDES[ahead], (501, 250, 249)) if end else ()
    turns = [f'[[link.turn]]\nexit = "n{end[0]}_{end[1]}{way}"\nshare = {share}\n' for way, share in shares]
    return f'[[link]]\nname = "{name}"\ntravel = {travel}\nsat = 500\nweight = 1\n' + "".join(ends + turns)


def entering(network, seconds):
    """Vehicles on each link from outside, on some more than can leave it."""
    sources = [link.name for link in network.links if link.start is None]
    rows = [f"{second},{name},{1000 + second}" for at, name in enumerate(sources) for second in range(at % 7, seconds, 3 + at % 11)]
    return "\n".join(["second,link,amount", *rows, ""])


def tables(report):
    """The numbers of the links of a report."""
    return [(link.entered, link.left, link.delay) for link in report.links]


class DistrictsTest(FilesTest):
    def ring(self):
        """The stand-in, over the network of the test."""
        return contextlib.nullcontext(Ring(read_network(self.folder / "network.toml")))

    def report(self, size, network, arrivals, decider=None, **more):
        """The report of a run with this many ranks, each in a thread."""
        options = Namespace(**{"network": network, "arrivals": arrivals, "cut": None, "greens": True, "times": False} | more)
        texts, faults = {}, []

        def work(ranks):
            try:
                with (decider or self.ring)() as asked:
                    texts[ranks.rank] = "".join(f"{line}\n" for line in command.run_district(options, asked, ranks))
            except (Fault, SystemExit) as fault:
                faults.append(fault)
                with contextlib.suppress(Fault, SystemExit):
                    ranks.stop()

        threads = [threading.Thread(target=work, args=(ranks,)) for ranks in (Threads.of(size) if size > 1 else [Alone()])]
        for thread in threads:
            thread.start()
        for thread in threads:
            thread.join()
        for fault in sorted(faults, key=lambda fault: "has stopped" in str(fault)):
            if isinstance(fault, Fault):
                raise fault
        self.assertEqual({rank: text for rank, text in texts.items() if text and rank}, {})
        return texts[0]

    def test_a_city(self):
        path = self.file(city(3, 40), "network.toml")
        network = read_network(path)
        arrivals = self.file(entering(network, 150), "arrivals.csv")
        alone = self.report(1, path, arrivals)
        report = records_of_report("report", alone)
        flows = flows_of_greens(network, read_arrivals(arrivals), report.greens)
        self.assertEqual(tables(report), [(flow.entered[-1], flow.left[-1], flow.delay) for flow in flows.values()])
        self.assertGreater(report.totals.left, 100_000)
        self.assertGreater(min(link.entered for link in report.links), 0)
        for size in (2, 4, 11):
            self.assertEqual(self.report(size, path, arrivals), alone)
        rows = [f"{node.name},{place % 3}" for place, node in enumerate(network.nodes)]
        cut = self.file("\n".join(["node,rank", *rows, ""]), "cut.csv")
        self.assertEqual(self.report(3, path, arrivals, cut=cut), alone)
        totals = self.report(2, path, arrivals, greens=False).splitlines()
        self.assertEqual(totals, [line for line in alone.splitlines() if not line.startswith("green")])

    def test_a_junction_with_all_kinds_of_links(self):
        """Links that give way, that are green in several phases, and on which people walk."""
        text = (EXAMPLES / "real_junction.toml").read_text()
        path, arrivals = self.file(text, "network.toml"), EXAMPLES / "real_junction.csv"
        report = records_of_report("report", self.report(2, path, arrivals))
        flows = flows_of_greens(read_network(path), read_arrivals(arrivals), report.greens)
        self.assertEqual(tables(report), [(flow.entered[-1], flow.left[-1], flow.delay) for flow in flows.values()])

    def test_what_is_refused(self):
        path, arrivals = self.file(NETWORK, "network.toml"), self.file(ARRIVALS, "arrivals.csv")
        short = self.file(NETWORK.replace("travel = 10", "travel = 4"), "short.toml")
        cases = [
            ({"network": short}, r'^link "ab" leads from district 0 to district 1 in 4 seconds, and a round has 5: '),
            ({"arrivals": self.file("second,link,amount\n0,ab,1000\n", "inner.csv")}, 'inner.csv: link "ab" comes from a node: '),
            ({"cut": self.folder / "none.csv"}, "none.csv: No such file"),
        ]
        for words, wanted in cases:
            with self.subTest(wanted), self.assertRaisesRegex(Fault, wanted):
                self.report(2, **{"network": path, "arrivals": arrivals} | words)
        self.assertRegex(self.report(1, short, arrivals), "total,,,1000,")

    def test_a_rank_that_stops(self):
        path, arrivals = self.file(NETWORK, "network.toml"), self.file(ARRIVALS, "arrivals.csv")
        with mock.patch.object(Ring, "turns", side_effect=Fault("serve: no memory")), self.assertRaisesRegex(Fault, "^serve: no memory$"):
            self.report(2, path, arrivals)

    def test_an_interrupt_stops_all_ranks(self):
        ranks = mock.Mock(stop=mock.Mock(side_effect=SystemExit(2)))
        with mock.patch.multiple(command, options_of=mock.Mock(), Serving=mock.MagicMock(), ranks_here=lambda: ranks, run_district=mock.Mock(side_effect=KeyboardInterrupt)):
            with contextlib.redirect_stderr(io.StringIO()) as said, self.assertRaises(SystemExit):
                command.work()
        self.assertEqual((ranks.stop.call_count, said.getvalue()), (1, "kolvunh: interrupted\n"))

    @unittest.skipUnless(program(), "no program is built")
    def test_the_program(self):
        for name in ("corridor", "real_junction"):
            path, arrivals = EXAMPLES / f"{name}.toml", EXAMPLES / f"{name}.csv"
            history = self.file(history_text(read_network(path), READ_FIRST), "history.csv")
            whole = run(["replay", path, arrivals, history], [program()]).text.splitlines(True)
            wanted = "".join(line for line in whole if not line.startswith(("step", "plan")))
            for size in (1, 2, 3):
                with self.subTest(name, size=size):
                    self.assertEqual(self.report(size, path, arrivals, lambda: Serving([program()], path)), wanted)


class CutTest(FilesTest):
    def test_blocks(self):
        network = read_network(self.file(city(3, 1)))
        self.assertEqual(list(blocks_of(network, 2).ranks.values()), [0, 0, 0, 0, 0, 1, 1, 1, 1])
        self.assertEqual(list(blocks_of(network, 4).ranks.values()), [0, 0, 0, 1, 1, 2, 2, 3, 3])
        self.assertEqual(len(set(blocks_of(network, 20).ranks.values())), 9)

    def test_which_district_has_a_link(self):
        network = read_network(self.file(NETWORK))
        cut = Cut({"a": 1, "b": 0})
        found = {link.name: (cut.source_of(link), cut.rank_of(link), cut.crosses(link)) for link in network.links}
        self.assertEqual(found["ab"], (1, 0, True))
        self.assertEqual(found["sa"], (1, 1, False))
        self.assertEqual([name for name, (_, _, crosses) in found.items() if crosses], ["ab", "ba"])
        require_travel(network, cut)

    def test_files(self):
        network = read_network(self.file(NETWORK))
        self.assertEqual(read_cut(self.file("node,rank\nb,0\na,1\n", "cut"), network, 2), Cut({"b": 0, "a": 1}))
        cases = {
            "a,0": 'cut: node "b" has no rank$',
            "a,0\na,0": 'cut:3: node "a" has a rank already$',
            "c,0": 'cut:2: node "c" is none of the network: is it a cut of another one',
            "a,2": 'cut:2: the rank of node "a" is 2, and there are 2, from 0 on$',
            "a,x": 'cut:2: the rank is "x", and has to be a whole number$',
        }
        for rows, wanted in cases.items():
            with self.subTest(rows), self.assertRaisesRegex(Fault, wanted):
                read_cut(self.file(f"node,rank\n{rows}\n", "cut"), network, 2)


class RanksTest(unittest.TestCase):
    def test_without_mpi4py(self):
        with mock.patch.dict("sys.modules", {"mpi4py": None}), mock.patch.dict(os.environ, clear=True):
            self.assertIsInstance(ranks_here(), Alone)
            os.environ["OMPI_COMM_WORLD_SIZE"] = "4"
            with self.assertRaisesRegex(Fault, "^mpi4py is not installed for .*, by which these processes would meet: "):
                ranks_here()

    def test_times(self):
        said = io.StringIO()
        network, arrivals = EXAMPLES / "corridor.toml", EXAMPLES / "corridor.csv"
        options = Namespace(network=network, arrivals=arrivals, cut=None, greens=False, times=True)
        with contextlib.redirect_stderr(said):
            list(command.run_district(options, Ring(read_network(network)), Alone()))
        self.assertRegex(said.getvalue(), r"^rank 0: 14 links, seconds deciding \d+\.\d, moving \d+\.\d, waiting \d+\.\d\n$")


if __name__ == "__main__":
    unittest.main()
