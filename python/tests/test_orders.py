"""Tests of kolvunh.orders. Histories are those of docs/FORMATS.md and docs/RULES.md, or written by hand."""

import contextlib
import io
import os
import random
import subprocess
import unittest
from collections import Counter
from unittest import mock

from kolvunh import orders
from kolvunh.networks import read_network
from kolvunh.records import rows_of

from .test_mistakes import program
from .worked import ARRIVALS, EXAMPLES, NETWORK, FilesTest, block

# What stands for the program: the delay is 1000 where node a acts first, 2000 where another does, and 7000 under actuated control.
PROGRAM = """#!/bin/sh
case $1 in
replay) node=$(sed -n '2s/step,,//;2s/,.*//p' "$4"); [ "$node" = a ] && delay=1000 || delay=2000 ;;
turns) delay=1000 ;;
*) delay=7000 ;;
esac
printf 'kind,round,node,x,y,z,w\\ntotal,,,1000,0,1000,%s\\n' "$delay"
"""


class CalledTest(FilesTest):
    """A test that calls commands of the package."""

    def called(self, main, *words):
        """What a command writes with these words, over the program that stands here for the true one."""
        program = self.file(PROGRAM, "program")
        program.chmod(0o755)
        out, settings = io.StringIO(), {"KOLVUNH_PROGRAM": f"'{program}'"}
        with mock.patch.dict(os.environ, settings), mock.patch("sys.argv", ["kolvunh", *map(str, words)]), contextlib.redirect_stdout(out):
            with self.assertRaises(SystemExit) as ended:
                main()
        self.assertEqual(ended.exception.code, 0)
        return out.getvalue()


class OrdersTest(CalledTest):
    def nodes_of(self, network, order, seed=1):
        """The nodes of a history, in the order of its steps."""
        return [row.fields[2] for row in rows_of("history", orders.history_text(network, order, seed), orders.HEADER)]

    def rounds_of(self, network, order, seed=1):
        """The same, round by round."""
        nodes, wide = self.nodes_of(network, order, seed), sum(map(sum, orders.steps_of(network).values()))
        return [nodes[at : at + wide] for at in range(0, len(nodes), wide)]

    def test_the_worked_network(self):
        network = read_network(self.file(NETWORK.replace("rounds = 4", "rounds = 1")))
        self.assertEqual(orders.steps_of(network), {"a": (1, 1), "b": (1, 1)})
        self.assertEqual(orders.history_text(network, orders.FORWARD), block("History file"))
        self.assertEqual(self.nodes_of(network, orders.BACKWARD), ["b", "b", "a", "a"])
        self.assertEqual(self.nodes_of(network, orders.READ_FIRST), ["a", "b", "a", "b"])

    def test_steps_of_a_street(self):
        # `second` reads first_second and third_second, and publishes second_first and second_third.
        network = read_network(EXAMPLES / "corridor.toml")
        self.assertEqual(orders.steps_of(network), {"first": (1, 1), "second": (2, 2), "third": (1, 1)})
        wanted = ["first", "second", "second", "third"]
        self.assertEqual(self.rounds_of(network, orders.READ_FIRST)[0], wanted + wanted)
        # An only junction has no steps, and one history alone, which is its header.
        alone = read_network(EXAMPLES / "junction.toml")
        self.assertEqual(orders.history_text(alone, orders.RANDOM), "kind,round,node,x,y,z,w\n")

    def test_each_order_is_lawful(self):
        network = read_network(EXAMPLES / "corridor.toml")
        wanted = Counter({"first": 2, "second": 4, "third": 2})
        for order in (orders.FORWARD, orders.BACKWARD, orders.READ_FIRST, orders.RANDOM):
            rounds = self.rounds_of(network, order)
            self.assertEqual((len(rounds), [Counter(nodes) for nodes in rounds]), (24, 24 * [wanted]))

    @unittest.skipUnless(program(), "no program is built")
    def test_the_program_replays_each_order(self):
        for name in ("corridor", "bus_lane"):
            files = [EXAMPLES / f"{name}.toml", EXAMPLES / f"{name}.csv"]
            for order in (orders.FORWARD, orders.BACKWARD, orders.READ_FIRST, orders.RANDOM):
                with self.subTest(name=name, order=order):
                    history = self.file(orders.history_text(read_network(files[0]), order), f"{name}_{order}.csv")
                    run = subprocess.run([program(), "replay", *files, history], capture_output=True, text=True, check=False)
                    self.assertEqual((run.returncode, run.stderr), (0, ""))
                    steps = [row.fields for row in rows_of("report", run.stdout, orders.HEADER) if row.fields[0] == "step"]
                    self.assertEqual([fields[2] for fields in steps], self.nodes_of(read_network(files[0]), order))
                    if order == orders.READ_FIRST:
                        self.assertEqual([fields[5] for fields in steps if fields[3] == "read"], [fields[1] for fields in steps if fields[3] == "read"])

    def test_random_orders_are_those_of_their_seeds(self):
        network = read_network(EXAMPLES / "corridor.toml")
        first = self.rounds_of(network, orders.RANDOM, 1)
        self.assertEqual(first, self.rounds_of(network, orders.RANDOM, 1))
        self.assertNotEqual(first, self.rounds_of(network, orders.RANDOM, 2))
        self.assertNotEqual(first[0], first[1])
        self.assertEqual(orders.round_of(orders.FORWARD, {"b": (1, 0), "a": (0, 2)}, random.Random(1)), ["b", "a", "a"])

    def test_the_range(self):
        files = self.file(NETWORK, "network.toml"), self.file(ARRIVALS, "arrivals.csv")
        said = self.called(orders.main, *files, "--count", 1, "--to", self.folder / "histories").splitlines()
        self.assertEqual(said[:2], ["forward           1.000", "backward          2.000"])
        self.assertRegex(said[4], r"^4 orders: 1\.000 to 2\.000, mean 1\.\d+$")
        self.assertEqual(said[5], "actuated          7.000")
        written = sorted(path.name for path in (self.folder / "histories").iterdir())
        self.assertEqual(written, ["backward.csv", "forward.csv", "random_1.csv", "read_first.csv"])


if __name__ == "__main__":
    unittest.main()
