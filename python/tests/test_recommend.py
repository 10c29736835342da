"""Tests of the command `recommend`, over a program whose delays are known."""

import contextlib
import io
from dataclasses import replace

from kolvunh import Fault, recommend
from kolvunh.networks import read_network

from .test_orders import CalledTest
from .test_signs import NETWORK as OVERLAPS
from .worked import ARRIVALS, EXAMPLES, NETWORK

# A vehicle loses 9 seconds, with `split` 5, with an `age` of 20 one less, with a `hold` of 2 half a second more.
PROGRAM = """#!/bin/sh
delay=9000
grep -q '^split = true' "$2" && delay=5000
grep -q '^age = 20' "$2" && delay=$((delay - 1000))
grep -q '^hold = 2' "$2" && delay=$((delay + 500))
[ "$1" = actuate ] && delay=6000
printf 'kind,round,node,x,y,z,w\\ntotal,,,1000,0,1000,%s\\n' "$delay"
"""
LINES = """# 2 draws of arrivals.csv, of network.toml: seconds for each vehicle, what was gained
# actuated control            6.0 ± 0.0
# as it is                    9.0 ± 0.0
# split = true                5.0 ± 0.0  4.0 ± 0.0   stays
# age = 20                    4.0 ± 0.0  1.0 ± 0.0   stays
# age = 40                    5.0 ± 0.0  -1.0 ± 0.0  does not stay
# hold = 2                    4.5 ± 0.0  -0.5 ± 0.0  does not stay
# hold = 4                    4.0 ± 0.0  0.0 ± 0.0   does not stay
# rate = 600                  4.0 ± 0.0  0.0 ± 0.0   does not stay
# step = 2                    4.0 ± 0.0  0.0 ± 0.0   does not stay
# gap = 0                     4.0 ± 0.0  0.0 ± 0.0   does not stay
# gap = 2                     4.0 ± 0.0  0.0 ± 0.0   does not stay
# step = 2, hold = 4, gap = 0 4.0 ± 0.0  0.0 ± 0.0   does not stay
# without split               8.0 ± 0.0  -4.0 ± 0.0  does not stay
[run]
"""
# Files that are refused: what the worked ones have in place of something, and what is said
BAD_NETWORKS = (
    (NETWORK, "", "a table has no key 'run'"),
    ("[run]", "[run", "Expected ']'"),
    ("gap = 1", "", "a table has no key 'gap'"),
    ('links = ["ba"]', "links = 1", "a key has a value of another kind"),
    ("share = 1000", "part = 1000", "a table has no key 'share'"),
)
BAD_ARRIVALS = (
    (ARRIVALS, "", "the file is empty, and has to begin with second,link,amount"),
    ("second,link", "time,link", 'the header is "time,link,amount"'),
    ("0,sa,1000", "0,sa", ":2: the row has 2 fields, and has to have 3"),
    ("0,sa,1000", "0,sa,one", ':2: the amount is "one", and has to be a whole number'),
    ("0,sa,1000", "0,sx,1000", 'link "sx" is none of the network'),
    ("0,sa,1000\n", "", "there are no arrivals"),
)


class RecommendTest(CalledTest):
    def test_the_command(self) -> None:
        program = self.file(PROGRAM, "tried")
        program.chmod(0o755)
        files = self.file(NETWORK, "network.toml"), self.file(ARRIVALS, "arrivals.csv")
        words = [*map(str, files), "--seeds", "2", "--program", str(program)]
        with contextlib.redirect_stderr(io.StringIO()) as err:
            said = [recommend.answer(words) for _ in range(2)]
        self.assertEqual(said[0], said[1])
        self.assertEqual([" ".join(line.split()) for line in said[0].splitlines()[:15]], [" ".join(line.split()) for line in LINES.splitlines()])
        self.assertIn("recommend: 9.0 ± 0.0 s for each vehicle as it is, 4.0 with what stays", err.getvalue())
        better, before = read_network(self.file(said[0], "better.toml")), read_network(files[0])
        self.assertEqual(better, replace(before, run=replace(before.run, split=True, age=20)))

    def test_changes_of_a_network(self) -> None:
        network = read_network(self.file(OVERLAPS, "network.toml"))
        self.assertEqual(recommend.with_recall(network).run.recall, 60)
        free = recommend.with_free_rings(network)
        self.assertTrue(all(phase.skip for node in free.nodes for phase in node.phases))
        self.assertIsNone(recommend.with_free_rings(free))
        short = recommend.with_step(read_network(EXAMPLES / "corridor.toml"), 2)
        self.assertEqual((short.run.step, short.run.rounds, short.run.act_step), (2, 60, 1))
        self.assertIsNone(recommend.with_step(short, 7))
        # 1200 rounds are more than a file without a version may have.
        long = replace(short, run=replace(short.run, step=4, rounds=600))
        self.assertEqual((recommend.with_step(long, 2).version, recommend.with_step(long, 2).run.rounds), (3, 1200))

    def test_what_is_a_gain(self) -> None:
        # The mean is 1; the standard error of 0 and 2 is 1, and of 0.5 and 1.5 it is a half.
        self.assertFalse(recommend.is_gain([0, 2]))
        self.assertTrue(recommend.is_gain([0.5, 1.5]))
        self.assertTrue(recommend.is_gain([0.1]))

    def test_what_is_refused(self) -> None:
        for bad, texts in ((BAD_NETWORKS, (NETWORK, ARRIVALS)), (BAD_ARRIVALS, (ARRIVALS, NETWORK))):
            for there, here, words in bad:
                files = [self.file(texts[0].replace(there, here), "one"), self.file(texts[1], "other")]
                with self.assertRaises(Fault) as fault:
                    recommend.answer([*map(str, files if texts[0] == NETWORK else files[::-1]), "--program", "false"])
                self.assertIn(words, str(fault.exception))
        for words in (["--passes", "0"], ["--minutes", "-1"], ["--demand", "0"]):
            with self.assertRaises(SystemExit) as ended, contextlib.redirect_stderr(io.StringIO()):
                recommend.answer([str(self.file(NETWORK, "net")), str(self.file(ARRIVALS, "arr")), *words])
            self.assertEqual(ended.exception.code, 2)


if __name__ == "__main__":
    import unittest

    unittest.main()
