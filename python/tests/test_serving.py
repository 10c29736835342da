"""Tests of kolvunh.serving, over a program that only pretends."""

import unittest

from kolvunh import Fault
from kolvunh.serving import HEADER, Refused, Serving

from .worked import FilesTest

# What stands for the program: of each node that is asked for it tells how many rows the state has; it refuses one of second 99, and ends at 98.
# The lines that it read are in the file network.toml.asked.
PROGRAM = """#!/usr/bin/env python3
import sys

state, asked = [], open(sys.argv[2] + ".asked", "w")
for line in sys.stdin:
    print(line, end="", file=asked, flush=True)
    word, *names = line.rstrip("\\n").split(",")
    if word not in ("end", "next"):
        state.append(line)
    elif "now,,98,,\\n" in state:
        sys.exit("signal: no memory")
    elif "now,,99,,\\n" in state:
        print("refused,signal: bad 2 time 1\\nend", flush=True)
        state = []
    else:
        print("".join(f"kind,name,x,y,z\\nplan,{name},{len(state)},0,\\n" for name in names or ["all"]) + "end", flush=True)
        state = []
"""


class ServingTest(FilesTest):
    def serving(self, text=PROGRAM):
        path = self.file(text, "program")
        path.chmod(0o755)
        return Serving([str(path)], self.folder / "network.toml")

    def test_requests(self):
        with self.serving() as serving:
            self.assertEqual(serving.turns("now,,0,,\n", ["a", "b"]), [f"{HEADER}\nplan,{name},1,0,\n" for name in "ab"])
            with self.assertRaisesRegex(Fault, "^serve: signal: bad 2 time 1$"):
                serving.turns("now,,99,,\n", ["a"])
            self.assertEqual(serving.decide("now,,5,,\nplan\n" * 100_000), f"{HEADER}\nplan,all,200000,0,\n")
            with self.assertRaisesRegex(Fault, "^serve: it answered 1 node of 0$"):
                serving.turns("now,,5,,\n", [])
            with self.assertRaisesRegex(Fault, "^serve: it ended with status 1: signal: no memory$"):
                serving.decide("now,,98,,\n")

    def test_what_was_told_last(self):
        with self.serving() as serving:
            self.assertIsNone(serving.told)
            serving.decide("now,,0,,\n")
            self.assertEqual(serving.decide_next("now,,5,,\nqueue\n"), f"{HEADER}\nplan,all,2,0,\n")
            self.assertEqual(serving.told, "plan,all,2,0,\n")
            serving.turns("now,,10,,\n", ["a"])
            with self.assertRaises(Refused):
                serving.decide_next("now,,99,,\n")
            self.assertEqual(serving.told, "plan,all,2,0,\n")
        asked = (self.folder / "network.toml.asked").read_text()
        self.assertEqual(asked, "now,,0,,\nend\nnow,,5,,\nqueue\nnext\nnow,,10,,\nend,a\nnow,,99,,\nnext\n")

    def test_a_program_that_ends(self):
        wanted = "^serve: it ended with status 3: signal: bad 1 toml$"
        with self.serving("#!/bin/sh\necho 'signal: bad 1 toml' >&2\nexit 3\n") as serving, self.assertRaisesRegex(Fault, wanted):
            serving.turns("now,,0,,\n" * 100_000, ["a"])
        with self.assertRaisesRegex(Fault, "^the program can't be run: "):
            Serving([str(self.folder / "none")], self.folder)


if __name__ == "__main__":
    unittest.main()
