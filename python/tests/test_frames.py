"""Tests of the columns of frames, and of the frames where pandas is installed."""

import importlib.util
import unittest

from kolvunh import frame_of
from kolvunh.answers import WaitBounds
from kolvunh.frames import columns_of
from kolvunh.reports import LinkTotals, Plan


class FramesTest(unittest.TestCase):
    def test_one_unit_and_no_objects(self):
        plans = columns_of([Plan(0, "a", {"ba": 2, "sa": 1}, 1500, (1, 0)), Plan(1, "a", {}, None, ())])
        self.assertEqual(plans["round"], ([0, 1], "int64"))
        self.assertEqual(plans["delay"], ([1.5, None], "float64"))
        self.assertEqual(plans["versions"], (["ba=2;sa=1", ""], "string"))
        self.assertEqual(plans["sequence"], (["10", ""], "string"))
        self.assertEqual(columns_of([LinkTotals("sa", 2000, 500, 7500)])["left"], ([0.5], "float64"))
        self.assertEqual(columns_of([]), {})

    def test_words_beside_numbers(self):
        columns = columns_of([WaitBounds("a", 0, 388, "none"), WaitBounds("a", 1, "marked", 40)])
        self.assertEqual(columns["planned"], ([388, None], "Int64"))
        self.assertEqual(columns["planned_word"], ([None, "marked"], "string"))
        self.assertEqual(columns["fixed"], ([None, None], "string"))

    @unittest.skipUnless(importlib.util.find_spec("pandas"), "pandas is not installed")
    def test_a_frame(self):
        frame = frame_of([Plan(0, "a", {}, 1500, (1, 0)), Plan(1, "a", {}, None, ())])
        self.assertEqual([str(kind) for kind in frame.dtypes if kind == object], [])


if __name__ == "__main__":
    unittest.main()
