"""Tests of the lines of tables and keys in a TOML text."""

import unittest

from kolvunh.toml_lines import TomlLines

TEXT = """# a comment with a [header]
top.first = "[no header]" # 2
[run] # 3
"quoted key" = '''
[neither]
'''
list = [ # 7
  1,
  { a = "}", b.c = 2 }, # 9
]
[[node]]
[[node.phase]] # 12
least = 5
[[node.phase]] # 14
[node.phase.inner] # 15
x = 1
[[node]] # 17
phase = [{ least = 1 }, { least = 2 }] # 18
"""


class TomlLinesTest(unittest.TestCase):
    def test_lines(self):
        lines = TomlLines(TEXT)
        wanted = {
            ("top", "first"): 2,
            ("run",): 3,
            ("run", "quoted key"): 4,
            ("run", "list"): 7,
            ("run", "list", 0): 8,
            ("run", "list", 1, "b", "c"): 9,
            ("node", 0): 11,
            ("node", 0, "phase", 0): 12,
            ("node", 0, "phase", 0, "least"): 13,
            ("node", 0, "phase", 1): 14,
            ("node", 0, "phase", 1, "inner", "x"): 16,
            ("node", 1): 17,
            ("node", 1, "phase", 1, "least"): 18,
        }
        self.assertEqual({path: lines.line(path) for path in wanted}, wanted)
        self.assertIsNone(lines.newer)

    def test_what_has_no_line(self):
        lines = TomlLines(TEXT)
        self.assertEqual(lines.line(("node", 0, "phase", 0, "greatest")), 12)
        self.assertIsNone(lines.line(("link",)))
        self.assertEqual(TomlLines("a = 1\n[b\nc = 2\n").lines, {("a",): 1})

    def test_what_is_newer_than_toml_1_0(self):
        self.assertEqual(TomlLines("a = 1\nb = { c = 1,\n d = 2 }\n").newer, 2)
        self.assertEqual(TomlLines("a = 1\nb = { c = 1, }\n").newer, 2)
        self.assertEqual(TomlLines('a = "\\\\e"\nb = "\\e"\n').newer, 2)
        self.assertEqual(TomlLines("a = 07:32:00\nb = 07:32\n").newer, 2)
        self.assertIsNone(TomlLines('a = [1,\n 2,\n]\nb = """\n"""\n').newer)
