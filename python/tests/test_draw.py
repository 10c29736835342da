"""Tests of the pictures."""

import contextlib
import io
import subprocess
import sys
import unittest
import xml.etree.ElementTree as ElementTree
from unittest import mock

from kolvunh import draw
from kolvunh.queues import read_queues

from .worked import EXAMPLES, ROOT, FilesTest

# The queues of the worked network of docs/FORMATS.md, "Queues": a vehicle enters `sa` in second 0.
QUEUES = """second,link,queue,on
1,sa,0,1000
11,sa,1000,1000
18,sa,500,500
18,ab,0,500
19,sa,0,0
19,ab,0,1000
most,sa,1000,11
most,ab,0,0
"""
SVG = "http://www.w3.org/2000/svg"
REPORT = "kind,round,node,x,y,z,w\ngreen,,first,0,0,23,\ngreen,,first,1,28,35,\ngreen,,second,0,0,130,\n"


class DrawTest(FilesTest):
    def test_what_entered(self):
        series = draw.series_of(read_queues(self.file(QUEUES)))
        self.assertEqual(draw.entries_of(series["sa"], 10, 20), {0: 1000})
        self.assertEqual(draw.entries_of(series["ab"], 10, 20), {17: 500, 18: 500})

    def drawn(self, *words):
        options = draw.parser_of().parse_args([str(word) for word in words])
        return options.draw(options)

    def test_greens(self):
        files = EXAMPLES / "corridor.toml", self.file(REPORT, "report")
        self.assertEqual(self.drawn("greens", *files).splitlines()[1], "first  1 " + 28 * "." + 7 * "#" + 85 * ".")
        # From second 18 to 38: the ruler names the seconds 20 and 30 over their places, the third and the thirteenth.
        lines = self.drawn("greens", *files, "--ruler", "--from", 18, "--to", 38).splitlines()
        self.assertEqual(lines[:2], ["second     20        30", "           |    '    |    '"])
        self.assertEqual(lines[2:4], ["first  0 #####" + 15 * ".", "first  1 " + 10 * "." + 7 * "#" + "..."])

    def test_what_links_show(self):
        # Phase 0 from 0 to 26 with its links and the left turns beside, which give way; then the change to phase 1, in which these stay green.
        report = "kind,round,node,x,y,z,w\ngreen,,station,0,0,20,\ngreen,,station,1,27,32,\ngreen,,station,2,37,47,\n"
        files = EXAMPLES / "real_junction.toml", self.file(report, "report")
        lines = {line.split()[0]: line[14:] for line in self.drawn("greens", *files, "--to", 50).splitlines() if line.startswith("  ")}
        self.assertEqual(lines["north"], 20 * "#" + "----" + 26 * ".")
        self.assertEqual(lines["north_left"], 20 * "+" + 12 * "#" + "---" + 15 * ".")
        self.assertEqual(lines["east_right"], 27 * "." + 20 * "#" + "---")
        self.assertEqual(lines["south_right"], 7 * "+" + 13 * "#" + "----" + 26 * ".")
        self.assertEqual(lines["walk_east"], 7 * "#" + 8 * "-" + 35 * ".")
        self.assertEqual(lines["walk_south"], 50 * ".")

    def test_links_where_asked(self):
        files = EXAMPLES / "corridor.toml", self.file(REPORT, "report")
        lines = self.drawn("greens", *files, "--links", "--to", 30).splitlines()
        self.assertEqual(lines[0], "first  0       " + 23 * "#" + 7 * ".")
        self.assertEqual(lines[2], "  west_in      " + 23 * "#" + "---" + 4 * ".")
        self.assertEqual(len(lines), 6 + 9)

    def test_pictures_are_xml(self):
        window = ("--from", 10, "--to", 19, "--title", "a & b")
        queues = self.drawn("queues", self.file(QUEUES), *window)
        street = self.drawn("street", EXAMPLES / "corridor.toml", self.file(REPORT, "report"), "first=0", "second=250", *window)
        points = self.drawn("points", self.file("series,x,y\na,1,2\na,1,4\n", "points"), "--title", "a & b")
        for picture in (queues, street, points):
            root = ElementTree.fromstring(picture)
            self.assertTrue(root.tag.endswith("svg"))
            self.assertIn("a & b", [text.text for text in root.iter(f"{{{SVG}}}text")])
        self.assertIn("250 m", street)
        self.assertIn("seconds since the begin of the run", queues)

    def test_ticks(self):
        self.assertEqual(draw.ticks(4.5), [0, 0.5, 1, 1.5, 2, 2.5, 3, 3.5, 4, 4.5])
        self.assertEqual(draw.ticks(120)[-1], 120)
        self.assertEqual(draw.ticks(1e14)[-1], 10**14)
        self.assertEqual(draw.ticks(480, 305), [320, 340, 360, 380, 400, 420, 440, 460, 480])

    def test_faults_in_one_line(self):
        net, report = EXAMPLES / "corridor.toml", self.file(REPORT, "report")
        other = self.file(REPORT.replace("first", "sixth"), "other")
        odd = self.file(net.read_text(encoding="utf-8").replace('links = ["side_first"]', 'links = ["xx"]'), "odd")
        for words, said in (
            (("greens", net, self.folder / "none"), "none: No such file or directory"),
            (("greens", net, other), "which the network has not: is it of another network?"),
            (("greens", report, report), "report: Expected '=' after a key in a key/value pair (at line 1, column 5)"),
            (("greens", odd, report), "odd: this network can't be used here"),
            (("greens", net, report, "--from", "120"), "from second 120 to 120 there is nothing to draw: the run goes from 0 to 120"),
            (("street", net, report, "first=0", "sixth=9"), '"sixth=9": the network has no node "sixth"'),
            (("street", net, report, "first=0", "second"), 'is no number of metres; the form is NODE=METRES'),
            (("queues", self.file(QUEUES, "queues"), "xx"), 'queues: there is no link "xx"'),
            (("queues", self.file("second,link\n", "short")), 'short:1: the header is "second,link", and has to be second,link,queue,on'),
            (("points", self.file("series,x,y\na,1,b\n", "points")), 'points:2: x and y have to be numbers, and are "1,b"'),
            (("points", self.file("series,x,y\na,1,nan\n", "nan")), 'nan:2: x and y have to be numbers, and are "1,nan"'),
        ):
            err = io.StringIO()
            with mock.patch.object(sys, "argv", ["draw", *map(str, words)]), contextlib.redirect_stderr(err):
                with self.assertRaises(SystemExit) as ended:
                    draw.main()
            self.assertEqual((ended.exception.code, err.getvalue().count("\n")), (2, 1), err.getvalue())
            self.assertIn(said, err.getvalue())

    def test_a_reader_that_ends_early(self):
        command = f"'{sys.executable}' '{ROOT}/tools/draw.py' greens '{EXAMPLES}/corridor.toml' '{self.file(REPORT)}'"
        run = subprocess.run(["sh", "-c", f"{{ {command}; echo $? >&2; }} | :"], capture_output=True, text=True, check=False)
        self.assertIn(run.stderr, ("0\n", "kolvunh: standard output was closed before all was written\n2\n"))


if __name__ == "__main__":
    unittest.main()
