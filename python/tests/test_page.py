"""Tests of kolvunh.page and kolvunh.places; what is drawn is asked of Chromium, where that is installed."""

import csv
import json
import math
import re
import shutil
import struct
import subprocess
import tomllib
import unittest
import zlib
from argparse import ArgumentTypeError
from html import unescape

from kolvunh import Fault, World, max_pressure, page, places, read_arrivals
from kolvunh.networks import network_of, read_network
from kolvunh.sides import sides_of

from .test_measures import HELD
from .worked import ARRIVALS, EXAMPLES, NETWORK, FilesTest

CHROMIUM = next(filter(None, map(shutil.which, ("chromium", "chromium-browser", "google-chrome"))), None)

# What a reader does: the wheel over the queues, the row of the second junction, the other report, the whole run.
DEEDS = """<script>
const place = find("queues"), box = place.getBoundingClientRect();
place.dispatchEvent(new WheelEvent("wheel", { deltaY: -1, clientX: box.left + 200, cancelable: true }));
document.body.dataset.zoomed = chosen.to - chosen.from;
find("table").querySelector("tr[data-node='1']").dispatchEvent(new MouseEvent("click", { bubbles: true }));
document.querySelectorAll("#reports input")[1].click();
place.dispatchEvent(new MouseEvent("dblclick"));
drawCharts();
drawTables();
document.body.dataset.after = [chosen.node, chosen.report, chosen.from, chosen.to].join(" ");
</script></body>"""


# The level of each junction, and then of each link
LEVELS = """<script>
const shown = () => [...find("table").querySelectorAll("tbody tr")].map((row) => row.querySelector(".level")?.textContent ?? "-").join("");
document.body.dataset.junctions = shown();
chosen.rows = "links";
drawTable();
document.body.dataset.links = shown();
</script></body>"""

# A page in a frame of 390 pixels; then how wide it is laid out, how many texts of its map cover another or are cut, and the text of its heads.
NARROW = """<!doctype html><body><iframe id="frame" style="width:390px;height:3000px;border:0"></iframe><script>
const frame = document.getElementById("frame");
frame.onload = () => setTimeout(() => {
  const page = frame.contentDocument, boxes = [...page.querySelectorAll("#map text")].map((text) => text.getBoundingClientRect());
  const cover = (a, b) => a.left < b.right - 1 && b.left < a.right - 1 && a.top < b.bottom - 4 && b.top < a.bottom - 4;
  document.body.dataset.wide = page.scrollingElement.scrollWidth;
  document.body.dataset.cut = boxes.filter((box) => box.left < 0 || box.right > 390).length;
  document.body.dataset.covered = boxes.filter((one, at) => boxes.slice(at + 1).some((other) => cover(one, other))).length;
  document.body.dataset.images = page.querySelectorAll("img, b b").length;
  document.body.dataset.fault = page.body.dataset.fault ?? "none";
}, 500);
frame.srcdoc = TEXT;
</script></body>"""


def rows_of_png(data: bytes) -> list[bytes]:
    """The rows of a PNG of 8 bits a colour without interlacing, three bytes a pixel."""
    at, parts = 8, {b"IHDR": b"", b"IDAT": b""}
    while at < len(data):
        (size,) = struct.unpack(">I", data[at : at + 4])
        kind = data[at + 4 : at + 8]
        parts[kind] = parts.get(kind, b"") + data[at + 8 : at + 8 + size]
        at += 12 + size
    wide, _, _, colour = struct.unpack(">IIBB", parts[b"IHDR"][:10])
    each, raw, rows = 4 if colour == 6 else 3, zlib.decompress(parts[b"IDAT"]), [b""]
    for begin in range(0, len(raw), 1 + wide * each):
        rows.append(unfiltered(raw[begin], raw[begin + 1 : begin + 1 + wide * each], rows[-1] or bytes(wide * each), each))
    return [row if each == 3 else bytes(byte for place, byte in enumerate(row) if place % 4 < 3) for row in rows[1:]]


def unfiltered(kind: int, row: bytes, above: bytes, each: int) -> bytes:
    """A row of a PNG without its filter."""
    made = bytearray(row)
    for at in range(len(row) if kind else 0):
        left, up, over = made[at - each] if at >= each else 0, above[at], above[at - each] if at >= each else 0
        guess = min((left, up, over), key=lambda one: abs(left + up - over - one))
        made[at] = (row[at] + (0, left, up, (left + up) // 2, guess)[kind]) & 255
    return bytes(made)


class PlacesTest(unittest.TestCase):
    def test_a_street_is_a_line(self) -> None:
        network = read_network(EXAMPLES / "corridor.toml")
        found = places.places_of(network)
        for name, wanted in (("first", -18), ("second", 0), ("third", 18)):
            self.assertAlmostEqual(found[name][0], wanted, 3)
            self.assertAlmostEqual(found[name][1], 0, 3)
        self.assertEqual(places.streets_of(network), [["first", "second", "third"]])
        self.assertEqual(places.distances_of(network)["first", "third"], 36)
        self.assertEqual(places.places_of(network, {"first": (0, 1)}), found)

    def test_a_long_street_is_a_line(self) -> None:
        street = "".join(f'[[node]]\nname = "n{n}"\nphase = []\n' for n in range(100))
        street += "".join(f'[[link]]\nname = "l{n}"\nfrom = "n{n}"\nto = "n{n + 1}"\ntravel = 10\nsat = 500\n' for n in range(99))
        found = places.places_of(network_of(tomllib.loads("[run]\nstep = 5\nlook = 60\ngap = 2\nrounds = 10\n" + street)))
        for n in range(100):
            self.assertAlmostEqual(found[f"n{n}"][0], 10 * n - 495, 3)
            self.assertAlmostEqual(found[f"n{n}"][1], 0, 3)

    def test_a_junction(self) -> None:
        network = read_network(EXAMPLES / "junction.toml")
        self.assertEqual(places.places_of(network), {"market": (0, 0)})
        self.assertEqual(places.streets_of(network), [["market"]])


class SidesTest(unittest.TestCase):
    def test_sides_by_turns_and_places(self) -> None:
        # From b, to the right of a, comes who turns into `w`: so `w` leads to the left, and who comes by `in1` and goes to b comes from there.
        links = [
            '[[link]]\nname = "in1"\nto = "a"\ntravel = 9\nsat = 500\nturn = [{ exit = "ab", share = 900 }, { exit = "out2", share = 100 }]\n',
            '[[link]]\nname = "ab"\nfrom = "a"\nto = "b"\ntravel = 9\nsat = 500\nturn = []\n',
            '[[link]]\nname = "ba"\nfrom = "b"\nto = "a"\ntravel = 9\nsat = 500\nturn = [{ exit = "out1", share = 1000 }]\n',
            '[[link]]\nname = "out1"\nfrom = "a"\ntravel = 9\nsat = 500\n',
            '[[link]]\nname = "out2"\nfrom = "a"\ntravel = 9\nsat = 500\n',
        ]
        nodes = "".join(f'[[node]]\nname = "{name}"\nphase = []\n' for name in "ab")
        network = network_of(tomllib.loads("[run]\nstep = 5\nlook = 60\ngap = 2\nrounds = 10\n" + nodes + "".join(links)))
        where = {"a": (0.0, 0.0), "b": (10.0, 0.0)}
        found = sides_of(network, where, {})
        self.assertEqual([round(math.degrees(found[name])) % 360 for name in ("in1", "out1")], [180, 180])
        self.assertIn(round(math.degrees(found["out2"])) % 360, (90, 270))
        found = sides_of(network, where, {"in1": (0.0, 5.0)})
        self.assertEqual(round(math.degrees(found["in1"])), 90)


class PageTest(FilesTest):
    def page(self, *words: str) -> str:
        files = [str(self.file(text, name)) for name, text in (("network.toml", NETWORK), ("arrivals.csv", ARRIVALS), ("held.csv", HELD))]
        return page.answer([*files[:2], f"held={files[2]}", files[2], *words])

    def test_data(self) -> None:
        text = self.page("--title", "</script>&", "--place", "a=0,1", "--place", "b=2,3")
        data = json.loads(re.search(r'<script id="data"[^>]*>(.*?)</script>', text)[1])
        self.assertEqual((data["title"], data["seconds"], data["streets"]), ("</script>&", 20, [[0, 1]]))
        self.assertEqual([(node["x"], node["y"]) for node in data["nodes"]], [(0, -1), (2, -3)])
        report = data["reports"][0]
        self.assertEqual((report["name"], report["greens"][0], report["none"]), ("held", [[0, 0, 10], [1, 15, 45]], None))
        # One vehicle enters `sa` in second 0, and leaves it by halves in the seconds 17 and 18.
        self.assertEqual((report["entered"][0], report["left"][0]), ([1000, 1], [0, 17, 500, 2]))
        self.assertNotIn("http", text.replace("http://www.w3.org/2000/svg", ""))

    def test_faults(self) -> None:
        with self.assertRaisesRegex(Fault, '"b"'):
            self.page("--place", "a=0,0")
        with self.assertRaises(ArgumentTypeError):
            page.place_of("a=0")

    def test_places_of_a_file(self) -> None:
        places = self.file("kind,name,x,y\nnode,a,0,1\nnode,b,2,3\nlink,sa,0,9\n", "places.csv")
        data = json.loads(re.search(r'<script id="data"[^>]*>(.*?)</script>', self.page("--places", str(places)))[1])
        self.assertEqual([(node["x"], node["y"]) for node in data["nodes"]], [(0, -1), (2, -3)])
        self.assertEqual(next(link["side"] for link in data["links"] if link["name"] == "sa"), round(-math.pi / 2, 3))
        for row, said in (("node,a,0,x", "2: x and y have to be numbers"), ("node,a,0,1e308", "2: x and y"), ("road,a,0,1", '2: the kind is "road"')):
            with self.assertRaisesRegex(Fault, said):
                self.page("--places", str(self.file(f"kind,name,x,y\n{row}\n", "places")))

    @unittest.skipUnless(CHROMIUM, "Chromium is not installed")
    def test_a_narrow_page_with_odd_names(self) -> None:
        text = self.odd_page()
        made = self.dom(NARROW.replace("TEXT", json.dumps(text).replace("</", "<\\/")))
        body = re.search(r"<body([^>]*)>", made)[1]
        self.assertLessEqual(int(re.search(r'data-wide="(\d+)"', body)[1]), 390)
        for said in ('data-cut="0"', 'data-covered="0"', 'data-images="0"', 'data-fault="none"'):
            self.assertIn(said, body)

    @unittest.skipUnless(CHROMIUM, "Chromium is not installed")
    def test_a_link_to_which_more_comes_than_leaves(self) -> None:
        # As in test_measures: five vehicles wait 8.5 seconds each, and 1.5 may leave. A junction goes by seconds alone.
        greens = "kind,round,node,x,y,z,w\ngreen,,a,0,0,7,\ngreen,,a,1,12,17,\n"
        texts = {"network.toml": NETWORK, "arrivals.csv": "second,link,amount\n0,sa,5000\n", "short.csv": greens}
        made = self.dom(page.answer([str(self.file(text, name)) for name, text in texts.items()]).replace("</body>", LEVELS))
        body = re.search(r"<body([^>]*)>", made)[1]
        for said in ('data-junctions="A-"', 'data-links="F---"'):
            self.assertIn(said, body)

    def odd_page(self) -> str:
        """The page of a street whose names have quotes and tags, with three reports."""
        odd = '"><img src onerror><b>it\'s</b>'
        network = (EXAMPLES / "corridor.toml").read_text().replace('"second"', json.dumps("<b>'second'</b>")).replace('"second_third"', json.dumps(odd))
        files = [self.file(network, "odd.toml"), EXAMPLES / "corridor.csv"]
        world = World(read_network(files[0]), read_arrivals(files[1]))
        world.run(max_pressure)
        report = self.folder / "report.csv"
        with report.open("w", newline="") as file:
            csv.writer(file).writerows(csv.reader(world.report_text().replace(odd, json.dumps(odd).replace('\\"', '""')).splitlines()))
        return page.answer([*map(str, files), f"{odd}={report}", f"b={report}", f"c={report}", "--title", odd])

    @unittest.skipUnless(CHROMIUM, "Chromium is not installed")
    def test_pictures(self) -> None:
        # Nothing is drawn at the right edge, and the map has the colours of its levels, whose letters are read by people alone.
        shown = self.file(self.odd_page(), "shown.html").as_uri()
        for wide, high in ((1440, 400), (390, 600)):
            frame = f'<!doctype html><body style="margin:0"><iframe src="{shown}" style="width:{wide}px;height:{high}px;border:0"></iframe>'
            rows = self.picture(frame, max(500, wide), high)
            self.assertEqual({row[3 * wide - 12 : 3 * wide] for row in rows}, {b"\xff" * 12})
            levels = {bytes.fromhex(colour) for colour in ("1a9850", "91cf60", "d9ef8b", "fee08b", "fc8d59", "d73027")}
            found = {row[at : at + 3] for row in rows[250:] for at in range(0, 3 * wide, 3)}
            self.assertEqual(found & levels, levels, wide)  # the key has them all

    def picture(self, text: str, wide: int, high: int) -> list[bytes]:
        """The rows of a picture of a page, three bytes a pixel."""
        image = self.folder / "image.png"
        flags = ["--allow-file-access-from-files", "--hide-scrollbars", f"--window-size={wide},{high}", f"--screenshot={image}"]
        self.chromium(text, *flags)
        return rows_of_png(image.read_bytes())

    def dom(self, text: str) -> str:
        """The page as Chromium makes it."""
        return self.chromium(text, "--window-size=1400,1000", "--dump-dom")

    def chromium(self, text: str, *more: str) -> str:
        """What Chromium writes of a page, called with these words."""
        flags = ["--headless", "--no-sandbox", "--disable-gpu", "--virtual-time-budget=5000", *more]
        words = [CHROMIUM, *flags, f"--user-data-dir={self.folder / 'profile'}", self.file(text, "page.html").as_uri()]
        return subprocess.run(words, capture_output=True, text=True, check=True, timeout=60).stdout

    @unittest.skipUnless(CHROMIUM, "Chromium is not installed")
    def test_in_a_browser(self) -> None:
        made = self.dom(self.page().replace("</body>", DEEDS))
        body = re.search(r"<body([^>]*)>", made)[1]
        self.assertNotIn("data-fault", body)
        for said in ('data-ready="yes"', 'data-zoomed="16"', 'data-after="1 1 0 20"'):
            self.assertIn(said, body)
        self.assertEqual(len(re.findall(r'<svg viewBox="0 0 \d', made)), 6)
        sides = re.search(r'<div id="sides"[^>]*>(.*?)</table>', made)[1]
        rows = [re.findall("<td[^>]*>(.*?)</td>", row) for row in sides.split("<tr>")[2:]]
        found = {row[0]: unescape(re.sub("<[^>]*>", "", row[1])) for row in rows}
        # By hand in test_measures: one vehicle that waits 7.5 seconds; two other links have none.
        self.assertEqual(found["delay at each stop line, s"], "7.5 A")
        self.assertEqual(found["all queues, 50 / 95 / most"], "0.0 / 1.0 / 1.0")
        self.assertEqual((found["come on green"], found["split failures"]), ("0 %", "0 of 1"))
        self.assertEqual(page.part_of("page.js").count("</script"), 0)
