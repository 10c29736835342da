"""Tests of the pages: what they lead to is there, each command is listed, and what they count is counted right."""

import re
import sys
import unittest
from collections.abc import Iterator
from functools import cache
from pathlib import Path
from unittest.mock import patch

import definitions
from crates import ROOT, at_or_below, crate_lines

PAGES = sorted(path for place in (".", "docs", "examples", "bench", "tools/sumo") for path in (ROOT / place).glob("*.md"))
SOURCES = ("crates/*/src/**/*.rt", "crates/*/specs/*.antt", "tools/*.py", "python/**/*.py", "bench/*.py")
LINK = re.compile(r"\[[^\]\n]*\]\(([^)\s]+)\)((?:,\s+(?:\"[^\"]+\"|sections?\s+\d+(?:(?:,\s+\d+)*\s+and\s+\d+)?))*)")
HEADING = re.compile(r"^#+ (.+)$", re.M)
PLACE = re.compile(r"`((?:crates|docs|tools|python|bench|examples|\.ci)/[\w./-]+)`")
# A file of specs with the definitions named after it, up to the end of the sentence; a file without a crate is of the crate before it.
CITED = re.compile(r"`(?:crates/(\w+)/specs/)?(\w+)\.antt`((?:,?\s+(?:and\s+)?`(?!\w+\.antt`)[^`/]+`)*)")


def without_code(text: str) -> str:
    """A page without its blocks of code."""
    return re.sub(r"(?m)^(?: {4}|\t).*$", "", re.sub(r"(?ms)^```.*?^```$", "", text))


@cache
def text_of(page: Path) -> str:
    return page.read_text(encoding="utf-8")


@cache
def house() -> definitions.House:
    """All definitions of the repository."""
    return definitions.House()


@cache
def headings(page: Path) -> list[str]:
    return [heading.replace("`", "") for heading in HEADING.findall(without_code(text_of(page)))]


def dead_links(page: Path) -> Iterator[str]:
    """The links of a page that lead nowhere, with the sections that are named after them."""
    for target, sections in LINK.findall(without_code(text_of(page))):
        file, _, anchor = target.partition("#")
        if "://" in file:
            continue
        path = (page.parent / file).resolve() if file else page
        if not path.exists():
            yield target
        elif path.suffix == ".md":
            there = headings(path)
            if anchor and f"#{anchor}" not in map(definitions.anchor_of, there):
                yield target
            numbers = [number for part in re.findall(r"sections?\s+([\d,\sand]+)", sections) for number in re.findall(r"\d+", part)]
            yield from (f"{target}, section {number}" for number in numbers if not any(name.startswith(f"{number}. ") for name in there))
            names = [re.sub(r"\s+", " ", name) for name in re.findall(r'"([^"]+)"', sections)]
            titles = [re.sub(r"^\d+\. ", "", heading) for heading in there]
            yield from (f'{target}, "{name}"' for name in names if name not in titles and f"**{name}" not in text_of(path))


def dead_sections(source: str) -> Iterator[str]:
    """The sections of pages that a source names and that are not there."""
    text = re.sub(r"\n\s*(?:///?|//!|--|#) ?", " ", source)
    for page, sections in re.findall(r'docs/(\w+\.md)((?:,? (?:and )?"[^"\n]+")*)', text):
        path = ROOT / "docs" / page
        there = [re.sub(r"^\d+\. ", "", heading) for heading in headings(path)] if path.exists() else None
        if there is None:
            yield page
        else:
            yield from (f'{page}, "{name}"' for name in re.findall(r'"([^"]+)"', sections) if name not in there)


def dead_places(page: Path) -> Iterator[str]:
    """The files that a page names and that are not there; a place with a word in capitals stands for several."""
    for place in PLACE.findall(text_of(page)):
        if not re.search(r"\b[A-Z]+\b(?!\.md|\.txt)", place) and not (ROOT / place).exists():
            yield place


def dead_definitions(page: Path) -> Iterator[str]:
    """The definitions that a page names after a file of specs and that are not in it."""
    crate = ""
    for named, file, names in CITED.findall(without_code(text_of(page))):
        crate = named or crate
        found = house().files.get((crate, file))
        for name in re.findall(r"`([^`]+)`", names):
            if named and found is None:
                yield f"{crate}/{file}"
            elif found is not None and re.fullmatch(r"[\w']+", name) and name not in found.definitions:
                yield f"{crate}/{file}.{name}"


class Pages(unittest.TestCase):
    """What each page leads to."""

    def test_links(self):
        for page in PAGES:
            with self.subTest(page=str(page.relative_to(ROOT))):
                self.assertEqual(list(dead_links(page)), [])

    def test_places(self):
        for page in PAGES:
            with self.subTest(page=str(page.relative_to(ROOT))):
                self.assertEqual(list(dead_places(page)), [])

    def test_definitions(self):
        for page in PAGES:
            with self.subTest(page=str(page.relative_to(ROOT))):
                self.assertEqual(list(dead_definitions(page)), [])

    def test_sources_lead_to_sections(self):
        sources = [path for pattern in SOURCES for path in ROOT.glob(pattern) if path != Path(__file__).with_name("test_definitions.py")]
        dead = {found for path in sources for found in dead_sections(path.read_text(encoding="utf-8"))}
        self.assertGreater(len(sources), 100)
        self.assertEqual(dead, set())

    def test_names_of_code(self):
        """Names between backticks on the pages that speak of code alone; that of the kit is in no file."""
        files = [path for pattern in ("crates/*/*/**/*.rt", "crates/*/*/**/*.antt", "tools/*.py", "python/**/*.py") for path in ROOT.glob(pattern)]
        there = {word for path in files for word in re.findall(r"\w+", path.read_text(encoding="utf-8"))}
        for name in ("DECISIONS", "DESIGN", "MAP", "PROVED", "RULES"):
            page = without_code(text_of(ROOT / f"docs/{name}.md")).replace("`rattle-kit-13f logic dac8208d650f15bf`", "")
            words = {word for span in re.findall(r"`([^`]+)`", page) for word in re.findall(r"\b[A-Za-z]\w*[A-Za-z\d]\b", span)}
            with self.subTest(page=name):
                self.assertEqual(sorted(words - there), [])

    def test_commands_are_listed(self):
        listed = text_of(ROOT / "docs/FORMATS.md")
        commands = re.findall(r"^== (\S+)", text_of(ROOT / "tools/help.txt"), re.M)
        self.assertEqual([name for name in commands if not re.search(rf"`(?:\./signal )?{name}[ `]", listed)], [])

    def test_commands_of_the_package_are_told(self):
        commands = re.findall(r'^    "([\w-]+)": "[\w.]+",$', text_of(ROOT / "python/kolvunh/__main__.py"), re.M)
        words = {word for page in PAGES for word in re.findall(r"[\w-]+", text_of(page).replace("_", "-"))}
        self.assertGreater(len(commands), 15)
        self.assertEqual([name for name in commands if name not in words and name.removeprefix("sumo-") not in words], [])


class Counts(unittest.TestCase):
    """What pages count, but for what was measured at its time."""

    def test_counts(self):
        below = definitions.below(house(), [definitions.find(house(), "IsSafe")])
        safe = definitions.size_of(definitions.specs_of(house(), below))
        lines = crate_lines(text_of(ROOT / "crates.txt"))
        counts = {
            r"(\d+) definitions in (\d+) lines": [tuple(map(str, safe))],
            r"(\d+) crates\b": [str(len(lines)), str(len(at_or_below("signal_program", lines)))],
            r"(\d+) wrong bodies": [str(len(list(ROOT.glob(f"crates/*/{folder}/*.edit")))) for folder in ("must-fail", "*-*")],
            r"Python \(?(\d\.\d+)": re.findall(r'requires-python = ">=(\S+)"', text_of(ROOT / "python/pyproject.toml")),
        }
        for page in PAGES:
            if page.name not in ("FIGURES.md", "STUDIES.md"):
                for pattern, right in counts.items():
                    with self.subTest(page=str(page.relative_to(ROOT)), count=pattern):
                        self.assertEqual([found for found in re.findall(pattern, " ".join(text_of(page).split())) if found not in right], [])

    def test_map_has_each_crate(self):
        named = re.findall(r"^\| `(\w+)` \|", text_of(ROOT / "docs/MAP.md"), re.M)
        self.assertEqual(sorted(named), sorted(crate_lines(text_of(ROOT / "crates.txt"))))


class Small(unittest.TestCase):
    """The tests themselves, on text made by hand."""

    def test_what_is_found(self):
        page = ROOT / "docs" / "absent.md"
        text = '[a](GUIDE.md#nowhere) [b](GONE.md) [c](GUIDE.md), "No such section" and [d](GUIDE.md), sections 1 and 99\n\n    [e](GONE.md)\n'
        there = text_of(ROOT / "docs" / "GUIDE.md")
        with patch.object(sys.modules[__name__], "text_of", lambda path: text if path == page else there):
            self.assertEqual(list(dead_links(page)), ["GUIDE.md#nowhere", "GONE.md", 'GUIDE.md, "No such section"', "GUIDE.md, section 99"])
        self.assertEqual(list(dead_sections('/// docs/RULES.md, "World" and\n/// "No such rule".')), ['RULES.md, "No such rule"'])


if __name__ == "__main__":
    unittest.main()
