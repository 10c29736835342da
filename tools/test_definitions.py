"""Tests of tools/definitions.py, and of the page whose counts it writes: python3 -m unittest discover tools"""

import re
import subprocess
import sys
import tempfile
import unittest
from pathlib import Path

import definitions

ROOT = Path(__file__).resolve().parents[1]
PAGES = [ROOT / "docs" / "READING.md"]

# A repository of two crates, in which `Top` rests on all but `unused` and the crate's other `size`.
FILES = {
    "low/src/lib.rt": """/// Goods.
///
/// docs/RULES.md, "Goods".
#[derive(Drop)]
pub struct Box {
    /// What is in it.
    pub things: Vec<Thing>,
}

/// A thing.
pub enum Thing { Round, Square(u8) }
""",
    "low/specs/Lib.antt": "pub mod Base\npub mod Names\n",
    "low/specs/Base.antt": """-- What the others rest on.
use Rattle.std.specs.Prelude.{ℕ, List, ◌+◌}

-- Below, n is any number.

-- the size, and the size of a pair
abbrev pub size : ℕ → ℕ
size n = n + 1

abbrev pub pair_size : ℕ → ℕ
pair_size n = size n + size n

-- joins
infixl 10 ◌<+>◌
abbrev pub ◌<+>◌ : ℕ → ℕ → ℕ
a <+> b = a + b

-- one of two
pub data Choice : Type 0 where
  First : Choice
  Second : (n : ℕ) → Choice

-- a choice
abbrev pub choice_of : ℕ → ℕ
choice_of n = count First

-- the least, and the greatest
abbrev pub least : ℕ
least = 0

abbrev pub greatest : ℕ
greatest = 9

-- nobody cites it
abbrev pub unused : ℕ
unused = 0
""",
    "low/specs/Names.antt": """-- Names.
use Rattle.std.specs.Prelude.{ℕ}
pub use Rattle.low.specs.Base.{pair_size}

-- another size
abbrev pub size : ℕ
size = 2
""",
    "high/src/lib.rt": "//! High.\n",
    "high/specs/Lib.antt": "pub mod Facts\npub use Rattle.low.specs.Base\n",
    "high/specs/Facts.antt": """-- Facts.
use Rattle.std.specs.Prelude.{◌≡◌, ℕ, List}
use Rattle.high.specs.Base.{Choice, Second, ◌<+>◌}
use Rattle.low.specs.Names as names
use Rattle.low.specs.declared.Box.{Box}

-- Each takes a limit.
module _ (limit : ℕ) where
  -- below the limit, where `size` is an argument and not a definition
  abbrev pub IsSmall : ℕ → Type 0
  IsSmall size = size ≡ limit <+> size

-- the top
pub record Top (box : Box) (choice : Choice) : Type 0 where
  pub pair_size : names.pair_size 2 ≡ 6
  pub second : choice ≡ Second 1
  pub small : IsSmall 1 2
""",
}


class SmallTest(unittest.TestCase):
    """A repository made by hand: what is below a name, where it comes, and what is refused."""

    def setUp(self):
        folder = tempfile.TemporaryDirectory()
        self.addCleanup(folder.cleanup)
        for name, text in FILES.items():
            path = Path(folder.name, "crates", name)
            path.parent.mkdir(parents=True, exist_ok=True)
            path.write_text(text, encoding="utf-8")
        self.house = definitions.House(Path(folder.name))

    def reading(self, *skip):
        found = [definitions.find(self.house, name) for name in ("Top", *skip)]
        return definitions.reading_of(self.house, found[0], found[1:])

    def test_below(self):
        files = [(place, [d.key.name for d in own]) for place, own in self.reading().files]
        self.assertEqual(files, [("high/Facts", ["Top", "IsSmall"]), ("low/Base", ["Choice", "◌<+>◌", "pair_size", "size"])])

    def test_order_of_a_comment(self):
        for names, order in ((["greatest", "least"], ["least", "greatest"]), (["pair_size", "size"], ["pair_size", "size"])):
            keys = [definitions.find(self.house, f"low/Base.{name}") for name in names]
            self.assertEqual([key.name for key in definitions.as_comments_say(self.house, keys)], order)

    def test_types_and_libraries(self):
        reading = self.reading()
        self.assertEqual(sorted(d.key.name for d in reading.types), ["Box", "Thing"])
        self.assertEqual([word.name for word in reading.words], ["ℕ", "◌+◌", "◌≡◌"])

    def test_skip(self):
        self.assertEqual({key.name for key in self.reading("pair_size").skipped}, {"pair_size", "size"})

    def test_page(self):
        page = "\n".join(definitions.page_of(self.house, "Top", []))
        self.assertIn("Below `Top`: 6 definitions in 2 files of 2 crates, 15 lines without comments.", page)
        self.assertIn("-- Each takes a limit.\nmodule _ (limit : ℕ) where\n  -- below the limit", page)
        self.assertIn("-- the size, and the size of a pair\nabbrev pub pair_size : ℕ → ℕ\n", page)
        self.assertIn("-- Below, n is any number.", page)
        self.assertIn("/// Goods.\npub struct Box {\n", page)
        self.assertNotIn("unused", page)

    def test_names_of_two_files(self):
        reading = self.reading()
        top, size = (self.house.definition(definitions.find(self.house, name)) for name in ("Top", "low/Names.size"))
        reading.files.append(("low/Names", [size]))
        for written, said in (("names.size 2", "names.size"), ("size 2", "size")):
            top.lines[1], top.cites = f"  pub pair_size : {written} ≡ 6", [size.key]
            self.assertEqual(definitions.of_others(reading, self.house, [top]), f" Here `{said}` is that of low/Names.")

    def test_constructors(self):
        self.assertIn(definitions.find(self.house, "Choice"), self.house.definition(definitions.find(self.house, "choice_of")).cites)

    def test_refused(self):
        for name, why in (("size", "in several files: low/Base.size, low/Names.size"), ("absent", "no definition absent")):
            with self.assertRaisesRegex(definitions.Unknown, why):
                definitions.find(self.house, name)
        self.assertEqual(definitions.find(self.house, "low/Names.size").place, "low/Names")

    def test_counts(self):
        table = ["| definitions, with their files | below it | alone |", "|---|---|---|", "| `pair_size` (`low/Base`) | | |"]
        top = definitions.find(self.house, "Top")
        self.assertEqual(list(definitions.with_counts(self.house, top, table))[2], "| `pair_size` (`low/Base`) | 2, 4 | 2, 4 |")
        with self.assertRaisesRegex(definitions.Unknown, "Top is not in low/Base"):
            list(definitions.with_counts(self.house, top, [*table[:2], "| `Top` (`low/Base`) | | |"]))


class PagesTest(unittest.TestCase):
    """The pages of this repository, and the specs that they are made from."""

    @classmethod
    def setUpClass(cls):
        cls.house = definitions.House()

    def test_pages_are_current(self):
        for page in PAGES:
            text = page.read_text(encoding="utf-8")
            self.assertTrue(definitions.renew(self.house, text) == text, f"{page.name} is old: tools/definitions.py --renew docs/{page.name}")

    def test_order(self):
        root = definitions.find(self.house, "Headline")
        order = [d.key for d in definitions.reading_of(self.house, root).definitions]
        place = {key: at for at, key in enumerate(order)}
        self.assertEqual(len(place), len(order))
        for key in order:
            for cited in self.house.definition(key).cites:
                self.assertGreater(place.get(cited, len(order)), place[key], f"{key} cites {cited}")

    def test_every_definition_is_found(self):
        for (crate, name), file in self.house.files.items():
            text = (ROOT / "crates" / crate / "specs" / f"{name}.antt").read_text(encoding="utf-8")
            heads = re.findall(r"^ *(?:abbrev pub|unfoldable pub|pub record|pub data) ([^\s:]+)", text, re.M)
            self.assertEqual(sorted(heads), sorted(n for n, d in file.definitions.items() if not d.lines[0].startswith("pub halves-ok")))

    def test_every_import_is_cited(self):
        """An import that no definition cites is a citation that was missed, or one that `rt tidy` drops."""
        for file in self.house.files.values():
            cited = {key for d in file.definitions.values() for key in self.house.definition(d.key).cites}
            text = (ROOT / "crates" / file.crate / file.name).read_text(encoding="utf-8")
            for path, name in file.imports.values():
                target = self.house.at(path, name)
                if isinstance(target, definitions.Key) and f"pub use {path}" not in text:
                    self.assertIn(target, cited, f"{file.crate}/{file.name} cites it nowhere")

    def test_width(self):
        """Lines of definitions are at most 120 columns wide, but for those that bring names in and for comments."""
        lines = [(path, line) for path in ROOT.glob("crates/*/specs/**/*.antt") for line in path.read_text(encoding="utf-8").splitlines()]
        self.assertEqual([pair for pair in lines if len(pair[1]) > 120 and not re.match(r"(pub )?use |\s*--", pair[1])], [])

    def test_call(self):
        tool = [sys.executable, ROOT / "tools" / "definitions.py"]
        for words, status in ((["NeverOlder"], 0), (["IsLawful"], 2)):
            done = subprocess.run([*tool, *words], capture_output=True, text=True, check=False)
            self.assertEqual((done.returncode, done.stderr.count("\n")), (status, status // 2), words)


if __name__ == "__main__":
    unittest.main()
