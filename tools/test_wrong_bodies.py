"""Tests of tools/wrong_bodies.py: python3 -m unittest discover tools"""

import shutil
import unittest
from pathlib import Path
from tempfile import TemporaryDirectory

import wrong_bodies
from wrong_bodies import Function

SOURCE = """//! Numbers of a line.
use crate::Line;

const MOST: u32 = 9;

impl<T: Digit> Model for Line<T> {
    ghost Value = { List ℕ };
}

impl<T: Digit> Line<T> {
    /// The greatest.
    pub(crate) fn greatest(&self) -> u32
        requires { 0 < length self.now }
        ensures { Contains result self.now }
    {
        let mut most = 0;
        for digit in &self.digits {
            if *digit > most {
                most = *digit;
            }
        }
        most
    }
}

impl<'a, T: Digit> From<Line<T>>
    for Total<'a, T>
{
    fn from(line: Line<T>) -> Total<'a, T> {
        let total = line.sum();
        Total { total }
    }
}

impl CrossesThreads for Total {}

/// Whether it is even.
fn is_even(line: &Line) -> bool {
    line.digits.iter().all(|digit| {
        digit % 2 == 0
    })
}

fn is_odd(line: &Line) -> bool {
    !is_even(line)
}
"""

TOLD = """note: src/lines.rt:41:5: it is not proved that what the function ensures holds when it returns (`returns`)
struct lines::Line: proved
fn lines::numbers::is_even: no proof: expected answers in ./proofs/numbers/is_even/Answers.antt; `search` did not prove `returns`
fn lines::numbers::is_odd: no proof: it calls `lines::numbers::is_even`, which is not proved
fn lines::Line::greatest: not proved
fn lines::numbers::TotalFromLine::from: proved where its callers give what it asks, may wait
logic=not-proved
"""

GREATEST = Function("lines::numbers", "greatest", "Line")
IS_EVEN = Function("lines::numbers", "is_even")
IS_ODD = Function("lines::numbers", "is_odd")
FROM = Function("lines::numbers", "from", "Total", "From")


def edit(name, *pairs):
    """A wrong body of the crate `lines`, with its pairs of old and new text."""
    return wrong_bodies.Edit(Path("crates/lines/wrong-bodies") / name, tuple(("src/numbers.rt", *pair) for pair in pairs))


LEAST = edit("least.edit", ("*digit > most", "*digit < most"))
STARTS_AT_ONE = edit("starts_at_one.edit", ("let mut most = 0", "let mut most = 1"))
ODD_FOR_EVEN = edit("odd_for_even.edit", ("digit % 2 == 0", "digit % 2 == 1"))
ALL_ODD = edit("all_odd.edit", ("    !is_even(line)", "    true"))
LOWER_MOST = edit("lower_most.edit", ("MOST: u32 = 9", "MOST: u32 = 8"))


class WrongBodiesTest(unittest.TestCase):
    def setUp(self):
        place = TemporaryDirectory()
        self.addCleanup(place.cleanup)
        self.crate = Path(place.name) / "lines"
        (self.crate / "src").mkdir(parents=True)
        (self.crate / "src/numbers.rt").write_text(SOURCE, encoding="utf-8")

    def edit_of(self, text):
        file = self.crate / "it.edit"
        file.write_text(text, encoding="utf-8")
        return wrong_bodies.edit_of(file)

    def function_at(self, text):
        return wrong_bodies.function_at(SOURCE, SOURCE.count("\n", 0, SOURCE.index(text)), "lines::numbers")

    def checks_of(self, *edits):
        checks, faults = wrong_bodies.checks_of(edits, self.crate)
        return [[it.path.stem for it in check] for check in checks], {it.path.stem: why for it, why in faults.items()}

    def outcomes(self, told, *edits):
        found = wrong_bodies.outcomes({it: wrong_bodies.apply(it, self.crate, {})[1] for it in edits}, told)
        return found and {it.path.stem: said for it, said in found.items()}

    def test_an_edit_is_read(self):
        found = self.edit_of("file: src/a.rt\nold:     a == b\nnew:     a != b\nold: c\nnew:\nfile: src/b.rt\nold: d\nnew: e\n")
        self.assertEqual(
            found.pairs, (("src/a.rt", "    a == b", "    a != b"), ("src/a.rt", "c", ""), ("src/b.rt", "d", "e"))
        )

    def test_an_edit_without_a_pair_is_malformed(self):
        for text in ("file: src/a.rt\n", "old: a\nnew: b\n", "file: src/a.rt\nnew: b\n"):
            self.assertRaises(wrong_bodies.Malformed, self.edit_of, text)

    def test_the_function_around_a_line(self):
        self.assertEqual(self.function_at("*digit > most"), GREATEST)
        self.assertEqual(self.function_at("requires { 0"), GREATEST)
        self.assertEqual(self.function_at("Total { total }"), FROM)
        self.assertEqual(self.function_at("digit % 2"), IS_EVEN)
        self.assertEqual(self.function_at("fn is_odd"), IS_ODD)
        for outside in ("use crate::Line", "MOST", "ghost Value", "CrossesThreads"):
            self.assertIsNone(self.function_at(outside))

    def test_the_module_of_a_file(self):
        files = {"src/lib.rt": "lines", "src/a.rt": "lines::a", "src/a/b.rt": "lines::a::b", "src/a/mod.rt": "lines::a"}
        self.assertEqual({file: wrong_bodies.module_of("lines", file) for file in files}, files)

    def test_names_that_a_check_prints(self):
        self.assertTrue(GREATEST.is_named("lines::Line::greatest"))
        self.assertTrue(GREATEST.is_named("lines::texts::Line::greatest"))
        self.assertFalse(GREATEST.is_named("lines::numbers::greatest"))
        self.assertFalse(GREATEST.is_named("lines::OtherLine::greatest"))
        self.assertTrue(FROM.is_named("lines::numbers::TotalFromLine::from"))
        self.assertFalse(FROM.is_named("lines::Total::from"))
        self.assertTrue(IS_EVEN.is_named("lines::numbers::is_even"))
        self.assertTrue(IS_EVEN.is_named("lines::numbers::fn::is_even::all+FnMut::call_mut"))
        self.assertFalse(IS_EVEN.is_named("lines::numbers::fn::is_odd::all+FnMut::call_mut"))

    def test_edits_in_different_functions_share_a_check(self):
        found, faults = self.checks_of(LEAST, ODD_FOR_EVEN, STARTS_AT_ONE, ALL_ODD, LOWER_MOST)
        self.assertEqual(found, [["least", "odd_for_even", "all_odd"], ["starts_at_one"], ["lower_most"]])
        self.assertEqual(faults, {})

    def test_an_edit_that_writes_the_old_text_of_another_has_a_check_of_its_own(self):
        twice = edit("twice.edit", ("let total = line.sum()", "let mut most = 0; let total = line.sum()"))
        self.assertEqual(self.checks_of(twice, STARTS_AT_ONE)[0], [["twice"], ["starts_at_one"]])

    def test_edits_that_cannot_be_applied(self):
        found, faults = self.checks_of(edit("gone.edit", ("no such text", "a")), edit("twice.edit", ("digit", "a")))
        self.assertEqual(found, [])
        self.assertEqual(faults["gone"], "cannot be applied: its old text is in src/numbers.rt 0 times")
        self.assertEqual(set(faults), {"gone", "twice"})

    def test_further_pairs_apply_to_what_the_earlier_ones_made(self):
        pairs = (("*digit > most", "*digit > least"), ("digit > least", "digit < least"))
        texts, functions = wrong_bodies.apply(edit("two.edit", *pairs), self.crate, {})
        self.assertIn("if *digit < least {", texts["src/numbers.rt"])
        self.assertEqual(functions, {GREATEST})

    def test_who_is_refused(self):
        refused, unsure = wrong_bodies.refused_in(TOLD.replace("greatest: not proved", "greatest: could not tell"))
        self.assertEqual(refused, {"lines::numbers::is_even"})
        self.assertEqual(unsure, {"lines::Line::greatest"})

    def test_all_are_refused_in_one_check(self):
        self.assertEqual(self.outcomes(TOLD, LEAST, ODD_FOR_EVEN), {"least": "refused", "odd_for_even": "refused"})

    def test_a_caller_of_what_is_refused_is_not_refused_itself(self):
        self.assertIsNone(self.outcomes(TOLD, LEAST, ODD_FOR_EVEN, ALL_ODD))
        told = TOLD.replace("greatest: not proved", "greatest: proved")
        self.assertEqual(self.outcomes(told, ODD_FOR_EVEN), {"odd_for_even": "refused"})
        told = told.replace("is_even: no proof: expected answers", "is_even: proved: expected answers")
        self.assertEqual(self.outcomes(told, ALL_ODD), {"all_odd": wrong_bodies.NOT_REFUSED})

    def test_another_function_falls(self):
        self.assertIsNone(self.outcomes(TOLD.replace("from: proved", "from: not proved"), LEAST, ODD_FOR_EVEN))
        self.assertEqual(self.outcomes(TOLD, LEAST), {"least": "another function fell too: lines::numbers::is_even"})

    def test_an_edit_outside_of_functions_is_refused_by_any(self):
        self.assertEqual(self.outcomes(TOLD, LOWER_MOST), {"lower_most": "refused"})
        self.assertEqual(self.outcomes("logic=proved functions=4\n", LOWER_MOST), {"lower_most": wrong_bodies.NOT_REFUSED})

    def test_a_check_without_a_verdict(self):
        fault = "src/numbers.rt:9:8: error[unknown-name]: cannot find value `a` in this scope"
        self.assertEqual(self.outcomes(fault, LEAST), {"least": f"does not compile: {fault}"})
        self.assertIsNone(self.outcomes(fault, LEAST, ODD_FOR_EVEN))
        none = "rattle: no verdict: antt ran out of memory"
        self.assertEqual(self.outcomes(none, LEAST), {"least": f"NO VERDICT: {none}"})

    def test_a_refusal_for_a_lost_name_says_so(self):
        fault = "./proofs/Line/greatest/Answers.antt:9:3: error: `c` has no field `most`\n"
        told = TOLD.replace("is_even: no proof: expected answers", "is_even: proved: expected answers")
        self.assertEqual(self.outcomes(fault + told, LEAST), {"least": wrong_bodies.LOST_NAME})
        real = fault.replace("`c` has no field `most`", "does not hold")
        self.assertEqual(self.outcomes(fault + real + told, LEAST), {"least": "refused"})

    def test_where_one_check_is_not_enough_each_is_tried_alone(self):
        checked = []

        def check(texts):
            checked.append("".join(texts.values()).count("digit < most"))
            return TOLD if len(checked) == 1 else TOLD.replace("is_even: no proof: e", "is_even: proved: e")

        found = wrong_bodies.try_edits(self.crate, [LEAST, ALL_ODD], check)
        self.assertEqual(checked, [1, 1, 0])
        self.assertEqual(found[LEAST], "refused")
        self.assertEqual(found[ALL_ODD], "another function fell too: lines::Line::greatest")

    def test_the_crates_below(self):
        root = self.crate.parent
        (root / "crates.txt").write_text("# low\nlow:\nlines may_wait=2: low csv\ntop: lines # high\n")
        repository = wrong_bodies.Repository(root)
        self.assertEqual(repository.below("top"), ["low", "lines"])
        self.assertEqual(repository.lines["lines"], ("lines may_wait=2: low csv", ["low", "csv"]))

    def test_what_rt_ci_says(self):
        told = "rt: must-fail lines/{}.edit: {}\n".format
        is_refused, lost = "refused, as it must be", " (only because a proof file names what the edit took away): b"
        lines = [
            told("a", f"{is_refused}: note: src/numbers.rt:41:5: it is not proved"),
            told("b", is_refused + lost),
            told("c", f"{is_refused} (only by a limit of the prover): c"),
            told("d", "NOT REFUSED: the crate is still proved with this edit"),
            told("e", "BAD EDIT: it changes nothing"),
        ]
        found = wrong_bodies.tried_in("".join(["rt: lines is kept\n", *lines, "3 passed, 1 failed\n"]))
        self.assertEqual(
            [found["lines", f"{name}.edit"] for name in "abcde"],
            [
                wrong_bodies.REFUSED,
                wrong_bodies.LOST_NAME,
                "NO VERDICT (only by a limit of the prover): c",
                wrong_bodies.NOT_REFUSED,
                "BAD EDIT: it changes nothing",
            ],
        )

    def small_repository(self):
        """A repository of the crate `lines`, with a wrong body in each folder, and one below it."""
        root = self.crate.parent
        (root / "crates").mkdir()
        self.crate = self.crate.rename(root / "crates/lines")
        (root / "crates/low/src").mkdir(parents=True)
        (root / "crates/low/src/lib.rt").write_text("//! Low.\n")
        (root / "crates.txt").write_text("low:\nlines: low\n")
        (root / "HANDLES").write_text("Handles allowed: none.\n")
        for folder, name in (("must-fail", "least"), ("wrong-bodies", "all_odd")):
            (self.crate / folder).mkdir()
            (self.crate / folder / f"{name}.edit").write_text("file: src/numbers.rt\nold: most\nnew: least\n")
        return wrong_bodies.Repository(root)

    def test_rt_ci_is_given_all_wrong_bodies(self):
        repository = self.small_repository()
        with TemporaryDirectory() as place:
            repository.copy_for_ci(["lines"], Path(place))
            files = sorted(str(it.relative_to(place)) for it in Path(place).rglob("*") if it.is_file())
        must_fail = [f"crates/lines/must-fail/{name}.edit" for name in ("all_odd", "least")]
        sources = ["crates/lines/src/numbers.rt", "crates/low/src/lib.rt"]
        self.assertEqual(files, ["HANDLES", "crates.txt", *must_fail, *sources])

    def test_rt_ci_is_given_no_two_wrong_bodies_of_one_name(self):
        repository = self.small_repository()
        shutil.copy(self.crate / "must-fail/least.edit", self.crate / "wrong-bodies")
        with TemporaryDirectory() as place:
            self.assertRaises(wrong_bodies.Malformed, repository.copy_for_ci, ["lines"], Path(place))

    def test_all_wrong_bodies_of_the_repository_can_be_applied(self):
        repository = wrong_bodies.Repository(wrong_bodies.ROOT)
        for crate in repository.lines:
            edits, faults = repository.edits(crate)
            faults |= wrong_bodies.checks_of(edits, repository.folder(crate))[1]
            self.assertEqual({edit.label: fault for edit, fault in faults.items()}, {})


if __name__ == "__main__":
    unittest.main()
