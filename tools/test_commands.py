"""The one table of commands is `words_of` in crates/command_words/specs/Calls.antt: the lists that people and tools read are held equal to it."""

import re
import sys
import unittest

from crates import ROOT

sys.path.insert(0, str(ROOT / "python"))
from kolvunh.explain.calls import FORMS

# The words that lists have for the variables of the table that are named otherwise there
NAMES = {"first": "FROM", "last": "TO"}

# `serve` is no command of the table: its words are `serve_words` of signal_cli.
SERVE = "serve NET"


def forms_of_table():
    """The forms of all calls: the command, the names of its words, and words that stand for themselves."""
    text = (ROOT / "crates/command_words/specs/Calls.antt").read_text()
    rows = re.findall(r"^words_of \(\w+ [a-z ]+\) = (.+) ∷ \[\]$", text, re.M)
    return {" ".join(word_of(part) for part in row.split(" ∷ ")) for row in rows} | {SERVE}


def word_of(part):
    """The word of a list for a part of a row: `codes "NAME"`, `decimal VARIABLE` or a variable."""
    literal = re.fullmatch(r'codes "(\w+)"', part)
    name = part.removeprefix("decimal ")
    return literal[1] if literal else NAMES.get(name, name.upper())


def commands_of_meanings():
    """How many rows the table of meanings has."""
    return len(re.findall(r"^meaning_of \(", (ROOT / "crates/signal_cli/specs/Meanings.antt").read_text(), re.M))


class Commands(unittest.TestCase):
    def test_each_row_is_read(self):
        text = (ROOT / "crates/command_words/specs/Calls.antt").read_text()
        self.assertEqual(len(forms_of_table()) - 1, len(re.findall(r"^words_of \(", text, re.M)))
        self.assertEqual(len(forms_of_table()) - 1, commands_of_meanings())

    def test_python_knows_these_forms(self):
        self.assertEqual(forms_of_table(), {f"{command} {form}" for command, forms in FORMS.items() for form in forms})

    def test_formats_lists_these_forms(self):
        section = (ROOT / "docs/FORMATS.md").read_text().partition("\n## Words\n")[2].partition("\n## ")[0]
        self.assertEqual(forms_of_table(), set(re.findall(r"^\| `([^`]+)` \|", section, re.M)))

    def test_help_explains_these_forms(self):
        text = (ROOT / "tools/help.txt").read_text()
        sections = re.findall(r"^== (\S+)\n((?:\1 .*\n)+)", text, re.M)
        helped = {line for _, lines in sections for line in lines.splitlines()}
        self.assertEqual(set(), forms_of_table() - helped)


if __name__ == "__main__":
    unittest.main()
