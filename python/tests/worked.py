"""Texts of the worked network, as they stand in docs/FORMATS.md, and files that hold a test's texts."""

import unittest
from pathlib import Path
from tempfile import TemporaryDirectory

ROOT = Path(__file__).resolve().parents[2]
EXAMPLES = ROOT / "examples"
FORMATS = (ROOT / "docs/FORMATS.md").read_text(encoding="utf-8")


def block(section: str, number: int = 1) -> str:
    """The text of a section's block of code, from 1."""
    after = FORMATS.split(f"\n## {section}\n", 1)[1].split("\n## ", 1)[0] if f"\n## {section}\n" in FORMATS else None
    if after is None:
        after = FORMATS.split(f"\n### {section}\n", 1)[1].split("\n## ", 1)[0]
    return after.split("\n```")[2 * number - 1].split("\n", 1)[1] + "\n"


NETWORK = block("A worked network")
ARRIVALS = block("Arrivals file")
PLAN = block("Fixed plan")
REPORT = block("Report")
QUEUES = block("Queues")
CERTIFICATE = block("Certificate text")


class FilesTest(unittest.TestCase):
    """A test with a folder of its own for files."""

    def setUp(self) -> None:
        place = TemporaryDirectory(prefix="with a space ")
        self.addCleanup(place.cleanup)
        self.folder = Path(place.name)

    def file(self, text: str, name: str = "file") -> Path:
        """A file that has this text."""
        path = self.folder / name
        path.write_text(text, encoding="utf-8", newline="")
        return path
