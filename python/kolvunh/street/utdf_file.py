"""Reads Synchro's UTDF in CSV: docs/FORMATS.md, "UTDF". Names of sections, records and columns are compared without
case, spaces and signs."""

import re
from collections import defaultdict
from dataclasses import dataclass
from typing import NoReturn

from ..faults import Fault
from ..records import Place, quote, records_at, text_of
from .legs import SHORT, opposite

SECTIONS = ("network", "nodes", "links", "lanes", "timeplans", "phases")
HEADERS = {
    "network": ("recordname", "data"),
    "nodes": ("intid", "type", "x", "y"),
    "timeplans": ("recordname", "intid", "data"),
}
LEGS = {short: opposite(leg) for leg, short in SHORT.items()}  # by where vehicles go: `n` comes from the south
MOVES = {"l": "left", "t": "through", "r": "right"}


@dataclass(frozen=True, slots=True)
class Cell:
    """What stands in a cell, and in which line."""

    text: str
    line: int


def plain(text: str) -> str:
    """A name as it is compared."""
    return re.sub(r"[^a-z0-9]", "", text.lower())


def leg_of(column: str) -> str | None:
    """The approach of a column of [Links] or [Lanes]: `nb` and `nbl` are from the south, `ne` and `net` from the
    southwest."""
    found = re.fullmatch(r"(?:([nsew])b|([ns][ew]))[ltr]?", column)
    return LEGS[found[1] or found[2]] if found else None


def words_of(column: str) -> str:
    """A column for messages: as an approach with a movement, or a phase."""
    leg = leg_of(column)
    if leg is not None:
        return f", approach {leg}" + (f", {MOVES[column[2]]}" if len(column) > 2 else "")
    return f", phase {column[1:]}" if re.fullmatch(r"d\d+", column) else ""


class Utdf:
    """A file: its cells by section, node, record and column; a section that has no records or no nodes has "" for
    them."""

    def __init__(self, place: Place) -> None:
        self.place = place
        self.cells: dict[str, dict[str, dict[str, dict[str, Cell]]]] = defaultdict(
            lambda: defaultdict(lambda: defaultdict(dict))
        )
        self.lines: dict[str, int] = {}
        section, header = "", list[str]()
        for line, fields in records_at(place, text_of(place)):
            first = fields[0].strip()
            if re.fullmatch(r"\[.+\]", first):
                section, header = plain(first), []
                self.lines[section] = line
            elif section in SECTIONS and first:
                if header:
                    self._row(section, header, fields, line)
                else:
                    header = self._header(section, fields, line)
        missing = next((name for name in SECTIONS if name not in self.cells), None)
        if missing is not None:
            self.fail(
                self.lines.get(missing, 1),
                f"there is no section [{missing.capitalize()}] with rows: export all of Network, Nodes, Links, Lanes, "
                f"Timeplans and Phases",
            )

    def fail(self, line: int, words: str) -> NoReturn:
        """Refuses a line."""
        raise Fault(f"{self.place}:{line}: {words}")

    def _header(self, section: str, fields: list[str], line: int) -> list[str]:
        """The header of a section; a title before it is none."""
        names = [plain(field) for field in fields]
        if names[0] not in ("recordname", "intid"):
            return []
        wanted = HEADERS.get(section, ("recordname", "intid"))
        missing = next((name for name in wanted if name not in names), None)
        if missing is not None:
            self.fail(
                line,
                f"[{section.capitalize()}]: the header has no column {missing.upper()}: write "
                f"{','.join(wanted).upper()} and the others",
            )
        return names

    def _row(self, section: str, header: list[str], fields: list[str], line: int) -> None:
        while len(fields) > len(header) and not fields[-1].strip():
            fields.pop()
        if len(fields) > len(header):
            self.fail(
                line,
                f"[{section.capitalize()}]: the row has {len(fields)} fields, and its header {len(header)}: take out "
                f"what is too much, or quote a comma",
            )
        row = {name: " ".join(field.split()) for name, field in zip(header, fields)}
        node, record = row.pop("intid", ""), plain(row.pop("recordname", ""))
        if section == "nodes" and not re.fullmatch(r"[0-9]{1,9}", node):
            self.fail(line, f"[Nodes]: INTID is {quote(node)}: write a whole number of at most 9 digits")
        if section not in ("network", "nodes") and node not in self.cells["nodes"]:
            self.fail(
                line,
                f"[{section.capitalize()}]: junction {node}: [Nodes] has no INTID {quote(node)}: write its row there, "
                f"above",
            )
        self.cells[section][node][record] |= {name: Cell(text, line) for name, text in row.items() if text}

    def cell(self, section: str, node: str, record: str, column: str) -> Cell | None:
        """What stands there, or None."""
        return self.cells[section].get(node, {}).get(record, {}).get(column)

    def number(
        self, section: str, node: str, record: str, column: str, default: float = 0.0, least: float = 0.0,
    ) -> float:
        """The number that stands there, or the default."""
        cell = self.cell(section, node, record, column)
        if cell is None:
            return default
        try:
            value = float(cell.text)
        except ValueError:
            value = float("nan")
        if not least <= value <= 1e9:
            self.fail(
                cell.line,
                f"junction {node}{words_of(column)}: {record} is {quote(cell.text)}: write a number from {least:g} up",
            )
        return value

    def line(self, section: str, node: str) -> int:
        """The first line of a node in a section, or that of the section."""
        lines = [cell.line for record in self.cells[section].get(node, {}).values() for cell in record.values()]
        return min(lines, default=self.lines[section])
