"""Measures as CSV, and as a table for people: docs/FORMATS.md, "Measures"."""

import csv
import io
from collections.abc import Iterable, Sequence
from dataclasses import asdict, fields

from .measure_values import Measures, quotient


def csv_text(rows: Iterable[Measures]) -> str:
    """The measures as CSV: a column for each field, an empty cell where a measure has no meaning, at most three digits after the point."""
    text = io.StringIO()
    writer = csv.writer(text, lineterminator="\n")
    writer.writerow(field.name for field in fields(Measures))
    for row in rows:
        writer.writerow(f"{cell:.3f}".rstrip("0").rstrip(".") if isinstance(cell, float) else cell for cell in asdict(row).values())
    return text.getvalue()


def _number(value: float | None, digits: int = 1) -> str:
    return "-" if value is None else f"{value:.{digits}f}"


def _percent(part: float | None) -> str:
    return "-" if part is None else f"{100 * part:.0f}"


def _span(mean: float | None, least: int | None, most: int | None) -> str:
    return "-" if mean is None else f"{mean:.0f} ({least}-{most})"


HEADS = (
    "second", "", "vehicles", "s/veh", "LOS", "v/c", "persons", "s/pers", "stopped %", "queue 50", "95", "most", "split failures",
    "on green %", "platoon", "green s", "cycle s", "dark s", "none",
)  # fmt: skip
LANE_HEADS = ("in a lane 95", "most", "metres 95", "most", "lane full %")


def _cells(row: Measures) -> list[str]:
    return [
        f"{row.begin}-{row.end}", row.name, _number(row.vehicles), _number(row.delay_each), row.level or "-",
        _number(row.v_c, 2), _number(row.persons), _number(row.person_delay_each), _percent(quotient(row.stopped, row.vehicles)),
        _number(row.queue_50), _number(row.queue_95), _number(row.queue_most),
        f"{row.failures} of {row.greens}", _percent(row.on_green), _number(row.platoon_ratio, 2),
        _span(row.green_mean, row.green_least, row.green_most), _span(row.cycle_mean, row.cycle_least, row.cycle_most),
        str(row.dark), "-" if row.plans is None else f"{row.none} of {row.plans}",
    ]  # fmt: skip


def _lane_cells(row: Measures) -> list[str]:
    metres = (_number(value, 0) for value in (row.metres_95, row.metres_most))
    return [_number(row.lane_95), _number(row.lane_most), *metres, _percent(row.full)]


def table_text(rows: Sequence[Measures]) -> str:
    """The measures as a table for people; what is by lane stands last, where lanes are known."""
    table = [list(HEADS), *map(_cells, rows)]
    table[0][1] = rows[0].kind if rows else ""
    if any(row.full is not None for row in rows):
        table = [[*cells, *more] for cells, more in zip(table, [LANE_HEADS, *map(_lane_cells, rows)])]
    wide = [max(map(len, column)) for column in zip(*table)]
    sides = [str.ljust, str.ljust, *[str.rjust] * len(wide)]
    lines = ("  ".join(side(cell, width) for side, cell, width in zip(sides, line, wide)) for line in table)
    return "\n".join(line.rstrip() for line in lines) + "\n"
