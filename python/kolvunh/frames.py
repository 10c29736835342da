"""Tables as frames of pandas, where pandas is installed; nothing else of this package needs it.

A frame has one unit for a quantity, whatever table it is of: amounts are in vehicles, delays in vehicles times seconds (those of plans in these
times weight), times in seconds. Its columns are numbers and texts, with pandas' own mark where there is none: an order of phases is the text
of its digits, the versions of a plan are as in a report, and where a table has a number or a word, as `bounds`, the words have a column
of their own, NAME_word.
"""

from collections.abc import Sequence
from dataclasses import fields
from typing import Any

from .answers import ControllerTotals, DecidedPlan, ForecastRow, GridSummary, StoreTotals
from .arrivals import VEHICLE, Arrival
from .faults import Fault
from .queues import Change, Most
from .reports import LinkTotals, Plan, Totals

# The fields of each table that are in thousandths
THOUSANDTHS: dict[type, tuple[str, ...]] = {
    Arrival: ("amount",),
    Change: ("queue", "on"),
    Most: ("queue",),
    LinkTotals: ("entered", "left", "delay"),
    Totals: ("entered", "left", "on_links", "delay"),
    ControllerTotals: ("entered", "left", "on_links", "delay", "factor"),
    StoreTotals: ("entered", "left", "on_links", "outside", "delay"),
    Plan: ("delay",),
    DecidedPlan: ("delay",),
    ForecastRow: ("amount",),
    GridSummary: ("planned_delay", "entered", "left", "on_links", "delay"),
}


def columns_of(rows: Sequence[Any]) -> dict[str, tuple[list[Any], str]]:
    """The columns of the frame of these dataclasses, each with its kind of pandas."""
    found: dict[str, tuple[list[Any], str]] = {}
    for field in fields(rows[0]) if rows else ():
        values = [_plain(getattr(row, field.name)) for row in rows]
        words = [value if isinstance(value, str) else None for value in values]
        numbers = [None if isinstance(value, str) else value for value in values]
        if field.name in THOUSANDTHS.get(type(rows[0]), ()):
            numbers = [None if number is None else number / VEHICLE for number in numbers]
        is_number = any(number is not None for number in numbers) or not any(kind in str(field.type) for kind in ("str", "tuple", "dict"))
        if is_number:
            found[field.name] = numbers, _kind(numbers, str(field.type))
        if not is_number or any(word is not None for word in words):
            found[f"{field.name}_word" if is_number else field.name] = words, "string"
    return found


def _plain(value: Any) -> Any:
    """A cell: a number, a text, or None."""
    if isinstance(value, tuple):
        return "".join(map(str, value)) if all(isinstance(each, int) for each in value) else ",".join(map(str, value))
    if isinstance(value, dict):
        return ";".join(f"{name}={version}" for name, version in value.items())
    return value


def _kind(numbers: Sequence[Any], of: str) -> str:
    """The kind of a column of numbers: whole ones stay whole where some are absent."""
    if any(isinstance(number, float) for number in numbers) or "float" in of:
        return "float64"
    if all(isinstance(number, bool) for number in numbers):
        return "bool"
    return "Int64" if None in numbers else "int64"


def frame_of(rows: Sequence[Any]) -> Any:
    """A frame with a row for each of these dataclasses and a column for each field."""
    try:
        import pandas
    except ImportError as fault:
        raise Fault("pandas is not installed: `pip install pandas`, or take the lists of dataclasses") from fault
    return pandas.DataFrame({name: pandas.Series(values, dtype=kind) for name, (values, kind) in columns_of(rows).items()})
