"""Files of records, as docs/FORMATS.md has them under "Records": commas, double quotes, no trimming, empty lines are no records."""

import csv
import io
from collections.abc import Iterator, Sequence
from os import PathLike
from pathlib import Path
from typing import NamedTuple

from .faults import Fault

Place = str | PathLike[str]
MOST_DIGITS = 20  # of a number below 2^64


class Record(NamedTuple):
    """A record of a file: the line of the file on which it begins, from 1, and its fields."""

    line: int
    fields: list[str]


def text_of(place: Place, encoding: str = "utf-8-sig") -> str:
    """The text of a file. A byte order mark at its front is passed over, and bytes that are no UTF-8 stand for themselves."""
    try:
        return Path(place).read_bytes().decode(encoding, errors="surrogateescape")
    except OSError as fault:
        raise Fault(f"{place}: {fault.strerror or fault}") from fault


def records_of(text: str) -> Iterator[Record]:
    """The records of a text, its header among them."""
    rows = csv.reader(io.StringIO(text, newline=""))
    before = 0
    for fields in rows:
        if fields:
            yield Record(before + 1, fields)
        before = rows.line_num


def rows_of(place: Place, text: str, header: Sequence[str]) -> list[Record]:
    """The records of a text after its header, which has to be this one; each has as many fields as the header. Faults name the place."""
    records = records_at(place, text)
    first = next(records, None)
    wanted = ",".join(header)
    if first is None:
        raise Fault(f"{place}: the file is empty, and has to begin with {wanted}")
    if first.fields != list(header):
        raise Fault(f"{place}:{first.line}: the header is {quote(','.join(first.fields))}, and has to be {wanted}")
    rows = list(records)
    for row in rows:
        if len(row.fields) != len(header):
            raise Fault(f"{place}:{row.line}: the row has {plural(len(row.fields), 'field')}, and has to have {len(header)}")
    return rows


def records_at(place: Place, text: str) -> Iterator[Record]:
    """The records of a text; a fault, which names the place, where a field has no end that Python's reader finds."""
    try:
        yield from records_of(text)
    except csv.Error as fault:
        raise Fault(f"{place}: it is no file of records: {fault}: is a quote not closed?") from fault


def number_in(place: Place, line: int, name: str, cell: str) -> int:
    """The whole number of a cell that has this name."""
    if not (cell.isascii() and cell.isdigit()):
        raise Fault(f"{place}:{line}: {name} is {quote(cell)}, and has to be a whole number")
    if len(cell) > MOST_DIGITS:
        raise Fault(f"{place}:{line}: {name} has {len(cell)} digits, and may have at most {MOST_DIGITS}")
    return int(cell)


def quote(text: str) -> str:
    """A text of a file in quotes, on one line and not too long."""
    line = "".join(mark if mark.isprintable() else repr(mark)[1:-1] for mark in text[:61])
    return f'"{line if len(text) <= 60 else line[:57] + "..."}"'


def plural(count: int, noun: str) -> str:
    """`1 row`, `2 rows`."""
    return f"{count} {noun}{'' if count == 1 else 's'}"
