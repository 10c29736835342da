"""How an explanation is written: where the fault is, values as they stand in a file, and what a name may have been meant to be."""

import difflib
from collections.abc import Iterable
from datetime import date, datetime, time
from typing import Any

from ..records import quote

_ORDINALS = ("first", "second", "third", "fourth", "fifth", "sixth", "seventh", "eighth", "ninth", "tenth")
_ENDINGS = {1: "st", 2: "nd", 3: "rd"}


def at(file: str, line: int | None, words: str) -> str:
    """`FILE:LINE: words`, or without the line where it is not known."""
    return f"{file}: {words}" if line is None else f"{file}:{line}: {words}"


def value(found: Any) -> str:
    """A value of a TOML file, in a few words."""
    match found:
        case bool():
            return "true" if found else "false"
        case str():
            return f"the text {quote(found)}"
        case int():
            return f"{found}" if abs(found) < 10**30 else "a number of more than 30 digits"
        case float():
            return f"{found!r}"
        case dict():
            return "a table"
        case list():
            return "a list"
        case datetime() | date() | time():
            return "a date or a time"
    return "another value"


def ordinal(place: int) -> str:
    """The word for a place, from 1."""
    if 1 <= place <= len(_ORDINALS):
        return _ORDINALS[place - 1]
    return f"{place}{'th' if 10 < place % 100 < 20 else _ENDINGS.get(place % 10, 'th')}"


def meant(name: object, names: Iterable[str]) -> str:
    """` (is "x" meant?)` where a name of these is much like this one, else nothing."""
    found = difflib.get_close_matches(str(name), list(names), 1, 0.7)
    return f" (is {quote(found[0])} meant?)" if found else ""


def enumeration(words: list[str], last: str = "and") -> str:
    """`a`, `a and b`, `a, b and c`."""
    return words[0] if len(words) == 1 else f"{', '.join(words[:-1])} {last} {words[-1]}"


def thousands(number: int) -> str:
    """A number with a comma after each three digits."""
    return f"{number:,}"
