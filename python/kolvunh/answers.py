"""What the commands write beside reports and queues: totals, plans, decisions and summaries. docs/FORMATS.md has each text.

Amounts are in thousandths of a vehicle, delays of the world in these times seconds; the delay of a plan counts a vehicle by its weight too.
"""

from collections.abc import Callable
from dataclasses import dataclass
from typing import Any, TextIO

from .records import records_of


@dataclass(frozen=True, slots=True)
class ControllerTotals:
    """What a run of a controller (`planned`, `actuated` or `fixed`) came to; `factor` is that of `scale`, in thousandths, else 1000."""

    controller: str
    entered: int
    left: int
    on_links: int
    delay: int
    factor: int = 1000


@dataclass(frozen=True, slots=True)
class StoreTotals:
    """What a controller came to where links hold so much and no more; `outside` waits outside of full links, and its delay counts too."""

    controller: str
    entered: int
    left: int
    on_links: int
    outside: int
    delay: int


@dataclass(frozen=True, slots=True)
class BestAnswer:
    """The order of least delay of an instance by phases, or no plan: then `delay` is None."""

    delay: int | None
    sequence: tuple[int, ...]


@dataclass(frozen=True, slots=True)
class DecidedPlan:
    """What a node plans in a round; `delay` is None where there is no plan."""

    node: str
    versions: dict[str, int]
    delay: int | None
    sequence: tuple[int, ...]


@dataclass(frozen=True, slots=True)
class DecidedGreen:
    """A green of a node's new timeline, from second `begin` up to second `end`."""

    node: str
    phase: int
    begin: int
    end: int


@dataclass(frozen=True, slots=True)
class ForecastVersion:
    """The version of the forecast that stands on a link's board after the round."""

    link: str
    version: int


@dataclass(frozen=True, slots=True)
class ForecastRow:
    """What comes to the end of a link in a second by its forecast."""

    link: str
    second: int
    amount: int


@dataclass(frozen=True, slots=True)
class WaitBounds:
    """Within how many seconds a queue of a phase loses something under plans, under actuated control, and under the fixed plan that was
    given, or the word why there is no bound; and how many seconds each red of the phase is under that plan, or `marked` without a row."""

    node: str
    phase: int
    planned: int | str
    actuated: int | str
    fixed: int | str | None = None
    red: int | str | None = None


@dataclass(frozen=True, slots=True)
class GridSummary:
    """The run of a grid: how many plans there are and how many are none, the delay that the others plan, and what the world counted."""

    number: int
    side: int
    rounds: int
    plans: int
    none: int
    planned_delay: int
    entered: int
    left: int
    on_links: int
    delay: int


def totals(text: TextIO) -> dict[str, list[Any]]:
    """Of `compare`: a row for each controller."""
    return {"totals": [ControllerTotals(name, *map(int, numbers)) for name, *numbers in map(str.split, text)]}


def scaled_totals(text: TextIO) -> dict[str, list[Any]]:
    """Of `scale`: a row for each factor and controller."""
    lines = [(int(factor), words) for factor, *words in map(str.split, text)]
    return {
        "totals": [
            ControllerTotals(words[at], *map(int, words[at + 1 : at + 5]), factor) for factor, words in lines for at in (0, 5)
        ]
    }


def store_totals(text: TextIO) -> dict[str, list[Any]]:
    """Of `spill` without `actuated`: a row for each controller."""
    return {"totals": [StoreTotals(name, *map(int, numbers)) for name, *numbers in map(str.split, text)]}


def best_answer(text: TextIO) -> dict[str, list[Any]]:
    """Of `plan`: one row."""
    lines = [line.split() for line in text]
    if lines == [["none"]]:
        return {"plan": [BestAnswer(None, ())]}
    return {"plan": [BestAnswer(int(lines[0][1]), tuple(map(int, lines[1][1:])))]}


def decision(text: TextIO) -> dict[str, list[Any]]:
    """Of `decide`: the plans, the greens, and the versions and rows of forecasts."""
    found: dict[str, list[Any]] = {"plans": [], "greens": [], "versions": [], "rows": []}
    for _, (kind, name, x, y, z) in list(records_of(text.read()))[1:]:
        if kind == "plan":
            used = (pair.rpartition("=") for pair in x.split(";") if pair)
            delay = None if y == "none" else int(y)
            found["plans"].append(DecidedPlan(name, {link: int(n) for link, _, n in used}, delay, tuple(map(int, z))))
        elif kind == "green":
            found["greens"].append(DecidedGreen(name, int(x), int(y), int(z)))
        elif kind == "version":
            found["versions"].append(ForecastVersion(name, int(x)))
        else:
            found["rows"].append(ForecastRow(name, int(x), int(y)))
    return found


def wait_bounds(text: TextIO) -> dict[str, list[Any]]:
    """Of `bounds`: a row for each phase of each node."""
    rows = [record.fields for record in records_of(text.read())][1:]
    return {"bounds": [WaitBounds(node, int(phase), *(int(x) if x.isdigit() else x for x in each)) for node, phase, *each in rows]}


def summary(text: TextIO) -> dict[str, list[Any]]:
    """Of `grid`: one row."""
    numbers = [int(word) for line in text for word in line.split()[1:]]
    return {"summary": [GridSummary(*numbers)]}


READERS: dict[str, Callable[[TextIO], dict[str, list[Any]]]] = {
    "compare": totals,
    "scale": scaled_totals,
    "spill": store_totals,
    "plan": best_answer,
    "decide": decision,
    "bounds": wait_bounds,
    "grid": summary,
}
