"""Reports of runs, as `turns`, `net`, `replay`, `actuate` and `fixed` write them: docs/FORMATS.md, "Report".

Seconds are whole and count from the begin of the run. Amounts of vehicles are in thousandths of a vehicle, and delays in thousandths of a
vehicle times seconds; the delay of a plan counts a vehicle by its weight too.
"""

from collections import defaultdict
from dataclasses import dataclass, field

from .faults import Fault
from .networks import Network
from .records import Place, Record, number_in, quote, rows_of, text_of

HEADER = ("kind", "round", "node", "x", "y", "z", "w")
MOST_SECOND = 2**32 - 1


@dataclass(frozen=True, slots=True)
class Step:
    """A step on the boards: in a round, from 0, a node read or published (`act`) this version of the forecast of a link."""

    round: int
    node: str
    act: str
    link: str
    version: int


@dataclass(frozen=True, slots=True)
class Plan:
    """What a node planned in a round, from 0.

    `versions` has the version of each forecast that it used, by link. Where no order keeps every longest wait, there is no plan: `delay` is
    None and `sequence` empty. Else `delay` is in thousandths of a vehicle times weight times seconds, and `sequence` has the phases in the
    order in which their clusters are served.
    """

    round: int
    node: str
    versions: dict[str, int]
    delay: int | None
    sequence: tuple[int, ...]

    @property
    def is_found(self) -> bool:
        """Whether there is a plan; the report says `none` where there is not."""
        return self.delay is not None


@dataclass(frozen=True, slots=True)
class Green:
    """A green of a phase of a node, from second `begin` up to second `end`, which is no second of green any more."""

    node: str
    phase: int
    begin: int
    end: int

    @property
    def seconds(self) -> int:
        """How long it lasts."""
        return self.end - self.begin


@dataclass(frozen=True, slots=True)
class LinkTotals:
    """What a link counted in the whole run: what entered and left it, in thousandths of a vehicle, and the delay on it."""

    link: str
    entered: int
    left: int
    delay: int


@dataclass(frozen=True, slots=True)
class Totals:
    """What the network counted: what entered and left it and is still on its links, in thousandths of a vehicle, and the delay."""

    entered: int
    left: int
    on_links: int
    delay: int


@dataclass(frozen=True, slots=True)
class Records:
    """The records of a report by their kinds, in the order of the file. Those of `actuate` and `fixed` have no steps and no plans."""

    steps: list[Step] = field(default_factory=list)
    plans: list[Plan] = field(default_factory=list)
    greens: list[Green] = field(default_factory=list)
    links: list[LinkTotals] = field(default_factory=list)
    totals: Totals | None = None

    def greens_of(self) -> dict[str, list[Green]]:
        """The greens of each node, in the order of time."""
        greens = defaultdict(list)
        for green in self.greens:
            greens[green.node].append(green)
        return {node: sorted(of_node, key=lambda green: green.begin) for node, of_node in greens.items()}

    def require_network(self, network: Network, place: Place = "the report") -> None:
        """Raises a fault where this is no report of the network: a node, a phase or a link is not one of it."""
        for green in self.greens:
            node = network.node_named(green.node)
            if node is None:
                raise Fault(f"{place}: a green is of node {quote(green.node)}, which the network has not: is it of another network?")
            if green.phase >= len(node.phases):
                raise Fault(f"{place}: a green is of phase {green.phase} of node {quote(green.node)}, which has {len(node.phases)} phases")
        here, there = [totals.link for totals in self.links], [link.name for link in network.links]
        if here and here != there:
            raise Fault(f"{place}: its links are not those of the network: is it a report of another network?")


def read_report(place: Place) -> Records:
    """The records of the report in a file; a record that is none of a report raises a fault with its line."""
    return records_of_report(place, text_of(place))


def records_of_report(place: Place, text: str) -> Records:
    """The records of the text of a report; faults name the place from which it is."""
    report: dict[str, list] = {kind: [] for kind in READERS}
    for row in rows_of(place, text, HEADER):
        kind = row.fields[0]
        if kind not in READERS:
            raise Fault(f"{place}:{row.line}: the kind is {quote(kind)}, and has to be one of {', '.join(READERS)}")
        report[kind].append(READERS[kind](place, row))
    if len(report["total"]) > 1:
        raise Fault(f"{place}: there are {len(report['total'])} records `total`, and has to be one")
    return Records(report["step"], report["plan"], report["green"], report["link"], next(iter(report["total"]), None))


def _numbers(place: Place, row: Record, **cells: int) -> list[int]:
    """The numbers in the fields at these places of a row; each place is given by the name of what is there."""
    names = {name: name.replace("_", " ") for name in cells}
    return [number_in(place, row.line, f"{names[name]} of a {row.fields[0]}", row.fields[at]) for name, at in cells.items()]


def _step(place: Place, row: Record) -> Step:
    turn, version = _numbers(place, row, round=1, version=5)
    return Step(turn, row.fields[2], row.fields[3], row.fields[4], version)


def _plan(place: Place, row: Record) -> Plan:
    _, _, node, used, found, delay, sequence = row.fields
    (turn,) = _numbers(place, row, round=1)
    versions = {}
    for pair in filter(None, used.split(";")):
        link, _, version = pair.rpartition("=")
        versions[link] = number_in(place, row.line, f"version of {quote(link)}", version)
    if found == "none":
        return Plan(turn, node, versions, None, ())
    if found != "plan":
        raise Fault(f"{place}:{row.line}: y of a plan is {quote(found)}, and has to be `plan` or `none`")
    (cost,) = _numbers(place, row, delay=5)
    phases = tuple(number_in(place, row.line, "a phase of the sequence", phase) for phase in sequence)
    return Plan(turn, node, versions, cost, phases)


def _green(place: Place, row: Record) -> Green:
    phase, begin, end = _numbers(place, row, phase=3, begin=4, end=5)
    if not begin < end <= MOST_SECOND:
        raise Fault(f"{place}:{row.line}: a green goes from second {begin} to {end}, and has to end after it begins, by second {MOST_SECOND:,}")
    return Green(row.fields[2], phase, begin, end)


def _link(place: Place, row: Record) -> LinkTotals:
    return LinkTotals(row.fields[3], *_numbers(place, row, entered=4, left=5, delay=6))


def _total(place: Place, row: Record) -> Totals:
    return Totals(*_numbers(place, row, entered=3, left=4, on_links=5, delay=6))


READERS = {"step": _step, "plan": _plan, "green": _green, "link": _link, "total": _total}
