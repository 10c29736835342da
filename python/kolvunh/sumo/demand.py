"""Who drives and walks in SUMO: routes, trips, flows, turns and counts of edges as vehicles with their edges. Nothing here is proved.

A flow's vehicles come evenly, also where SUMO draws them. A trip takes the quickest way. Turns and counts say no routes: vehicles start
on the counted edges to which no counted edge leads, or where a flow without an end begins, and their turns are drawn from a number.
"""

import math
import random
import re
import xml.etree.ElementTree as ElementTree
from collections import Counter, defaultdict
from collections.abc import Sequence
from typing import NamedTuple

from ..faults import Fault
from ..records import Place, quote
from .groups import WALKING
from .streets import Streets, as_sumo_writes, finite, number, quickest, read_root

MOST_EDGES = 1000  # of a vehicle whose turns are drawn
MOST_VEHICLES = 2_000_000  # of one run: their arrivals sum to as much as a run may have
HOUR, DAY = 3600, 86_400  # seconds


class Vehicle(NamedTuple):
    """A vehicle, or one on foot: when it starts, in seconds, and its edges, of people the crossings."""

    second: float
    edges: tuple[str, ...]


Weights = dict[str, float]


class Demand:
    """Vehicles up to an end, people at crossings, and in `told` what was done where a file can't be followed."""

    def __init__(self, streets: Streets, end: int, seed: int = 1) -> None:
        self.streets, self.end, self.told = streets, end, Counter[str]()
        self.vehicles: list[Vehicle] = []
        self.walkers: list[Vehicle] = []
        self._draw, self._routes = random.Random(seed), dict[str, list[tuple[float, tuple[str, ...]]]]()
        self._turns: list[tuple[float, float, dict[str, Weights]]] = []
        self._sinks: set[str] = set()
        self._ways: dict[tuple[str, ...], tuple[str, ...]] = {}
        self._paths: dict[str, list[str]] | None = None

    def read_routes(self, path: Place) -> None:
        """Adds the vehicles of a file of routes, trips and flows."""
        self._path = path
        root = read_root(path, "routes", "additional", "trips", "flows", "route-alternatives")
        before = len(self.vehicles) + len(self.walkers) + self.told.total()
        with as_sumo_writes(path):
            for row in root:
                if row.tag in ("route", "routeDistribution"):
                    self._routes[row.get("id", "")] = self._choices(row)
            for row in root:
                self._add(row)
        if before == len(self.vehicles) + len(self.walkers) + self.told.total():
            raise Fault(f"{path}: there is no vehicle in it, and no network without vehicles")

    def _add(self, row: ElementTree.Element) -> None:
        if row.tag == "interval":
            for flow in row.iter("flow"):
                self._add_flow(flow, seconds_of(row.get("begin", "0")), seconds_of(row.get("end", str(DAY))))
        elif row.tag == "flow":
            self._add_flow(row, 0, DAY)
        elif row.tag in ("vehicle", "trip"):
            self._add_one(row)
        elif row.tag in ("person", "personFlow"):
            self._add_walks(row)

    def read_turns(self, path: Place) -> None:
        """Takes the shares of turns of a file of jtrrouter: counts or probabilities from edge to edge in an interval."""
        root = read_root(path, "edgeRelations", "turns", "data", "turn-definitions", "additional")
        self._sinks |= {edge for row in root.iter("sink") for edge in row.get("edges", "").split()}
        for interval in root.iter("interval"):
            weights: dict[str, Weights] = defaultdict(dict)
            pairs = [(row.get("from", ""), row.get("to", ""), row) for row in interval.iter("edgeRelation")]
            for start in interval.iter("fromEdge"):
                pairs += [(start.get("id", ""), row.get("id", ""), row) for row in start.iter("toEdge")]
            for start, exit, row in pairs:
                self._require(path, "a turn", [start, exit])
                weights[start][exit] = weights[start].get(exit, 0) + number_of(path, row, "count", "probability")
            self._turns.append((*span_of(interval), weights))

    def read_counts(self, path: Place) -> None:
        """Adds the vehicles of a file of counts: `entered` or `count` of edges in intervals."""
        for interval in read_root(path, "data", "meandata", "edgedata", "additional").iter("interval"):
            begin, end = span_of(interval)
            counts = {row.get("id", ""): number_of(path, row, "entered", "count") for row in interval.iter("edge")}
            self._require(path, "a count", counts)
            self._turns.append((begin, end, {edge: self._by_counts(edge, counts) for edge in self.streets.edges}))
            for edge, count in counts.items():
                if not self._is_fed(edge, counts):
                    self._spread(begin, end, round(count), [(1.0, (edge,))], draws=True)
        if not self.vehicles:
            raise Fault(f"{path}: no edge is counted on which vehicles could start")

    def _by_counts(self, edge: str, counts: Weights) -> Weights:
        return {exit: counts[exit] for exit in self.streets.onward[edge] if counts.get(exit)}

    def _is_fed(self, edge: str, counts: Weights) -> bool:
        """Whether a counted edge leads to this one."""
        before, seen = [edge], {edge}
        while before:
            at = before.pop()
            for other in self.streets.before[at]:
                if other in counts:
                    return True
                if other not in seen:
                    seen.add(other)
                    before.append(other)
        return False

    def _require(self, path: Place, what: str, edges: Sequence[str] | Weights) -> None:
        strange = next((edge for edge in edges if edge not in self.streets.edges), None)
        if strange is not None:
            raise Fault(f"{path}: {what} names edge {quote(strange)}, which the network has not for vehicles")

    def _choices(self, row: ElementTree.Element) -> list[tuple[float, tuple[str, ...]]]:
        """The routes of an element, each with its weight."""
        if row.tag == "route":
            return [(number(row, "probability", 1), self._route(row))]
        found = []
        for route in row.iter("route"):
            if "refId" in route.attrib:
                found += [(number(route, "probability", 1), edges) for _, edges in self._routes.get(route.get("refId", ""), [])]
            else:
                found.append((number(route, "probability", 1), self._route(route)))
        names, shares = row.get("routes", "").split(), row.get("probabilities", "").split()
        for place, name in enumerate(names):
            weight = finite(shares[place], f"a probability of <{row.tag}>") if place < len(shares) else 1.0
            found += [(weight, edges) for _, edges in self._routes.get(name, [])]
        return found

    def _route(self, row: ElementTree.Element) -> tuple[str, ...]:
        edges = tuple(row.get("edges", "").split())
        self._require(self._path, f"the route {quote(row.get('id', ''))}" if "id" in row.attrib else "a route", edges)
        if not edges:
            raise Fault(f"{self._path}: a route has no edges")
        for start, exit in zip(edges, edges[1:]):
            if exit not in self.streets.onward[start]:
                raise Fault(f"{self._path}: a route goes from edge {quote(start)} to {quote(exit)}, and nothing leads there")
        return edges

    def _ways_of(self, row: ElementTree.Element) -> tuple[list[tuple[float, tuple[str, ...]]], bool]:
        """The ways of a vehicle, trip or flow with their weights, and whether its turns are to be drawn."""
        name = f"{row.tag} {quote(row.get('id', ''))}"
        inside = next((child for child in row if child.tag in ("route", "routeDistribution")), None)
        if inside is not None:
            return self._choices(inside), False
        if "route" in row.attrib:
            if not self._routes.get(row.get("route", "")):
                raise Fault(f"{self._path}: {name} has route {quote(row.get('route', ''))}, which is not in the file")
            return self._routes[row.get("route", "")], False
        stops = [row.get("from"), *row.get("via", "").split(), row.get("to")]
        edges = tuple(edge for edge in stops if edge)
        self._require(self._path, name, edges)
        if row.get("from") and not row.get("to"):
            return [(1.0, edges[:1])], True
        way = self._way(edges)
        if not way:
            stops = f" from edge {edges[0]} to {edges[-1]}" if edges else ""
            self.told[f"vehicles that have no way{stops}, left out"] += 1
        return ([(1.0, way)] if way else []), False

    def _way(self, stops: tuple[str, ...]) -> tuple[str, ...]:
        """The quickest way over these edges, empty where there is none."""
        if stops not in self._ways:
            way: list[str] = list(stops[:1])
            for start, end in zip(stops, stops[1:]):
                found = self.streets.route(start, end)
                way = way + found[1:] if way and found else []
            self._ways[stops] = tuple(way)
        return self._ways[stops]

    def _add_one(self, row: ElementTree.Element) -> None:
        second = seconds_of(row.get("depart", "0"))
        if second is None:
            self.told["vehicles that start by something else than a time, left out"] += 1
            return
        ways, draws = self._ways_of(row)
        self._spread(second, second, 1, ways, draws)

    def _add_flow(self, row: ElementTree.Element, begin: float, end: float) -> None:
        begin, end = seconds_of(row.get("begin", str(begin))) or 0, seconds_of(row.get("end", str(end))) or DAY
        ways, draws = self._ways_of(row)
        if "number" in row.attrib and "end" not in row.attrib and (hourly := rate_of(self._path, row, HOUR)):
            end = begin + HOUR * number_of(self._path, row, "number") / hourly
        self._spread(begin, end, round(vehicles_of(self._path, row, end - begin)), ways, draws)

    def _spread(self, begin: float, end: float, count: int, ways: Sequence[tuple[float, tuple[str, ...]]], draws: bool = False) -> None:
        """Adds so many vehicles, evenly from begin to end; which of the ways each takes goes by the weights."""
        taken, total = [0.0] * len(ways), sum(weight for weight, _ in ways)
        for number in range(count if ways else 0):
            second = begin + (end - begin) * number / count
            if second >= self.end:
                self.told[f"vehicles that start after second {self.end}, left out"] += count - number
                return
            if second < 0:
                self.told["vehicles that start before second 0, left out"] += 1
                continue
            taken = [sum_ + weight for sum_, (weight, _) in zip(taken, ways)]
            place = max(range(len(ways)), key=lambda way: taken[way])
            taken[place] -= total
            edges = self._drawn(second, ways[place][1][0]) if draws else ways[place][1]
            self.vehicles.append(Vehicle(second, edges))
            if len(self.vehicles) > MOST_VEHICLES:
                raise Fault(f"{self._path}: there are more than {MOST_VEHICLES:,} vehicles: take a part of them")

    def _drawn(self, second: float, edge: str) -> tuple[str, ...]:
        """A way from an edge on, its turns drawn."""
        way = [edge]
        while len(way) < MOST_EDGES and way[-1] not in self._sinks and (exits := self.streets.onward[way[-1]]):
            weights = next((of[way[-1]] for begin, end, of in self._turns if begin <= second < end and of.get(way[-1])), None)
            if weights is None and len(exits) > 1:
                self.told[f"edge {way[-1]}: no turns are told, and its vehicles turn equally"] = 0
            chosen = {exit: weight for exit, weight in (weights or dict.fromkeys(exits, 1.0)).items() if exit in exits}
            if not chosen:
                break
            way += self._draw.choices(list(chosen), list(chosen.values()))
        return tuple(way)

    def _add_walks(self, row: ElementTree.Element) -> None:
        """Adds what a person or a flow of persons crosses."""
        count, begin, end = 1.0, seconds_of(row.get("depart", row.get("begin", "0"))), 0.0
        if begin is None:
            return
        if row.tag == "personFlow":
            end = seconds_of(row.get("end", str(DAY))) or DAY
            count = vehicles_of(self._path, row, end - begin)
        for number in range(round(count)):
            second, at = begin + max(0, end - begin) * number / count, row.get("from", "")
            if second >= self.end:
                break
            for stage in row:
                edges = stage.get("edges", "").split()
                start, to = stage.get("from", (edges or [at])[0]), stage.get("to", (edges or [at])[-1])
                if stage.tag in ("walk", "personTrip"):
                    second = self._walk(second, start, to)
                at = to

    def _walk(self, second: float, start: str, end: str) -> float:
        """Adds a walk from edge to edge by the crossings that it takes; answers when it is over."""
        if self._paths is None:
            self._paths = self.streets.paths()
        lengths = self.streets.lengths
        way = quickest(start, end, lambda at: ((to, lengths.get(f"{to}_0", 0) / WALKING) for to in self._paths.get(at, [])))
        for at in way or []:
            if at.startswith(":") and "_c" in at:
                self.walkers.append(Vehicle(second, (f"{at}_0",)))
            second += lengths.get(f"{at}_0", 0) / WALKING
        return second


def seconds_of(text: str) -> float | None:
    """A time of SUMO in seconds, also as hours, minutes and seconds; None where it is none."""
    parts = text.split(":")
    try:
        values = [float(part) for part in parts]
    except ValueError:
        return None
    seconds = sum(value * scale for value, scale in zip(reversed(values), (1, 60, 3600, DAY)))
    return seconds if math.isfinite(seconds) else None


def span_of(row: ElementTree.Element) -> tuple[float, float]:
    """Begin and end of an interval, in seconds."""
    return seconds_of(row.get("begin", "0")) or 0, seconds_of(row.get("end", str(DAY))) or DAY


def number_of(path: Place, row: ElementTree.Element, *names: str) -> float:
    """The number of the first of these attributes that an element has."""
    named = next((name for name in names if name in row.attrib), names[0])
    try:
        return number(row, named, absent=math.nan)
    except ValueError as fault:
        raise Fault(f"{path}: <{row.tag}> has no number {' or '.join(names)}") from fault


def vehicles_of(path: Place, row: ElementTree.Element, seconds: float) -> float:
    """How many vehicles a flow has in these seconds."""
    if "number" in row.attrib:
        return number_of(path, row, "number")
    rate = rate_of(path, row, seconds)
    return number_of(path, row, "number", "period", "vehsPerHour", "probability") if rate is None else rate


def rate_of(path: Place, row: ElementTree.Element, seconds: float) -> float | None:
    """How many vehicles a flow has in these seconds by its period, its rate or its probability in a second; None where it says none."""
    if rate := re.fullmatch(r"exp\((\d+\.?\d*|\.\d+)\)", row.get("period", "")):
        return seconds * float(rate[1])
    if "period" in row.attrib:
        return seconds / max(0.1, number_of(path, row, "period"))
    hourly = next((name for name in ("vehsPerHour", "perHour", "personsPerHour") if name in row.attrib), None)
    if hourly:
        return seconds * number_of(path, row, hourly) / HOUR
    return seconds * number_of(path, row, "probability") if "probability" in row.attrib else None
