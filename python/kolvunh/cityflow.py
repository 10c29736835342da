"""Makes a network file and arrivals of CityFlow's files.

    tools/sumo/from_cityflow.py ROADNET.json FLOW.json DIR

An intersection with traffic lights is a node, and its light phases are its phases; one that only has links which every other phase
has too is the change between two greens. A node has 4 phases at most: what is left out is told on standard error, as is all else that
the file can't say. Turns to the right that are free in every phase are green in each phase, and give way. CityFlow says no conflicts:
two ways cross where their points do, or where they lead into one road; then a turn to the right gives way to all others, and one to the
left to those who go straight on.

Writes DIR/net.toml, DIR/arrivals.csv, DIR/places.csv for to-sumo, and DIR/names.csv, which says for each node, phase and link what it
is in CityFlow. Nothing here is proved.
"""

import itertools
import json
import math
from collections import Counter
from collections.abc import Iterator, Mapping, Sequence
from functools import cache
from pathlib import Path
from typing import Any

from .commands import Words, end
from .faults import Fault
from .networks import MOST_SECONDS
from .records import Place, quote, text_of
from .sumo.demand import MOST_VEHICLES, Vehicle
from .sumo.drafts import Draft, write_draft
from .sumo.from_sumo import tell
from .sumo.groups import Node
from .sumo.streets import Edge, Lane, Movement, Point, direction

DIRECTIONS = {"go_straight": "s", "turn_left": "l", "turn_right": "r"}
RANKS = {"r": 0, "l": 1, "s": 2}  # who gives way to whom: the less to the greater
YELLOW = 3  # seconds


def json_of(path: Place) -> Any:
    """What a file of JSON holds."""
    try:
        return json.loads(text_of(path), parse_constant=_no_number, parse_float=_finite)
    except RecursionError as fault:
        raise Fault(f"{path}: it is no JSON that can be read: lists or tables are in one another without an end") from fault
    except ValueError as fault:
        raise Fault(f"{path}: it is no JSON: {fault}") from fault


def _no_number(text: str) -> float:
    raise ValueError(f"{text} is no number")


def _finite(text: str) -> float:
    return float(text) if math.isfinite(float(text)) else _no_number(text)


def point_of(table: Mapping[str, Any]) -> Point:
    """A place in metres."""
    return float(table["x"]), float(table["y"])


def segments_cross(a: Point, b: Point, c: Point, d: Point) -> bool:
    """Whether the way from a to b and that from c to d have a point in common."""

    def side(p: Point, q: Point, r: Point) -> float:
        return (q[0] - p[0]) * (r[1] - p[1]) - (q[1] - p[1]) * (r[0] - p[0])

    return side(a, b, c) * side(a, b, d) <= 0 and side(c, d, a) * side(c, d, b) <= 0


class Crossing:
    """An intersection: its ways by number, each with roads, where it turns, and the points of its outer lanes."""

    def __init__(self, table: Mapping[str, Any]) -> None:
        self.name, self.ways = table["id"], table["roadLinks"]
        self.directions = [DIRECTIONS.get(way["type"], "s") for way in self.ways]
        self.points = [[[point_of(at) for at in lane.get("points", [])] for lane in way["laneLinks"]] for way in self.ways]
        self._cross = cache(self._ways_cross)

    def moves(self) -> Iterator[Movement]:
        """A movement for each way and each lane from which it starts."""
        for number, way in enumerate(self.ways):
            exits = {lane["startLaneIndex"]: lane["endLaneIndex"] for lane in reversed(way["laneLinks"])}
            for lane, exit_lane in sorted(exits.items()):
                ends = f"{way['startRoad']}_{lane}", f"{way['endRoad']}_{exit_lane}"
                yield Movement(*ends, number, self.name, number, self.directions[number])

    def _ways_cross(self, one: int, other: int) -> bool:
        """Whether two ways from different roads lead into one road, or their points cross."""
        a, b = self.ways[one], self.ways[other]
        if a["startRoad"] == b["startRoad"]:
            return False
        if a["endRoad"] == b["endRoad"]:
            return True
        outer = [(lanes[0], lanes[-1]) if lanes else () for lanes in (self.points[one], self.points[other])]
        pairs = (pair for lanes in itertools.product(*outer) for pair in itertools.product(*map(list, map(itertools.pairwise, lanes))))
        return any(segments_cross(*first, *second) for first, second in pairs)

    def cross(self, one: Movement, other: Movement) -> bool:
        """Whether two movements cross or merge."""
        return self._cross(min(one.number, other.number), max(one.number, other.number))

    def gives_way(self, one: Movement, other: Movement) -> bool:
        """Whether the first of two movements that cross gives way."""
        return RANKS[self.directions[one.number]] < RANKS[self.directions[other.number]]

    def states(self, light: Mapping[str, Any]) -> tuple[list[tuple[float, str]], int]:
        """The light phases as states with their seconds, each with a yellow, and the seconds of a change, 0 where it has none."""
        open_ways = [(float(phase["time"]), frozenset(phase["availableRoadLinks"])) for phase in light["lightphases"]]
        always = frozenset.intersection(*(ways for _, ways in open_ways)) if open_ways else frozenset()
        change = max((int(seconds) for seconds, ways in open_ways if ways == always), default=0)
        found: list[tuple[float, str]] = []
        for seconds, ways in open_ways:
            if ways != always:
                found.append((seconds, "".join(self._letter(way, ways) for way in range(len(self.ways)))))
                found += [(YELLOW, "y" * len(self.ways)), (max(0, change - YELLOW), "r" * len(self.ways))]
        return found, change

    def _letter(self, way: int, ways: frozenset[int]) -> str:
        if way not in ways:
            return "r"
        rank = RANKS[self.directions[way]]
        gives = any(self._cross(min(way, other), max(way, other)) and rank < RANKS[self.directions[other]] for other in ways - {way})
        return "g" if gives else "G"


class RoadNet:
    """CityFlow's roads as edges, its intersections as nodes where they can be, and where they are in metres; what is told."""

    def __init__(self, path: Place) -> None:
        self.path, self.told = path, Counter[str]()
        try:
            tables = json_of(path)
            self.places = {place["id"]: point_of(place["point"]) for place in tables["intersections"]}
            self.edges = {road["id"]: road_edge(road) for road in tables["roads"]}
            self.nodes = dict(self._nodes(tables["intersections"]))
            self.onward = {(way["startRoad"], way["endRoad"]) for place in tables["intersections"] for way in place["roadLinks"]}
        except (KeyError, TypeError, IndexError, ValueError) as fault:
            raise Fault(f"{path}: it is no roadnet of CityFlow: {type(fault).__name__} {fault}") from fault

    def _nodes(self, tables: Sequence[Mapping[str, Any]]) -> Iterator[tuple[str, Node]]:
        for table in tables:
            light = table.get("trafficLight") or {}
            if table.get("virtual") or not light.get("lightphases"):
                continue
            crossing = Crossing(table)
            states, change = crossing.states(light)
            node = Node(crossing.name, list(crossing.moves()), states, crossing)
            for loss in (*node.losses, *node.reasons()):
                self.told[f"{loss.words}{', and is no node' if loss in node.reasons() else ''}; signals"] += 1
            if not change and not node.reasons():
                self.told[f"no change between two light phases: there are {YELLOW} s of yellow; signals"] += 1
            if not node.reasons():
                yield crossing.name, node

    def vehicles(self, path: Place, until: float) -> list[Vehicle]:
        """The vehicles of a file of flows that start before a second, each with its roads."""
        found: list[Vehicle] = []
        try:
            for flow in json_of(path):
                route, begin, last = tuple(flow["route"]), float(flow["startTime"]), float(flow["endTime"])
                self._require(path, route)
                if begin < 0:
                    raise ValueError(f"startTime is {begin:g}, and has to be 0 or more")
                interval, last = max(0.1, float(flow["interval"])), last if last >= 0 else math.inf
                count = math.floor((min(last, until) - begin) / interval) + 1 if begin <= min(last, until) else 0
                seconds = [begin + interval * number for number in range(min(count, MOST_VEHICLES + 1))]
                found += [Vehicle(second, route) for second in seconds if second < until]
                if len(found) > MOST_VEHICLES:
                    raise Fault(f"{path}: it has more than {MOST_VEHICLES:,} vehicles: take a part of it")
                if last >= until:
                    self.told[f"flows that go on after second {until:.0f}, of which what comes later is left out"] += 1
        except (KeyError, TypeError, ValueError) as fault:
            raise Fault(f"{path}: it is no flow of CityFlow: {type(fault).__name__} {fault}") from fault
        if not found:
            raise Fault(f"{path}: there is no vehicle in it, and no network without vehicles")
        return found

    def _require(self, path: Place, route: Sequence[str]) -> None:
        if not route:
            raise Fault(f"{path}: a flow has no road in its route")
        strange = next((road for road in route if road not in self.edges), None)
        if strange is not None:
            raise Fault(f"{path}: a route names road {quote(strange)}, which the roadnet has not")
        gap = next((pair for pair in itertools.pairwise(route) if pair not in self.onward), None)
        if gap:
            raise Fault(f"{path}: a route goes from road {quote(gap[0])} to {quote(gap[1])}, and no way leads there")


def road_edge(road: Mapping[str, Any]) -> Edge:
    """A road as an edge; CityFlow numbers lanes from the left."""
    points = [point_of(point) for point in road["points"]]
    length = max(1.0, sum(math.dist(a, b) for a, b in itertools.pairwise(points)))
    slow = next((lane["maxSpeed"] for lane in road["lanes"] if float(lane["maxSpeed"]) <= 0), None)
    if slow is not None:
        raise ValueError(f"maxSpeed of road {quote(road['id'])} is {slow}, and has to be above 0")
    lanes = [Lane(f"{road['id']}_{n}", length, float(lane["maxSpeed"])) for n, lane in enumerate(road["lanes"])]
    ways = direction(*points[:2]), direction(*points[-2:])
    return Edge(road["startIntersection"], road["endIntersection"], tuple(lanes), *ways)


def work() -> None:
    """Writes the files."""
    parser = Words(__doc__)
    parser.add_argument("roadnet", type=Path, metavar="ROADNET")
    parser.add_argument("flow", type=Path, metavar="FLOW")
    parser.add_argument("folder", type=Path, metavar="DIR")
    options = parser.parse_args()
    net = RoadNet(options.roadnet)
    if not net.nodes:
        raise Fault(f"{options.roadnet}: no intersection has light phases that a node could have")
    draft = Draft(net.edges, net.places, net.nodes, net.vehicles(options.flow, MOST_SECONDS))
    if not draft.links:
        raise Fault(f"{options.flow}: no vehicle passes an intersection that is a node")
    write_draft(draft, options.folder)
    tell(iter(()), {**net.told, **draft.told})


def main() -> None:
    """Runs the command."""
    end(work)
