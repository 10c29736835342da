"""What SUMO's network says: which edges lead into which, the programs of its signals, and who crosses whom. Nothing here is proved."""

import gzip
import heapq
import math
import re
import xml.etree.ElementTree as ElementTree
from collections import defaultdict
from collections.abc import Callable, Iterable, Iterator
from contextlib import contextmanager
from typing import NamedTuple

from ..faults import Fault
from ..records import Place

Point = tuple[float, float]
WALKS = "walk"  # the direction of a movement of people on foot


def read_root(path: Place, *tags: str) -> ElementTree.Element:
    """The root of an XML file, packed by gzip or not, which has to be one of these."""
    try:
        with open(path, "rb") as file:
            packed = file.read(2) == b"\x1f\x8b"
        with gzip.open(path) if packed else open(path, "rb") as file:
            root = ElementTree.parse(file).getroot()
    except OSError as fault:
        raise Fault(f"{path}: {fault.strerror or fault}") from fault
    except (ElementTree.ParseError, EOFError) as fault:
        raise Fault(f"{path}: it is no XML: {fault}") from fault
    if root.tag not in tags:
        raise Fault(f"{path}: its first element is <{root.tag}>, and has to be <{'> or <'.join(tags)}>")
    return root


@contextmanager
def as_sumo_writes(path: Place) -> Iterator[None]:
    """Raises a fault that names the file where a number or a lane in it is none."""
    try:
        yield
    except ValueError as fault:
        raise Fault(f"{path}: it is not as SUMO writes it: {fault}") from fault


def finite(text: str | float, what: str) -> float:
    """The number that a text is; a ValueError where it is none, or is not finite."""
    value = float(text)
    if not math.isfinite(value):
        raise ValueError(f"{what} is {value}")
    return value


def number(row: ElementTree.Element, name: str, absent: float = 0) -> float:
    """The number that an attribute of an element is."""
    return finite(row.get(name, absent), f"{name} of <{row.tag}>")


def edge_of(lane: str) -> str:
    """The edge of a lane."""
    return lane.rpartition("_")[0]


class Movement(NamedTuple):
    """A way through a junction: from lane to lane, its place in the signal's state, its number at the junction, and where it turns.

    Of a crossing `lane` is its own, and `over` has the edges that it goes over. `room` is how many metres there are within the junction
    for those who give way.
    """

    lane: str
    exit_lane: str
    index: int
    junction: str
    number: int
    direction: str = "s"
    over: tuple[str, ...] = ()
    room: float = 0


class Junctions:
    """Of SUMO's signals: movements of vehicles, crossings of people, who crosses or gives way, and the lane after one in a junction."""

    def __init__(self, root: ElementTree.Element) -> None:
        self.movements: dict[str, list[Movement]] = defaultdict(list)
        self.crossings: dict[str, list[Movement]] = defaultdict(list)
        self.after: dict[str, str] = {}
        self._requests: dict[str, list[tuple[str, str]]] = {}
        numbers = {}
        lengths = {lane.get("id", ""): number(lane, "length") for lane in root.iter("lane")}
        # An internal junction, where vehicles wait in the middle, lists lanes of its junction at other places.
        for junction in (found for found in root.iter("junction") if found.get("type") != "internal"):
            rows = junction.findall("request")
            self._requests[junction.get("id", "")] = [(row.get("foes", "")[::-1], row.get("response", "")[::-1]) for row in rows]
            numbers |= {lane: n for n, lane in enumerate(junction.get("intLanes", "").split()) if "_c" in lane}
        over = {edge.get("id", ""): tuple(edge.get("crossingEdges", "").split()) for edge in root.iter("edge")}
        # Who gives way within a junction waits at the end of a lane that another one of the junction goes on from.
        rooms = {row.get("from", ""): row.get("via") for row in root.iter("connection") if row.get("from", "").startswith(":")}
        for row in root.iter("connection"):
            via = row.get("via", "")
            self._add(row, numbers, over, lengths.get(via, 0) if rooms.get(edge_of(via)) else 0)

    def _add(self, row: ElementTree.Element, numbers: dict[str, int], over: dict[str, tuple[str, ...]], room: float) -> None:
        lane, exit_lane = f"{row.get('from')}_{row.get('fromLane')}", f"{row.get('to')}_{row.get('toLane')}"
        if lane.startswith(":"):
            self.after[lane] = exit_lane
        signal, direction = row.get("tl"), row.get("dir", "s")
        if signal and "via" in row.attrib:
            within = re.fullmatch(r":(.*)_(\d+)_(\d+)", row.get("via", ""))
            if within is None:
                raise ValueError(f"via of <connection> is no lane within a junction: {row.get('via')!r}")
            place = int(row.get("linkIndex", 0)), within[1], int(within[2]) + int(within[3]), direction
            self.movements[signal].append(Movement(lane, exit_lane, *place, room=room))
        elif signal and exit_lane in numbers:
            junction = re.sub(r"_c\d+_\d+$", "", exit_lane[1:])
            place = int(row.get("linkIndex", 0)), junction, numbers[exit_lane], WALKS
            self.crossings[signal].append(Movement(exit_lane, "", *place, over.get(edge_of(exit_lane), ())))

    def _row(self, one: Movement, column: int) -> str:
        rows = self._requests.get(one.junction, [])
        return rows[one.number][column] if one.number < len(rows) else ""

    def cross(self, one: Movement, other: Movement) -> bool:
        """Whether two movements cross or merge."""
        return one.junction == other.junction and self._row(one, 0)[other.number : other.number + 1] == "1"

    def gives_way(self, one: Movement, other: Movement) -> bool:
        """Whether the first of two movements gives way where both are green as `g`."""
        return one.junction == other.junction and self._row(one, 1)[other.number : other.number + 1] == "1"


class Lane(NamedTuple):
    """A lane of an edge: metres, and metres a second."""

    name: str
    length: float
    speed: float


class Edge(NamedTuple):
    """An edge between two junctions of SUMO, with its lanes for vehicles from the right, and where it heads at its begin and end."""

    start: str
    end: str
    lanes: tuple[Lane, ...]
    first: Point = (0, 0)
    last: Point = (0, 0)

    @property
    def seconds(self) -> float:
        """How long free driving over it takes."""
        return self.lanes[0].length / self.lanes[0].speed


class Program(NamedTuple):
    """A signal's program: the seconds of each state and the state."""

    name: str
    states: tuple[tuple[float, str], ...]


class Streets:
    """SUMO's edges and which lead into which, where its junctions are in metres, and the programs of its signals."""

    def __init__(self, path: Place) -> None:
        self.path = path
        with as_sumo_writes(path):
            self._read(read_root(path, "net"))

    def _read(self, root: ElementTree.Element) -> None:
        self.junctions, self.left_hand = Junctions(root), root.get("lefthand") == "true"
        self.edges = {edge.get("id", ""): _edge(edge) for edge in root.iter("edge") if edge.get("function", "normal") == "normal"}
        self.edges = {name: edge for name, edge in self.edges.items() if edge.lanes}
        self.places = {place.get("id", ""): (number(place, "x"), number(place, "y")) for place in root.iter("junction")}
        self.onward: dict[str, list[str]] = defaultdict(list)
        for way in root.iter("connection"):
            start, exit = way.get("from", ""), way.get("to", "")
            if start in self.edges and exit in self.edges and exit not in self.onward[start]:
                self.onward[start].append(exit)
        self.before: dict[str, list[str]] = defaultdict(list)
        for start, exits in self.onward.items():
            for exit in exits:
                self.before[exit].append(start)
        self._root = root
        self.lengths = {lane.get("id", ""): number(lane, "length") for lane in root.iter("lane")}
        self.programs: dict[str, list[Program]] = defaultdict(list)
        for logic in root.iter("tlLogic"):
            states = tuple((number(row, "duration"), row.get("state", "")) for row in logic.iter("phase"))
            self.programs[logic.get("id", "")].append(Program(logic.get("programID", ""), states))

    def route(self, start: str, end: str) -> list[str] | None:
        """The edges of the quickest way from edge to edge, or None."""
        return quickest(start, end, lambda edge: ((onward, self.edges[onward].seconds) for onward in self.onward[edge]))

    def paths(self) -> dict[str, list[str]]:
        """Which edges, crossings and corners people on foot go between, in either direction."""
        found: dict[str, list[str]] = defaultdict(list)
        for way in self._root.iter("connection"):
            start, exit = way.get("from", ""), way.get("to", "")
            if any(re.fullmatch(r":.*_[cw]\d+", end) for end in (start, exit)):
                found[start].append(exit)
                found[exit].append(start)
        return found


def _edge(row: ElementTree.Element) -> Edge:
    rows = [lane for lane in row.iter("lane") if lane.get("allow") != "pedestrian" and lane.get("disallow") != "all"]
    lanes = (Lane(lane.get("id", ""), number(lane, "length"), max(0.1, number(lane, "speed"))) for lane in rows)
    points = (point.split(",") for point in (rows[0].get("shape", "") if rows else "").split())
    shape = [(finite(x, "shape of <lane>"), finite(y, "shape of <lane>")) for x, y, *_ in points]
    ways = [direction(*shape[:2]), direction(*shape[-2:])] if len(shape) > 1 else []
    return Edge(row.get("from", ""), row.get("to", ""), tuple(lanes), *ways)


def direction(start: Point, end: Point) -> Point:
    """The way from a place to another, a metre long."""
    length = math.dist(start, end) or 1.0
    return (end[0] - start[0]) / length, (end[1] - start[1]) / length


def quickest(start: str, end: str, onward: Callable[[str], Iterable[tuple[str, float]]]) -> list[str] | None:
    """The way from start to end with the least sum of seconds, or None; `onward` has what comes next and its seconds."""
    ways = [(0.0, start, "")]
    done: dict[str, str] = {}
    while ways:
        seconds, at, before = heapq.heappop(ways)
        if at in done:
            continue
        done[at] = before
        if at == end:
            way = [at]
            while way[-1] != start:
                way.append(done[way[-1]])
            return way[::-1]
        for following, more in onward(at):
            if following not in done:
                heapq.heappush(ways, (seconds + more, following, at))
    return None
