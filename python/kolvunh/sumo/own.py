"""SUMO's own network under an imported one: what its signals show, and its vehicles by the links. Nothing here is proved."""

from collections import defaultdict
from pathlib import Path
from typing import Any

from ..faults import Fault
from ..networks import read_tables
from .drafts import names_in
from .groups import SHORT
from .layout import SPEED
from .loop import SLOW, Sensors
from .signals import state_at
from .streets import Streets, edge_of
from .to_sumo import element

BEGINS = 8  # seconds from its start in which a vehicle that is slow yet stands in no queue


class Tables:
    """The tables of an imported network: its nodes and links by name, and the seconds of a run."""

    def __init__(self, network: dict[str, Any]) -> None:
        self.network = network
        self.nodes = {node["name"]: node for node in network["node"]}
        self.links = {link["name"]: link for link in network["link"]}
        self.seconds = network["run"]["rounds"] * network["run"]["step"]


class OwnSignals:
    """The signals of SUMO's own network under the network in a folder that from_sumo.py wrote of it."""

    def __init__(self, network: Path, folder: Path) -> None:
        self.path, self.streets, self.layout = network, Streets(network), Tables(read_tables(folder / "net.toml"))
        names = names_in(folder)
        self._tls, self.lanes = names["node"], {link: lanes.split(";") for link, lanes in names["link"].items()}
        counts = {node: len(table["phase"]) for node, table in self.layout.nodes.items()}
        self.states = {node: [names["phase"][f"{node} {n}"] for n in range(count)] for node, count in counts.items()}
        strange = next((tls for tls in self._tls.values() if tls not in self.streets.programs), None)
        if strange is not None:
            raise Fault(f"{network}: it has no signal {strange}, which {folder}/names.csv names")
        self.walks = {node: dict(self._walks(node)) for node in self.layout.nodes}
        self.junctions = self.streets.junctions

    def _walks(self, node: str):
        """The places of a node's crossings in its state, with the seconds in which each may be entered."""
        walks = {name: link["walk"] for name, link in self.layout.links.items() if "walk" in link}
        seconds = {lane: walk for name, walk in walks.items() for lane in self.lanes[name]}
        for move in self.streets.junctions.crossings[self.tls(node)]:
            if move.lane in seconds:
                yield move.index, seconds[move.lane]

    def tls(self, node: str) -> str:
        """The name of a node's signal in SUMO."""
        return self._tls[node]

    def at(self, node: str, rows, second: int) -> str:
        """What the signal of a node shows in a second under rows of greens (phase, from, to)."""
        return state_at(self.layout.nodes[node]["phase"], self.states[node], rows, second, self.walks[node])

    def programs(self, kind: str) -> str:
        """The programs of the nodes' signals under a controller of SUMO, their greens within the least and greatest of the network."""
        return "".join(self._program(node, kind) for node in self.layout.nodes)

    def _program(self, node: str, kind: str) -> str:
        plan, rows = self.layout.nodes[node]["phase"], ""
        bounds = {"minDur": min(phase["least"] for phase in plan), "maxDur": max(phase["greatest"] for phase in plan)}
        for seconds, state in self.streets.programs[self.tls(node)][-1].states:
            green = bool(set(state) & set("Gg")) and not set(state) & set("yYu") and seconds >= SHORT
            rows += element("phase", duration=seconds, state=state, **(bounds if green else {}))
        return element("tlLogic", "\n" + rows, id=self.tls(node), type=kind, programID=kind, offset=0)


class OwnSensors(Sensors):
    """SUMO's vehicles by the links of an imported network, also where a link has several edges, and people who wait at a crossing."""

    def __init__(self, traci, signals: OwnSignals) -> None:
        self._queued: set[tuple[str, str]] = set()
        self._traci, self._signals, self._layout, self._edges = traci, signals, signals.layout, signals.streets.edges
        self._node_of: dict[str, str] = {}
        self._links: dict[tuple[str | None, str], list[str]] = defaultdict(list)
        for name, link in signals.layout.links.items():
            if "to" in link and "walk" not in link:
                self._links[link.get("from"), link["to"]].append(name)
                self._node_of |= {edge_of(lane): link["to"] for lane in signals.lanes[name]}
        walks = [name for name, link in signals.layout.links.items() if "walk" in link]
        self._walks = {edge_of(lane): name for name in walks for lane in signals.lanes[name]}
        self._exits: dict[str, set[str]] = defaultdict(set)
        for moves in signals.junctions.movements.values():
            for move in moves:
                self._exits[move.lane].add(edge_of(move.exit_lane))
        self._routes: dict[str, tuple[str, ...]] = {}
        self._ahead: dict[tuple[str, ...], list[tuple[int, str | None, str]]] = {}
        self.where: dict[str, tuple[str, int]] = {}
        self._begun: dict[str, int] = {}

    def _stops(self, route: tuple[str, ...]) -> list[tuple[int, str | None, str]]:
        """The signals that a route passes: the place of the edge before each, the node passed before, and the node."""
        if route not in self._ahead:
            found: list[tuple[int, str | None, str]] = []
            for place, edge in enumerate(route[:-1]):
                node, before = self._node_of.get(edge), found[-1][2] if found else None
                if node is not None and node != before and route[place + 1] in self._onward(edge):
                    found.append((place, before, node))
            self._ahead[route] = found
        return self._ahead[route]

    def _onward(self, edge: str) -> set[str]:
        return {exit for lane in self._edges[edge].lanes for exit in self._exits[lane.name]}

    def _link(self, route: tuple[str, ...], stop: tuple[int, str | None, str], lane: str) -> str | None:
        """The link of a vehicle that comes to a stop line: by its lane there, else by where it goes on."""
        place, before, node = stop
        named = [name for start in (before, None) for name in self._links[start, node]]
        at_line = [name for name in named if any(edge_of(of) == route[place] for of in self._signals.lanes[name])]
        by_lane = next((name for name in at_line if lane in self._signals.lanes[name]), None)
        fitting = {name: sum(route[place + 1] in self._exits[of] for of in self._signals.lanes[name]) for name in at_line}
        return by_lane or max(fitting, key=lambda name: fitting[name], default=None)

    def vehicles(self):
        """Each vehicle before a signal, with its link, its speed and its way to the stop line as if edges were all of one speed."""
        constants, self.where = self._traci.constants, {}
        values = constants.VAR_LANE_ID, constants.VAR_SPEED, constants.VAR_LANEPOSITION, constants.VAR_ROUTE_INDEX
        for vehicle in self._traci.simulation.getDepartedIDList():
            self._traci.vehicle.subscribe(vehicle, values)
            self._routes[vehicle], self._begun[vehicle] = tuple(self._traci.vehicle.getRoute(vehicle)), BEGINS
        for vehicle, found in self._traci.vehicle.getAllSubscriptionResults().items():
            lane, speed, place, index = (found[value] for value in values)
            route = self._routes[vehicle]
            if self._begun[vehicle]:
                self._begun[vehicle] = self._begun[vehicle] - 1 if speed < SLOW else 0
                speed = max(speed, SLOW)
            if lane.startswith(":"):
                index, place, speed = index + 1, 0, SPEED
            stop = next((stop for stop in self._stops(route) if stop[0] >= max(0, index)), None)
            link = self._link(route, stop, lane) if stop and lane else None
            if link is not None and stop is not None:
                self.where[vehicle] = link, stop[0]
                yield vehicle, link, *self._scaled(route[max(0, index) : stop[0] + 1], speed, place)

    def _scaled(self, edges: tuple[str, ...], speed: float, place: float) -> tuple[float, float]:
        """Speed and way as if all edges had the same speed; on an edge before the last one nobody stands in the queue."""
        first = self._edges[edges[0]].lanes[0]
        way = (first.length - place) / first.speed + sum(self._edges[edge].seconds for edge in edges[1:])
        scaled = speed * SPEED / first.speed
        return (scaled if len(edges) == 1 else max(scaled, SLOW)), way * SPEED
