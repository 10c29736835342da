"""A network file laid out for SUMO: edges with lanes, and vehicles and people with their ways. Nothing here is proved."""

import os
import random
from collections import defaultdict

from ..arrivals import read_arrivals
from ..faults import Fault
from ..records import rows_of, text_of
from ..reports import read_report
from .crossings import crossings_of, heading
from .streets import finite

SUMO_HOME = os.environ.setdefault("SUMO_HOME", "/usr/share/sumo")
SPEED = 13.89  # metres a second
TURN = 45  # degrees, above which a way leads to the outermost lanes
LANE_SAT = 500  # what one lane lets through, in thousandths of a vehicle a second
WEST, EAST, SOUTH, NORTH = (-1, 0), (1, 0), (0, -1), (0, 1)


class Edge:
    """A road of SUMO: links between the same two places by the same points, and their lanes, numbered from the right."""

    def __init__(self, start, end, points):
        self.start, self.end, self.points, self.travel, self.lanes = start, end, points, 0, {}

    def lane_count(self):
        return 1 + max(lane for lanes in self.lanes.values() for lane in lanes)

    def heading(self, ends):
        """In which direction the edge begins, or ends, in degrees from the north to the right."""
        return heading(*(self.points[-2:] if ends else self.points[:2]))


class Layout:
    """A network, where its nodes and the open ends of its links are, and its edges."""

    def __init__(self, network, places=None):
        self.tables = {link["name"]: link for link in network["link"]}
        self.walks = {name: link for name, link in self.tables.items() if "walk" in link}
        self.declared = {frozenset((pair["a"], pair["b"])) for pair in network.get("conflict", [])}
        self.declared |= {frozenset((link["name"], other)) for link in network["link"] for other in link.get("yields", [])}
        self.network = network = on_wheels(network, self.walks)
        self.links = {link["name"]: link for link in network["link"]}
        self.nodes = {node["name"]: node for node in network["node"]}
        self.phase_of = {
            link: (node["name"], number)
            for node in network["node"]
            for number, phase in enumerate(node["phase"])
            for link in phase["links"]
        }
        self.greens_of = defaultdict(set)
        for node in network["node"]:
            for number, phase in enumerate(node["phase"]):
                for link in (*phase["links"], *phase.get("also", [])):
                    self.greens_of[link].add((node["name"], number))
        self.seconds = network["run"]["rounds"] * network["run"]["step"]
        self.places, self.edge_of, self.edges = places or places_in_line(network), {}, {}
        for link in sorted(network["link"], key=lambda link: (-("from" in link and "to" in link), -link["travel"])):
            self._lay(link)
        # In the order of the file, in which SUMO is given them
        self.edges = {name: self.edges[name] for name in (self.edge_of[link] for link in self.links)}
        for edge in self.edges.values():
            edge.lanes = {link: [] for link in self.links if link in edge.lanes}
            self._number_lanes(edge)
        self.crossings = {walk: crossings_of(self, walk) for walk in self.walks}
        self.on_foot, self.kept = {}, {}

    def _lay(self, link):
        """Gives a link its edge. Those between two nodes come first, then the longest."""
        name, start, end = link["name"], link.get("from"), link.get("to")
        ends = ("node", start) if start else ("link", name), ("node", end) if end else ("link", name)
        for kind, of in set(ends) - set(self.places):
            raise Fault(f"the file of places has no row {kind},{of}")
        by = [self.places[kind, name] for kind in ("begin", "end") if (kind, name) in self.places]
        points = [self.places[ends[0]], *by, self.places[ends[1]]]
        edge_name = next((of for of, edge in self.edges.items() if edge.points == points), None) or self._road_by(link)
        if edge_name is None:
            edge_name = f"{start}-{end}" if start and end else name
            edge_name = name if edge_name in self.edges else edge_name
            self.edges[edge_name] = Edge(*ends, points)
        edge = self.edges[edge_name]
        edge.lanes[name] = []
        edge.travel = max(edge.travel, link["travel"])
        self.edge_of[name] = edge_name

    def _road_by(self, link):
        """The edge on which an open link begins or ends: one that comes to its node by the same point, or leaves it so."""
        if "from" in link and "to" in link:
            return None
        kind, at = ("end", "to") if "to" in link else ("begin", "from")
        point = self.places.get((kind, link["name"]))
        for name, edge in self.edges.items():
            others = [other for other in edge.lanes if self.links[other].get(at) == link[at]]
            if point is not None and any(self.places.get((kind, other)) == point for other in others):
                return name
        return None

    def _number_lanes(self, edge):
        """Gives the links of an edge their lanes from the right; who leaves the network on it may drive on all of them."""
        lane = first = 1 if self.has_sidewalk(edge) else 0
        for links in sorted(self._stops(edge), key=lambda links: max(map(self.lean, links)), reverse=True):
            count = max(1, round(sum(self.links[link]["sat"] for link in links) / LANE_SAT))
            edge.lanes |= {link: list(range(lane, lane + count)) for link in links}
            lane += count
        for link in [link for link in edge.lanes if "to" not in self.links[link]]:
            own = first + max(1, round(self.links[link]["sat"] / LANE_SAT))
            edge.lanes[link] = list(range(first, lane if lane > first else own))

    def _stops(self, edge):
        """The links of an edge that come to its node, in lists of those that share lanes: of the same greens, from different places."""
        stops = []
        for link in [link for link in edge.lanes if "to" in self.links[link]]:
            like = next((links for links in stops if all(self._shares_lanes(link, other) for other in links)), None)
            if like is None:
                stops.append([link])
            else:
                like.append(link)
        return stops

    def _shares_lanes(self, link, other):
        one, two = self.links[link], self.links[other]
        alike = self.phase_of.get(link) == self.phase_of.get(other) and self.greens_of[link] == self.greens_of[other]
        return alike and one.get("from") != two.get("from") and set(one.get("yields", [])) == set(two.get("yields", []))

    def has_sidewalk(self, edge):
        """Whether people walk beside an edge, on its lane 0: there is a crossing at one of its nodes."""
        return bool({walk["to"] for walk in self.walks.values()} & {name for kind, name in (edge.start, edge.end) if kind == "node"})

    def heading(self, link, ends):
        """In which direction a link begins, or ends, in degrees from the north to the right."""
        return self.edges[self.edge_of[link]].heading(ends)

    def angle(self, link, exit):
        """By how many degrees a vehicle turns from the link into the exit; above 0 is to the right."""
        return (self.heading(exit, False) - self.heading(link, True) + 180) % 360 - 180

    def lean(self, link):
        return sum(self.angle(link, turn["exit"]) * turn["share"] for turn in self.links[link].get("turn", []))

    def lanes_to(self, link, exit):
        """The pairs of lanes by which vehicles go from the link into the exit."""
        here = self.edges[self.edge_of[link]].lanes[link]
        there = self.edges[self.edge_of[exit]].lanes[exit]
        angle = self.angle(link, exit)
        if abs(angle) > TURN:
            near = slice(0, 1) if angle > 0 else slice(-1, None)
            straight = [turn for turn in self.links[link]["turn"] if turn["exit"] != exit]
            here, there = (here[near] if straight else here), there[near]
        there = self.kept.get((link, self.edge_of[exit]), there)
        pairs = range(max(len(here), len(there)))
        return [(here[min(n, len(here) - 1)], there[min(n, len(there) - 1)]) for n in pairs]

    def roads_of_both(self, link, other):
        """The roads to which two links lead."""
        one, two = ({self.edge_of[turn["exit"]] for turn in self.links[of]["turn"]} for of in (link, other))
        return one & two

    def keep_apart(self, link, other):
        """Has two links of a lane each turn into the outermost lane of a road, as they do not meet by the file."""
        if any(len(self.edges[self.edge_of[of]].lanes[of]) > 1 for of in (link, other)):
            return
        both = self.roads_of_both(link, other)
        for of in (link, other):
            for exit in (turn["exit"] for turn in self.links[of]["turn"]):
                road, angle = self.edge_of[exit], self.angle(of, exit)
                if road in both:
                    is_right = angle > self.angle(link if of == other else other, exit)
                    self.kept[of, road] = self.lanes_of(road)[:1] if is_right else self.lanes_of(road)[-1:]
                elif abs(angle) > TURN:
                    self.kept[of, road] = self.lanes_of(road)[:1] if angle > 0 else self.lanes_of(road)[-1:]

    def lanes_of(self, road):
        """The lanes for vehicles of an edge, from the right."""
        return sorted({lane for lanes in self.edges[road].lanes.values() for lane in lanes})

    def let_meet(self, link, other):
        """Has two links enter the roads to which both lead by all of their lanes, as they meet by the file."""
        for road in self.roads_of_both(link, other):
            self.kept |= {(link, road): self.lanes_of(road), (other, road): self.lanes_of(road)}

    def links_of_lane(self):
        """The links that come to a node by each lane."""
        found = defaultdict(list)
        for name, edge in self.edges.items():
            for link in [link for link in edge.lanes if "to" in self.links[link]]:
                for lane in edge.lanes[link]:
                    found[f"{name}_{lane}"].append(link)
        return dict(found)

    def walk_over(self, node, edges):
        """The link of the crossing at a node that goes over these edges, or None."""
        at = [walk for walk in self.walks if self.walks[walk]["to"] == node]
        return next((walk for walk in at if frozenset(edges) in self.crossings[walk]), None)


def on_wheels(network, walks):
    """A network without the links on which people walk, and the exits to which they alone lead: SUMO is given vehicles alone."""
    used = {turn["exit"] for link in network["link"] if link["name"] not in walks for turn in link.get("turn", [])}
    led = {turn["exit"] for link in network["link"] if link["name"] in walks for turn in link.get("turn", [])} - used
    links = [link for link in network["link"] if link["name"] not in led | set(walks)]
    conflicts = [pair for pair in network.get("conflict", []) if not set(walks) & {pair["a"], pair["b"]}]
    return network | {"link": links, "conflict": conflicts} if walks else network


def read_places(path):
    """The places of nodes and of the open ends of links, from a CSV with the header `kind,name,x,y`; None for `-`."""
    if str(path) == "-":
        return None
    try:
        rows = rows_of(path, text_of(path), ("kind", "name", "x", "y"))
        return {(row.fields[0], row.fields[1]): (finite(row.fields[2], "x"), finite(row.fields[3], "y")) for row in rows}
    except ValueError as fault:
        raise Fault(f"{path}: x and y of a place have to be metres: {fault}") from fault


def places_in_line(network):
    """Nodes in a line from west to east, in the order of the file, and each open link on a free side of its node."""
    places, east = {}, 0.0
    order = [node["name"] for node in network["node"]]
    for number, name in enumerate(order):
        places["node", name] = (east, 0.0)
        onward = [
            link["travel"] for link in network["link"] if link.get("from") == name and link.get("to") in order[number + 1 :]
        ]
        east += max(onward, default=20) * SPEED
    for node in network["node"]:
        sides = open_sides(network, node, order)
        x, y = places["node", node["name"]]
        for link in network["link"]:
            if link["name"] in sides:
                away = link["travel"] * SPEED
                places["link", link["name"]] = (x + away * sides[link["name"]][0], y + away * sides[link["name"]][1])
    return places


def open_sides(network, node, order):
    """The side of each open link of a node: of phase 0 along the line, of others across it; exits lead straight on."""
    name, sides, free = node["name"], {}, [WEST, EAST, SOUTH, NORTH]
    entries = [link for link in network["link"] if link.get("to") == name]
    for link in entries:
        if "from" in link:
            sides[link["name"]] = WEST if order.index(link["from"]) < order.index(name) else EAST
            free = [side for side in free if side != sides[link["name"]]]
    for number, phase in enumerate(node["phase"]):
        for link in (link for link in phase["links"] if link not in sides):
            if not free:
                raise Fault(f"{name} has more than four sides: give the places of its links in a file")
            sides[link] = free.pop(0 if number == 0 else -len(free[-2:]))
    for link in network["link"]:
        if link.get("from") == name and "to" not in link:
            shares = [
                (turn["share"], sides[entry["name"]])
                for entry in entries
                for turn in entry["turn"]
                if turn["exit"] == link["name"]
            ]
            x, y = max(shares, default=(0, WEST))[1]
            sides[link["name"]] = (-x, -y)
    return {
        link["name"]: sides[link["name"]]
        for link in network["link"]
        if link["name"] in sides and not ("from" in link and "to" in link)
    }


def walkers(layout, path):
    """Who comes to a crossing in a file of arrivals, one for each 1000 of a link on which people walk: second and link."""
    carried, found = defaultdict(int), []
    for arrival in sorted(read_arrivals(path), key=lambda arrival: arrival.second):
        if arrival.link in layout.walks:
            carried[arrival.link] += arrival.amount
            found += [(arrival.second, arrival.link)] * (carried[arrival.link] // 1000)
            carried[arrival.link] %= 1000
    return found


def read_greens(path):
    """The greens (phase, from, to) of each node in a report."""
    greens = defaultdict(list)
    for green in read_report(path).greens:
        greens[green.node].append((green.phase, green.begin, green.end))
    return greens


def vehicles(layout, path, seed):
    """The vehicles of a file of arrivals, one for each 1000 of a link: second and links; turns are drawn by shares."""
    draw, carried, found = random.Random(seed), defaultdict(int), []
    for arrival in sorted(read_arrivals(path), key=lambda arrival: arrival.second):
        if arrival.link in layout.walks:
            continue
        if arrival.link not in layout.links:
            raise Fault(f"{path}: link {arrival.link!r} is none of the network")
        carried[arrival.link] += arrival.amount
        while carried[arrival.link] >= 1000:
            carried[arrival.link] -= 1000
            way = [arrival.link]
            while turns := layout.links[way[-1]].get("turn"):
                way += draw.choices([turn["exit"] for turn in turns], [turn["share"] for turn in turns])
            found.append((arrival.second, way))
    return found
