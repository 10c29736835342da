"""A network file and arrivals made of signals, edges and those who drive and walk there. Nothing here is proved.

A link is a group's lanes from the signal before it; where several signals lead to a stop line each has a link, and they share what the
stop line lets through. What leaves a node and meets no further one leaves the network.
"""

import csv
import io
import itertools
import math
from collections import Counter, defaultdict
from collections.abc import Iterable, Iterator, Mapping, Sequence
from dataclasses import dataclass, field
from pathlib import Path
from typing import NamedTuple

from ..capacities import STRAIGHT_SAT, TURNING, WALK_SAT, giving_sat
from ..files import write_files
from ..networks import GREAT, SMALL, Limits
from ..records import rows_of, text_of
from .demand import Vehicle
from .groups import MOST_GROUPS, VEHICLE, WALK, Group, Node
from .streets import Edge, Point

SPEED, LEAST_SAT = 13.89, 200  # metres a second at which a lane lets `STRAIGHT_SAT` through; thousandths a second by a link
HEADWAY = 1.0  # seconds between two that drive
GREATEST, LOSS, WAIT = 50, 2, 3600  # seconds, of each phase
STEP, AFTER = 5, 120  # seconds; rounds after the last vehicle has started
MOST_TRAVEL, MOST_SAT, MOST_TURNS = 120, 5000, 16
BESIDE = 10  # metres from the middle of an edge to the place of a link that begins or ends there
NEAR = 30  # metres from a node to a point through which a link leaves it or comes to it
NAMES = ("kind", "name", "sumo")
RUN = f"[run]\nstep = {STEP}\nlook = 30\ngap = 0\nsplit = true\nage = 20\nhold = 2\n"

Key = tuple[str | None, str | None, int | str]  # the nodes before and at the end; the number of the group there, or the edge of an exit


class Leg(NamedTuple):
    """A part of a way: between two signals, or from or to the outside; its first edge, when it begins, and its seconds."""

    start: str | None
    end: str | None
    group: int
    edge: str
    second: float
    seconds: float

    @property
    def key(self) -> Key:
        """Of the link."""
        return self.start, self.end, self.group if self.end else self.edge


@dataclass
class Link:
    """A link: its seconds, how many use it, the first edge of its way, its group where it ends at a node, and where vehicles turn."""

    key: Key
    edge: str
    group: Group | None
    seconds: float = 1
    count: int = 0
    turns: Counter[Key] = field(default_factory=Counter)


def sat_of(group: Group, speeds: Mapping[str, float]) -> int:
    """What a group's stop line lets through, in thousandths of a vehicle a second, from the speeds of its lanes in metres a second."""
    if group.cross is not None:
        return WALK_SAT
    sats = []
    for lane in group.lanes:
        headway = HEADWAY + VEHICLE / min(SPEED, speeds.get(lane, SPEED))
        straight = any(move.direction == "s" for move in group.moves if move.lane == lane)
        sats.append(STRAIGHT_SAT * (HEADWAY + VEHICLE / SPEED) / headway * (1 if straight else TURNING))
    return max(1, min(MOST_SAT, round(sum(sats))))


class Draft:
    """The links that are used, with their turns and what enters by them; in `told` what can't be said, and what was done."""

    def __init__(
        self,
        edges: Mapping[str, Edge],
        places: Mapping[str, Point],
        nodes: Mapping[str, Node],
        vehicles: Sequence[Vehicle],
        walkers: Sequence[Vehicle] = (),
    ) -> None:
        self.edges, self.places, self.nodes = edges, places, dict(nodes)
        self.told = Counter[str]()
        self.speeds = {lane.name: lane.speed for edge in edges.values() for lane in edge.lanes}
        self._at = {group.edge: name for name, node in nodes.items() for group in node.groups if group.cross is None}
        self._junctions = {name: {move.junction for move in node.moves} for name, node in nodes.items()}
        self._walkers = walkers
        ways = [(vehicle.second, list(self._legs(vehicle.edges))) for vehicle in vehicles]
        self._count_lost(ways)
        self._ways, self._cut = [way for way in ways if way[1]], set[Key]()
        self._link_up()
        while crowd := self._crowded():
            self._cut |= crowd
            self._link_up()
        self._leave_out_phases()
        self._tell_limits()

    def _count_lost(self, ways: Sequence[tuple[float, list[Leg]]]) -> None:
        if lost := sum(not legs for _, legs in ways):
            self.told["vehicles that pass no signal that is a node, and are left out"] = lost

    def group_for(self, name: str, edge: str, onward: str) -> int | None:
        """The group of a signal by which vehicles go from an edge into another: that with most lanes for it, which gives way least."""
        best = None
        for number, group in enumerate(self.nodes[name].groups):
            count = sum(move.exit_lane.rpartition("_")[0] == onward for move in group.moves) if group.edge == edge else 0
            if count and (best is None or (count, -len(group.giving)) > best[0]):
                best = (count, -len(group.giving)), number
        return best[1] if best else None

    def _legs(self, edges: Sequence[str]) -> Iterator[Leg]:
        """The legs of a way over these edges; none where it passes no signal."""
        start, first, begun, now = None, edges[0], 0.0, 0.0
        for edge, onward in zip(edges, edges[1:]):
            now += self.edges[edge].seconds
            name = self._at.get(edge)
            group = self.group_for(name, edge, onward) if name else None
            if name is None or group is None:
                continue
            if start == name and self.edges[edge].start in self._junctions[name]:
                self.told[f"signal {name} has several junctions: its stop lines within it are passed without a halt"] = 0
                continue
            yield Leg(start, name, group, first, begun, now - begun)
            start, first, begun = name, onward, now
        if start:
            yield Leg(start, None, 0, first, begun, now + self.edges[edges[-1]].seconds - begun)

    def _link_up(self) -> None:
        """Makes the links, their turns and the arrivals of all ways; at a link that is cut a vehicle leaves, and enters anew."""
        self.links: dict[Key, Link] = {}
        self.arrivals: list[tuple[int, Key]] = []
        for second, legs in self._ways:
            before = None
            for leg in legs:
                if leg.end and leg.start and (leg.start == leg.end or leg.key in self._cut):
                    before = self._step(second, before, leg._replace(end=None))
                    leg = leg._replace(start=None)
                before = self._step(second, before, leg)
        self._add_walks()

    def _step(self, second: float, before: Link | None, leg: Leg) -> Link | None:
        """Takes a vehicle from a link, or from the outside, into that of a leg; answers it where it goes on."""
        group = self.nodes[leg.end].groups[leg.group] if leg.end else None
        link = self.links.setdefault(leg.key, Link(leg.key, leg.edge, group))
        link.seconds, link.count = max(link.seconds, leg.seconds), link.count + 1
        if before is None:
            self.arrivals.append((int(second + leg.second), leg.key))
        else:
            before.turns[leg.key] += 1
        return link if leg.end else None

    def _add_walks(self) -> None:
        """The crossings of the nodes that vehicles meet, each a link from outside, and who comes to them."""
        places = {}
        for name in self.met():
            self._spare_walks(name)
            for number, group in enumerate(self.nodes[name].groups):
                if group.cross is not None:
                    key, exit = (None, name, number), (name, None, "on foot")
                    self.links.setdefault(exit, Link(exit, "", None))
                    self.links[key] = Link(key, "", group, turns=Counter({exit: 1}))
                    places |= {lane: key for lane in group.lanes}
        for walker in self._walkers:
            if walker.edges[0] in places:
                self.arrivals.append((int(walker.second), places[walker.edges[0]]))

    def _spare_walks(self, name: str) -> None:
        """Has one link for the crossings of a node with the same greens, where it has too many links else, and says where that is so."""
        node, driven = self.nodes[name], len(self.links_to(name))
        greens = [group.shown for group in node.groups if group.cross is not None]
        if driven + len(greens) > MOST_GROUPS >= driven + len(set(greens)):
            node.groups = node.walks_alike()
        if any(group.cross is not None and len(group.lanes) > 1 for group in node.groups):
            self.told[f"signal {name} has more than {MOST_GROUPS} links: crossings with the same greens are one"] = 0

    def met(self) -> list[str]:
        """The signals that vehicles meet."""
        ends = {link.key[1] for link in self.links.values()}
        return [name for name in self.nodes if name in ends]

    def links_to(self, name: str) -> list[Link]:
        """The links that end at a node."""
        return [link for link in self.links.values() if link.key[1] == name]

    def _crowded(self) -> set[Key]:
        """The links of two signals before a node with too many links that are to be one link from outside."""
        for name in self.met():
            links = self.links_to(name)
            if len(links) > MOST_GROUPS:
                by_group = defaultdict(list)
                for link in links:
                    by_group[link.key[2]].append(link)
                crowd = sorted(max(by_group.values(), key=len), key=lambda link: link.count)
                found = [link.key for link in crowd if link.key[0]][: 1 if any(link.key[0] is None for link in crowd) else 2]
                words = "those of signals from which few come enter from outside"
                self.told[f"signal {name} has more than {MOST_GROUPS} links: {words}"] = 0
                return set(found)
        return set()

    def _leave_out_phases(self) -> None:
        """Leaves phases out in which nobody has his home who drives here; two stay."""
        for name in self.met():
            node = self.nodes[name]
            homes = {link.group.home for link in self.links_to(name) if link.group}
            spare = sorted((phase for phase in node.used if phase not in homes), key=lambda phase: node.phases[phase].seconds)
            gone = spare[: max(0, len(node.used) - 2)]
            if gone:
                node.drop(gone)
                self.told[f"signal {name}: {len(gone)} of its phases have no vehicles of their own, and are left out"] = 0

    def _tell_limits(self) -> None:
        unmet = [name for name in self.nodes if name not in self.met()]
        if unmet:
            self.told[f"signals that no vehicle meets are left out: {', '.join(unmet)}"] = 0
        longer = sum(link.seconds > MOST_TRAVEL for link in self.links.values() if link.key[1])
        if longer:
            self.told[f"links that are longer than {MOST_TRAVEL} s, and are taken for so long"] = longer
        sizes = {"nodes": len(self.met()), "links": len(self.links), "conflicts": len(list(self.conflicts()))}
        for what, size in sizes.items():
            most = getattr(GREAT, what)
            if size > most:
                self.told[f"the network has {size} {what}, and the program takes {most}: take a part of the map"] = 0

    def yields(self, link: Link) -> list[Key]:
        """The links to which one gives way."""
        node = self.nodes[link.key[1] or ""]
        others = [other for other in self.links_to(node.name) if other.group is not link.group]
        return [other.key for other in others if node.yields(link.group, other.group)]

    def conflicts(self) -> Iterator[tuple[Key, Key]]:
        """The pairs of links that cross and are never green together; those that are, where none gives way, are told."""
        for name in self.met():
            node = self.nodes[name]
            by_group = defaultdict(list)
            for link in self.links_to(name):
                by_group[link.key[2]].append(link)
            for one, other in itertools.combinations(by_group.values(), 2):
                a, b = one[0].group, other[0].group
                if not node.crosses(a, b):
                    continue
                if not a.shown & b.shown:
                    yield from itertools.product([link.key for link in one], [link.key for link in other])
                elif not node.yields(a, b) and not node.yields(b, a):
                    words = f"signal {name}: {a.edge} and {b.edge} cross and are green together, and none gives way: it stays so"
                    self.told[words] = 0

    def names(self) -> tuple[dict[str, str], dict[Key, str]]:
        """The names of nodes and of links in the network file."""
        return {name: f"n{n}" for n, name in enumerate(self.met())}, {key: f"l{n}" for n, key in enumerate(self.links)}

    def sat(self, link: Link) -> int:
        """What a link lets through; the links of a stop line share what it does by their vehicles."""
        if link.group is None:
            return min(MOST_SAT, STRAIGHT_SAT * len(self.edges[link.edge].lanes)) if link.edge else MOST_SAT
        whole = sat_of(link.group, self.speeds)
        total = sum(other.count for other in self.links_to(link.key[1] or "") if other.group is link.group)
        if link.count == total:
            return whole
        self.told["links that share a stop line with those of other signals, and what it lets through by their vehicles"] += 1
        return min(whole, max(LEAST_SAT, whole * link.count // total))

    def giving_sat(self, link: Link, sat: int) -> int:
        """What a link lets through while it gives way, and else `sat`: those who need not give way wait behind the others."""
        node, group = self.nodes[link.key[1] or ""], link.group
        giving = {move for phase in group.shown for move in group.moves if any(node.gives_way_to(phase, move))}
        exits = {move.exit_lane.rpartition("_")[0] for move in giving}
        part = sum(count for key, count in link.turns.items() if self.links[key].edge in exits) / max(1, link.turns.total())
        lane = sat_of(group, self.speeds) / len(group.lanes)
        return giving_sat(sat, lane, part)

    def rounds(self) -> int:
        """The rounds of a run, from the last arrival."""
        return min(GREAT.rounds, max((second for second, _ in self.arrivals), default=0) // STEP + AFTER)


def quoted(names: Iterable[str]) -> str:
    """A list of names in a network file."""
    return "[" + ", ".join(f'"{name}"' for name in names) + "]"


def phase_text(draft: Draft, node: Node, phase: int, links: Mapping[Key, str]) -> str:
    """A phase of a node, with the links that have their home in it and those that are green in it also."""
    times = {"least": node.least_of(phase), "greatest": max(GREATEST, node.least_of(phase)), "yellow": node.phases[phase].yellow}
    times |= {"clear": node.clear_after(phase), "loss": LOSS, "wait": WAIT}
    to = [link for link in draft.links_to(node.name) if link.group and phase in link.group.shown]
    also = [links[link.key] for link in to if link.group and link.group.home != phase]
    text = "[[node.phase]]\n" + "".join(f"{key} = {value}\n" for key, value in times.items())
    text += f"skip = {str(phase in node.marked).lower()}\n"
    text += f"links = {quoted(links[link.key] for link in to if link.group and link.group.home == phase)}\n"
    return text + (f"also = {quoted(also)}\n" if also else "")


def link_text(draft: Draft, link: Link, nodes: Mapping[str, str], links: Mapping[Key, str]) -> str:
    """A link with its turns, with whom it gives way to, or with its walk."""
    sat = draft.sat(link)
    text = f'\n[[link]]\nname = "{links[link.key]}"\n'
    text += "".join(f'{word} = "{nodes[end]}"\n' for word, end in zip(("from", "to"), link.key[:2]) if end)
    text += f"travel = {min(MOST_TRAVEL, max(1, round(link.seconds)))}\nsat = {sat}\nweight = 1\n"
    if link.group is None:
        return text
    if link.group.cross is not None:
        text += f"walk = {WALK}\ncross = {link.group.cross}\n"
    elif others := draft.yields(link)[:MOST_GROUPS]:
        text += f"yields = {quoted(links[key] for key in others)}\nyield_sat = {draft.giving_sat(link, sat)}\n"
    counts = dict(link.turns.most_common(MOST_TURNS))
    shares = {exit: 1000 * count // sum(counts.values()) for exit, count in counts.items()}
    shares[next(iter(shares))] += 1000 - sum(shares.values())
    return text + "turn = [" + ", ".join(f'{{ exit = "{links[exit]}", share = {share} }}' for exit, share in shares.items()) + "]\n"


def network_text(draft: Draft) -> str:
    """The network file, of the least version that says it."""
    nodes, links = draft.names()
    text = RUN + f"rounds = {draft.rounds()}\n"
    for name in nodes:
        node = draft.nodes[name]
        text += f'\n[[node]]\nname = "{nodes[name]}"\n' + "".join(phase_text(draft, node, phase, links) for phase in node.used)
    text += "".join(link_text(draft, link, nodes, links) for link in draft.links.values())
    text += "".join(f'\n[[conflict]]\na = "{links[one]}"\nb = "{links[other]}"\n' for one, other in draft.conflicts())
    sizes = Limits(len(nodes), len(draft.links), len(list(draft.conflicts())), draft.rounds())
    is_great = any(size > most for size, most in zip(sizes, SMALL))
    version = 3 if is_great or any(f"\n{key} = " in text for key in ("also", "yields", "walk")) else 2
    return f"version = {version}\n\n{text}"


def arrivals_text(draft: Draft) -> str:
    """The arrivals, in the order of time, one vehicle each."""
    links = draft.names()[1]
    seconds = draft.rounds() * STEP
    late = sum(second >= seconds for second, _ in draft.arrivals)
    if late:
        draft.told[f"arrivals after second {seconds}, the end of the run, left out"] = late
    rows = sorted((arrival for arrival in draft.arrivals if arrival[0] < seconds), key=lambda arrival: arrival[0])
    return "second,link,amount\n" + "".join(f"{second},{links[key]},1000\n" for second, key in rows)


def names_text(draft: Draft) -> str:
    """What each node, phase and link is in the network that it comes from, as records."""
    nodes, links = draft.names()
    file = io.StringIO()
    rows = csv.writer(file, lineterminator="\n")
    rows.writerow(NAMES)
    for name in nodes:
        rows.writerow(["node", nodes[name], name])
        rows.writerows(["phase", f"{nodes[name]} {n}", draft.nodes[name].phases[k].state] for n, k in enumerate(draft.nodes[name].used))
    for link in draft.links.values():
        rows.writerow(["link", links[link.key], ";".join(link.group.lanes if link.group else [link.edge])])
    return file.getvalue()


def names_in(folder: Path) -> dict[str, dict[str, str]]:
    """What each node, phase and link of an imported network in a folder is in the network that it comes from, by kinds."""
    found: dict[str, dict[str, str]] = defaultdict(dict)
    for row in rows_of(folder / "names.csv", text_of(folder / "names.csv"), NAMES):
        kind, name, sumo = row.fields
        found[kind][name] = sumo
    return found


def places_text(draft: Draft) -> str:
    """Where nodes and the open ends of links are, in metres, as to_sumo.py reads them."""
    nodes, links = draft.names()
    rows = ["kind,name,x,y"]
    for name, short in nodes.items():
        at = [draft.places[move.junction] for move in draft.nodes[name].moves]
        rows.append(f"node,{short},{sum(x for x, _ in at) / len(at):.2f},{sum(y for _, y in at) / len(at):.2f}")
    taken = {move.junction for name in nodes for move in draft.nodes[name].moves}
    for link in draft.links.values():
        if link.edge and not (link.key[0] and link.key[1]):
            x, y = open_end(draft, draft.edges[link.edge], bool(link.key[0]), taken)
            rows.append(f"link,{links[link.key]},{x:.2f},{y:.2f}")
        rows += [f"{kind},{links[link.key]},{x:.2f},{y:.2f}" for kind, (x, y) in bends(draft, link)]
    return "\n".join(rows) + "\n"


def bends(draft: Draft, link: Link) -> Iterator[tuple[str, Point]]:
    """Through which points a link leaves a node, and comes to one; of a crossing through which the roads come that it goes over."""
    if link.key[0] and link.edge:
        yield "begin", begin_of(draft, draft.edges[link.edge])
    if link.group and link.group.cross is None:
        yield "end", end_of(draft, draft.edges[link.group.edge])
    elif link.group:
        for number, move in enumerate(link.group.moves, 1):
            over = [draft.edges[edge] for edge in move.over if edge in draft.edges]
            points = [(end_of if edge.end == move.junction else begin_of)(draft, edge) for edge in over]
            if points:
                middle = sum(x for x, _ in points) / len(points), sum(y for _, y in points) / len(points)
                yield "walk" if number == 1 else f"walk {number}", middle


def begin_of(draft: Draft, edge: Edge) -> Point:
    """A point on an edge near its begin."""
    (x, y), (x_way, y_way), near = draft.places[edge.start], edge.first, min(NEAR, edge.lanes[0].length / 3)
    return x + near * x_way, y + near * y_way


def end_of(draft: Draft, edge: Edge) -> Point:
    """A point on an edge near its end."""
    (x, y), (x_way, y_way), near = draft.places[edge.end], edge.last, min(NEAR, edge.lanes[0].length / 3)
    return x - near * x_way, y - near * y_way


def open_end(draft: Draft, edge: Edge, leaves: bool, taken: set[str]) -> Point:
    """Where the open end of a link is, in metres: at the far junction of an edge, or beside its middle where that is a node."""
    far, near = (edge.end, edge.start) if leaves else (edge.start, edge.end)
    (x, y), (near_x, near_y) = draft.places[far], draft.places[near]
    if far not in taken:
        return x, y
    length = max(1.0, math.hypot(x - near_x, y - near_y))
    return (x + near_x) / 2 + BESIDE * (y - near_y) / length, (y + near_y) / 2 - BESIDE * (x - near_x) / length


def write_draft(draft: Draft, folder: Path) -> None:
    """Writes net.toml, arrivals.csv, names.csv and places.csv."""
    texts = {"net.toml": network_text, "arrivals.csv": arrivals_text, "names.csv": names_text, "places.csv": places_text}
    write_files(folder, {name: text(draft) for name, text in texts.items()})
