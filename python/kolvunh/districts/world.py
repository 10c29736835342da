"""The vehicles of a district, second by second: docs/RULES.md, "World". Amounts are in thousandths of a vehicle.

What enters a link between districts in a round reaches its end in a later one. So the seconds of a round are moved by each district alone,
and what entered these links in them is told between two rounds.
"""

from collections.abc import Iterable

from ..arrivals import Arrival
from ..networks import Link, Network, Node
from .cut import Cut

Row = tuple[int, int, int]  # a green of a node: the phase, and its seconds from and to


class Road:
    """A link and what is on it. What entered it in second x is in `coming` at the place x mod its travel, until it reaches the end."""

    __slots__ = ("link", "travel", "coming", "queue", "stood", "entered", "left", "delay", "last", "begin", "found", "yields", "turns")

    def __init__(self, link: Link, travel: int) -> None:
        self.link, self.travel, self.coming = link, travel, [0] * travel
        self.queue = self.stood = self.entered = self.left = self.delay = 0
        self.last, self.begin, self.found = -2, 0, False  # of the green: its last second so far, its first, and whether it found a queue
        self.yields: list[Road] = []
        self.turns: list[tuple[Road, int, int]] = []  # the exit, and the shares of the turns before it and up to it

    def enter(self, second: int, amount: int) -> None:
        """Lets an amount enter in a second."""
        self.coming[second % self.travel] += amount
        self.entered += amount


class Crossroads:
    """A node: its greens from the last one on that has begun, and its entry links."""

    def __init__(self, node: Node, roads: list[Road], greens: dict[str, frozenset[int]]) -> None:
        self.node, self.roads, self.line, self._at = node, roads, [(0, 0, node.phases[0].least)], 0
        phases = range(len(node.phases))
        self._on = [[road for road in roads if phase in greens[road.link.name]] for phase in phases]
        through = [[road for road in on if road.link.walk is None] for on in self._on]
        self._change = [[[road for road in through[one] if road in through[other]] for other in phases] for one in phases]

    def follow(self, line: list[Row]) -> None:
        """Goes on by these greens."""
        self.line, self._at = line, 0

    def green(self, second: int) -> tuple[list[Road], int]:
        """The entry links that are green in a second, and the loss that is theirs; the seconds of the calls rise."""
        line = self.line
        while self._at + 1 < len(line) and line[self._at + 1][1] <= second:
            self._at += 1
        phase, begin, end = line[self._at]
        loss = self.node.phases[phase].loss
        if begin <= second < end:
            return [road for road in self._on[phase] if road.link.walk is None or second < begin + road.link.walk], loss
        after = line[self._at + 1 : self._at + 2]
        return (self._change[phase][after[0][0]] if after and begin <= second else []), loss

    def leaving(self, second: int) -> list[tuple[Road, int]]:
        """What each green link discharges in a second."""
        green, loss = self.green(second)
        for road in green:
            if road.last != second - 1:
                road.begin, road.found = second, road.stood > 0
            road.last = second
        return [(road, self._rate(road, second)) for road in green if road.queue and not (road.found and second - road.begin < loss)]

    @staticmethod
    def _rate(road: Road, second: int) -> int:
        gives_way = any(other.queue and other.last == second for other in road.yields)
        return min(road.queue, road.link.yield_sat if gives_way else road.link.sat)


class World:
    """The links of a district with what is on them, in the order of the file, and its nodes. `borders` are those that lead out of it: of
    them it has what entered in a round."""

    def __init__(self, network: Network, cut: Cut, rank: int, arrivals: Iterable[Arrival]) -> None:
        self.roads = {link.name: Road(link, link.travel) for link in network.links if cut.rank_of(link) == rank}
        out = [link for link in network.links if cut.source_of(link) == rank != cut.rank_of(link)]
        self.borders = {link.name: Road(link, network.run.step) for link in out}
        self.entries = [road for road in self.roads.values() if road.link.end is not None]
        self.exits = [road for road in self.roads.values() if road.link.end is None]
        here = [node for node in network.nodes if cut.ranks[node.name] == rank]
        ending: dict[str, list[Road]] = {node.name: [] for node in here}
        for road in self.entries:
            ending[road.link.end].append(road)
            self._join(road)
        self.nodes = {node.name: Crossroads(node, ending[node.name], network.greens_of) for node in here}
        self._arrivals: dict[int, list[tuple[Road, int]]] = {}
        for arrival in arrivals:
            if arrival.link in self.roads:
                self._arrivals.setdefault(arrival.second, []).append((self.roads[arrival.link], arrival.amount))
        self.arrived = 0

    def _join(self, road: Road) -> None:
        """Tells a link to which it gives way, and where its turns lead."""
        road.yields = [self.roads[name] for name in road.link.yields]
        before = 0
        for turn in road.link.turns:
            exit = self.roads.get(turn.exit) or self.borders[turn.exit]
            road.turns.append((exit, before, before + turn.share))
            before += turn.share

    def move(self, second: int) -> None:
        """One second more."""
        for road in self.roads.values():
            place = second % road.travel
            if road.coming[place]:
                road.queue += road.coming[place]
                road.coming[place] = 0
        for road in self.exits:
            road.left, road.queue = road.left + road.queue, 0
        for node in self.nodes.values():
            for road, amount in node.leaving(second):
                self._discharge(road, amount, second)
        for road, amount in self._arrivals.pop(second, ()):
            road.enter(second, amount)
            self.arrived += amount
        for road in self.entries:
            if road.queue:
                road.stood += 1
                road.delay += road.queue
            else:
                road.stood = 0

    @staticmethod
    def _discharge(road: Road, amount: int, second: int) -> None:
        road.queue -= amount
        road.left += amount
        for exit, before, upto in road.turns:
            part = amount * upto // 1000 - amount * before // 1000
            if part:
                exit.enter(second, part)

    def passed(self) -> dict[str, list[int]]:
        """What entered each link out of the district in the seconds of the round that is over; then nothing has entered yet."""
        told = {name: road.coming for name, road in self.borders.items()}
        for road in self.borders.values():
            road.coming = [0] * road.travel
        return told

    def let_in(self, name: str, begin: int, amounts: list[int]) -> None:
        """Lets enter a link from another district what entered it there in the seconds from `begin` on."""
        for second, amount in enumerate(amounts, begin):
            self.roads[name].enter(second, amount)
