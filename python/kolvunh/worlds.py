"""A closed loop for a controller of one's own, in the world of docs/RULES.md, "World". Nothing here is proved; `audit` judges its report.

    world = World(network, read_arrivals("net.csv"))
    world.run(max_pressure)
    Path("own.csv").write_text(world.report_text())     # ./signal audit net.toml net.csv own.csv

A controller is asked in each second for each node, and answers the phase that is to come next, or None to go on. The world keeps the rules
of a timeline: no green is shorter than its least one, at its greatest one the ring turns by itself, a phase follows one that it may follow, and
yellow and clear time go by between the two. Amounts are in vehicles, delays in vehicles times seconds.
"""

from collections.abc import Callable, Iterable
from dataclasses import dataclass

from .arrivals import VEHICLE, Arrival
from .districts.command import report_of
from .districts.cut import blocks_of
from .districts.rounds import Part
from .districts.world import Row
from .districts.world import World as Vehicles
from .faults import Fault
from .networks import Link, Network, Node
from .records import quote

NEAR = 3  # seconds within which who comes counts for the pressure of a link
TIMES = 2  # how many times the pressure of the phase that is green another one has to have


@dataclass(frozen=True, slots=True)
class Showing:
    """What a signal shows: a phase with its green from second `begin`, which may be to come, at the longest up to second `end`."""

    phase: int
    begin: int
    end: int


def followers(node: Node, phase: int) -> tuple[int, ...]:
    """The phases that may follow one at its node: up the ring as far as the next unmarked one, and in a free ring each other one."""
    found = []
    for further in range(1, len(node.phases)):
        number = (phase + further) % len(node.phases)
        found.append(number)
        if not node.phases[number].skip:
            break
    return tuple(found)


class World:
    """The vehicles and signals of a network, from second 0 on. All signals begin with the green of phase 0."""

    def __init__(self, network: Network, arrivals: Iterable[Arrival]) -> None:
        self.network, self.now = network, 0
        cut = blocks_of(network, 1)
        self._vehicles = Vehicles(network, cut, 0, self._entering(arrivals))
        self._lines: dict[str, list[Row]] = {node.name: [(0, 0, node.phases[0].greatest)] for node in network.nodes}
        self._follow()

    def _entering(self, arrivals: Iterable[Arrival]) -> list[Arrival]:
        """The arrivals of the run; each has to be by a link from outside."""
        rows = list(arrivals)
        entries = {link.name for link in self.network.links if link.start is None}
        strange = next((row.link for row in rows if row.link not in entries), None)
        if strange is not None:
            raise Fault(f"vehicles enter by link {quote(strange)}, and have to enter by links of the network that come from outside")
        return [row for row in rows if row.second < self.network.run.seconds]

    def _follow(self) -> None:
        for name, line in self._lines.items():
            self._vehicles.nodes[name].follow(line[-2:])

    @property
    def is_over(self) -> bool:
        """Whether the run has come to its end."""
        return self.now >= self.network.run.seconds

    def queue(self, link: str) -> float:
        """What waits at the end of a link."""
        return self._vehicles.roads[link].queue / VEHICLE

    def coming(self, link: str, seconds: int) -> float:
        """What reaches the end of a link within so many seconds from now on."""
        road = self._vehicles.roads[link]
        return sum(road.coming[second % road.travel] for second in range(self.now, self.now + min(seconds, road.travel))) / VEHICLE

    def on_link(self, link: str) -> float:
        """What is on a link, its queue too."""
        road = self._vehicles.roads[link]
        return (road.entered - road.left) / VEHICLE

    @property
    def entered(self) -> float:
        """What has entered the network."""
        return self._vehicles.arrived / VEHICLE

    @property
    def delay(self) -> float:
        """The delay so far."""
        return sum(road.delay for road in self._vehicles.roads.values()) / VEHICLE

    def showing(self, node: str) -> Showing:
        """What the signal of a node shows, or leads to."""
        return Showing(*self._lines[node][-1])

    def may_end(self, node: str) -> bool:
        """Whether the green of a node is under way and has had its least length."""
        showing = self.showing(node)
        return self.now - showing.begin >= self._node(node).phases[showing.phase].least

    def _node(self, name: str) -> Node:
        node = self.network.node_named(name)
        if node is None:
            raise Fault(f"the network has no node {quote(name)}")
        return node

    def change(self, node: str, phase: int) -> None:
        """Ends the green of a node now; that of a phase that may follow begins after yellow and clear time."""
        of, showing = self._node(node), self.showing(node)
        if not self.may_end(node):
            least = of.phases[showing.phase].least
            raise Fault(f"node {quote(node)}: its green from second {showing.begin} lasts {least} seconds at the least, and it is second {self.now}")
        if phase not in followers(of, showing.phase):
            raise Fault(f"node {quote(node)}: phase {phase} can't follow phase {showing.phase}: {followers(of, showing.phase)} can")
        last, times = of.phases[showing.phase], of.phases[phase]
        begin = self.now + last.yellow + last.clear
        self._lines[node][-1] = showing.phase, showing.begin, self.now
        self._lines[node].append((phase, begin, begin + times.greatest))

    def move(self) -> None:
        """One second more. A green that has its greatest length ends before it."""
        if self.is_over:
            raise Fault(f"the run is over at second {self.now}")
        for node in self.network.nodes:
            showing = self.showing(node.name)
            if showing.end <= self.now:
                turn = followers(node, showing.phase)
                is_free = all(phase.skip for phase in node.phases)
                self.change(node.name, turn[0] if is_free else turn[-1])
        self._follow()
        self._vehicles.move(self.now)
        self.now += 1

    def run(self, controller: "Controller") -> None:
        """Moves on to the end of the run; the controller is asked for each node in each second in which a green may end."""
        while not self.is_over:
            for node in self.network.nodes:
                if self.may_end(node.name):
                    phase = controller(self, node)
                    if phase is not None and phase != self.showing(node.name).phase:
                        self.change(node.name, phase)
            self.move()

    def report_text(self) -> str:
        """The report of the run, as `actuate` writes one; it is whole once the run is over."""
        links = {name: (road.entered, road.left, road.delay) for name, road in self._vehicles.roads.items()}
        part = Part(links, self._vehicles.arrived, self._lines, {})
        return "\n".join([*report_of(self.network, [part]), ""])


Controller = Callable[[World, Node], int | None]


def max_pressure(world: World, node: Node) -> int | None:
    """The phase of the greatest pressure, where that is more than twice that of the phase that is green."""
    green = world.showing(node.name).phase
    pressures = {phase: _pressure(world, node, phase) for phase in followers(node, green)}
    best = max(pressures, key=lambda phase: pressures[phase])
    return best if pressures[best] > TIMES * _pressure(world, node, green) else None


def _pressure(world: World, node: Node, phase: int) -> float:
    """The sum over the links of a phase of what they let through times what waits there or is near, less what is on their exits."""
    links = (world.network.link_named(name) for name in (*node.phases[phase].links, *node.phases[phase].also))
    return sum(link.sat * max(0.0, _near(world, link) - _onward(world, link)) for link in links if link)


def _near(world: World, link: Link) -> float:
    return world.queue(link.name) + world.coming(link.name, NEAR)


def _onward(world: World, link: Link) -> float:
    """What waits on the exits of a link, each by its share; nobody waits on one that leaves the network."""
    return sum(turn.share / 1000 * world.queue(turn.exit) for turn in link.turns)
