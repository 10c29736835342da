"""A district between its rounds: it tells the program a state, keeps what that decides, and tells its neighbours what crosses.

In a round each node has its own turn from the state with which the round begins, so no node hears what another one tells in this round:
docs/FORMATS.md, "State of a round" and "Decision of a round". A board is the text of its `version` row and the rows of its forecast.
"""

from collections.abc import Iterator, Sequence
from dataclasses import dataclass
from typing import Protocol

from ..networks import Network
from ..serving import HEADER
from .cut import Cut
from .world import Crossroads, Road, Row, World

Parcel = list[tuple[str, list[int]]]  # of each link to a neighbour: its board, and what entered it in the seconds of a round


class Decider(Protocol):
    """Who is asked in each round, as `Serving`."""

    def turns(self, state: str, names: Sequence[str]) -> list[str]:
        """The decision of each of these nodes in a state, by its own turn."""
        ...


@dataclass(frozen=True)
class Part:
    """What a district tells of the whole run: of each link what entered, left and waited, what arrived, the greens of its nodes where they
    are wanted, and where its seconds went."""

    links: dict[str, tuple[int, int, int]]
    arrived: int
    greens: dict[str, list[Row]]
    spent: dict[str, float]


class District:
    """The nodes of a rank, their boards, and their world. `greens` says whether all greens are kept."""

    def __init__(self, network: Network, cut: Cut, rank: int, world: World, greens: bool = False) -> None:
        self.world, self._step, self.boards = world, network.run.step, dict[str, str]()
        self._greens: dict[str, list[Row]] = {name: [] for name in world.nodes} if greens else {}
        crossing = [link for link in network.links if cut.crosses(link)]
        self._out, self._in = dict[int, list[str]](), dict[int, list[str]]()
        for link in crossing:
            if cut.source_of(link) == rank:
                self._out.setdefault(cut.rank_of(link), []).append(link.name)
            elif cut.rank_of(link) == rank:
                self._in.setdefault(cut.source_of(link), []).append(link.name)
        self._exits = {name: [link.name for link in network.links_from(name)] for name in world.nodes}
        self._told: dict[str, str] = {}  # the boards of the links that lead out

    @property
    def sources(self) -> list[int]:
        """The ranks from which links lead into the district."""
        return sorted(self._in)

    @property
    def targets(self) -> list[int]:
        """The ranks to which links lead out of it."""
        return sorted(self._out)

    def decide(self, now: int, decider: Decider) -> None:
        """Asks for the turn of each node in the round that begins now. All are asked before any is followed."""
        answers = [decider.turns(self._state_of(name, now), [name])[0] for name in self.world.nodes]
        for node, answer in zip(self.world.nodes.values(), answers, strict=True):
            self._take(node, answer)

    def _state_of(self, name: str, now: int) -> str:
        """What a node needs of the state: what it shows and senses, the boards that it hears, and the versions of those that it tells."""
        node = self.world.nodes[name]
        heard = [self.boards[road.link.name] for road in node.roads if road.link.name in self.boards]
        versions = [self.boards[link].partition("\n")[0] for link in self._exits[name] if link in self.boards]
        return "\n".join([HEADER, f"now,,{now},,", *_node_rows(name, node, now), *heard, *versions, ""])

    def _take(self, node: Crossroads, answer: str) -> None:
        """Keeps what a node has decided. Of what it tells another district its own needs the version alone."""
        own, *boards = answer.rstrip("\n").split("\nversion,")
        rows = (row.split(",") for row in own.split("\n"))
        line = [(int(phase), int(begin), int(end)) for kind, _, phase, begin, end in rows if kind == "green"]
        node.follow(line)
        if node.node.name in self._greens:
            kept = self._greens[node.node.name]
            while kept and kept[-1][1] >= line[0][1]:
                kept.pop()
            kept += line
        for board in boards:
            link, text = board.partition(",")[0], "version," + board
            if link in self.world.borders:
                self._told[link], text = text, text.partition("\n")[0]
            self.boards[link] = text

    def move(self, now: int) -> dict[int, Parcel]:
        """Moves the world through the seconds of the round, and says what is to be told of it to which rank."""
        for second in range(now, now + self._step):
            self.world.move(second)
        passed = self.world.passed()
        return {rank: [(self._told[name], passed[name]) for name in names] for rank, names in self._out.items()}

    def hear(self, now: int, parcels: dict[int, Parcel]) -> None:
        """Takes what the neighbours tell of the round that began now."""
        for rank, names in self._in.items():
            for name, (board, amounts) in zip(names, parcels[rank], strict=True):
                self.boards[name] = board
                self.world.let_in(name, now, amounts)

    def part(self, spent: dict[str, float]) -> Part:
        """What it tells when the run is over."""
        links = {name: (road.entered, road.left, road.delay) for name, road in self.world.roads.items()}
        return Part(links, self.world.arrived, self._greens, spent)


def _node_rows(name: str, node: Crossroads, now: int) -> Iterator[str]:
    """What a node shows and senses."""
    for phase, begin, end in node.line:
        yield f"green,{name},{phase},{begin},{end}"
    for road in node.roads:
        if road.queue:
            yield f"queue,{road.link.name},{road.queue},{road.stood},"
        yield from _coming_rows(road, now)


def _coming_rows(road: Road, now: int) -> Iterator[str]:
    """What comes to the end of a link, for each second in which something does."""
    begin = now % road.travel
    if any(road.coming):
        for second, amount in enumerate(road.coming[begin:] + road.coming[:begin], now):
            if amount:
                yield f"coming,{road.link.name},{second},{amount},"
