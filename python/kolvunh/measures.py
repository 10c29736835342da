"""Measures of a report, as traffic engineers take them: by movement, link, phase, approach, node and network, over any interval of a run.

    ./signal measures NET ARR REPORT [--by KIND] [--from SECOND] [--to SECOND] [--every SECONDS] [--csv] [--queues QUEUES]
                                      [--approach NAME=LINK,LINK ..] [--lanes LANES]

The vehicles are moved under the report's greens by the rules of the world, and compared with the report's totals; with `--queues` they are
taken from what the command `queues` wrote. Queues are by lane too where LANES, or `lanes.csv` beside NET, knows the lanes. What each measure
means, with its unit: docs/FORMATS.md, "Measures". Nothing here is proved.
"""

import argparse
import math
from collections.abc import Iterable, Sequence
from dataclasses import asdict, dataclass
from functools import cached_property
from itertools import accumulate, pairwise
from os import PathLike

from .arrivals import VEHICLE, Arrival, read_arrivals, require_links
from .commands import Words, end
from .faults import Fault
from .flows import Flow, flows_of_greens, flows_of_queues, parts_of, require_totals
from .lanes import Lanes, by_lane, lanes_beside, read_lanes
from .measure_tables import csv_text, table_text
from .measure_values import Lengths, Measures, level_of, percentile, quotient
from .networks import Link, Network, network_faults, read_network
from .queues import Queues, read_queues
from .records import Place, quote
from .reports import Green, Records, read_report
from .signs import Light, lights_of

KINDS = ("network", "node", "phase", "approach", "link", "movement")

@dataclass(frozen=True)
class Part:
    """A part of a network: its name, its links and the phases of its signals; of a movement the turn of its link, by its place from 0; and where
    it is a link, or a movement of one, that link."""

    name: str
    links: list[str]
    phases: list[tuple[str, int]]
    turn: int | None = None
    single: str | None = None


@dataclass
class Tally:
    """Sums over those that reach the end of a link in an interval, in thousandths of a vehicle, and their delay in these times seconds.

    `expected` would come on green if they came at any second alike.
    """

    vehicles: float = 0
    left: float = 0
    delay: float = 0
    stopped: float = 0
    on_green: float = 0
    expected: float = 0

    def add(self, other: "Tally") -> None:
        """Adds the sums of another."""
        for name, amount in asdict(other).items():
            setattr(self, name, getattr(self, name) + amount)


class Study:
    """A report with what passed its links, ready to be measured."""

    def __init__(self, network: Network, report: Records, flows: dict[str, Flow], lanes: Lanes | None = None) -> None:
        self.network, self.report, self.flows, self.lanes = network, report, flows, lanes or {}
        self.end = network.run.seconds

    @cached_property
    def greens(self) -> dict[tuple[str, int], list[Green]]:
        """The greens of each node and phase, in the order of time."""
        greens: dict[tuple[str, int], list[Green]] = {
            (node.name, number): [] for node in self.network.nodes for number in range(len(node.phases))
        }
        for green in sorted(self.report.greens, key=lambda green: green.begin):
            greens[green.node, green.phase].append(green)
        return greens

    @cached_property
    def lights(self) -> dict[str, list[Light]]:
        """For each link that ends at a node all its greens, in the order of time."""
        rows = self.report.greens_of()
        return {link.name: lights_of(self.network, link, rows.get(link.end, ())) for link in self.network.links if link.end}

    @cached_property
    def lets(self) -> dict[str, list[int]]:
        """For each link that ends at a node what its greens let through in the first n seconds: the seconds that a queue loses let nothing through,
        and those in which one is busy to which it gives way let `yield_sat` through."""
        return {name: [0, *accumulate(self._rates(self.network.link_named(name), lights))] for name, lights in self.lights.items()}

    def _rates(self, link: Link, lights: Sequence[Light]) -> list[int]:
        """What a link lets through in each second."""
        rates = [0] * self.end
        for light in lights:
            for second in range(light.begin, min(light.end, self.end)):
                if second not in light.lost:
                    rates[second] = link.yield_sat if any(self._is_busy(other, second) for other in link.yields) else link.sat
        return rates

    def _is_busy(self, name: str, second: int) -> bool:
        """Whether a link is green in a second and something waits there."""
        lit, flow = self.green_seconds[name], self.flows[name]
        return lit[second + 1] > lit[second] and flow.reached(second + 1) > flow.left[second]

    @cached_property
    def green_seconds(self) -> dict[str, list[int]]:
        """For each link that ends at a node in how many of the first n seconds it is green, in all its greens."""
        seconds = {}
        for name, lights in self.lights.items():
            lit = [0] * self.end
            for light in lights:
                lit[light.begin : light.end] = [1] * (min(light.end, self.end) - light.begin)
            seconds[name] = [0, *accumulate(lit)]
        return seconds

    def phase_of(self, link: str) -> tuple[str, int]:
        """The node and the phase that is the home of a link."""
        node, number = self.network.phase_of[link]
        return node.name, number

    def tally(self, name: str, begin: int, end: int, turn: int | None = None) -> Tally:
        """The sums of a link over those who reach its end in an interval; of those alone who take a turn of it, by its place from 0."""
        flow, lit, tally = self.flows[name], self.green_seconds[name], Tally()
        for passage in flow.passages_in(begin, end):
            amount: float = passage.amount
            if turn is not None:
                amount *= self._part(flow, passage.left, turn)
            wait = (self.end if passage.left is None else passage.left) - passage.reached
            tally.vehicles += amount
            tally.left += 0 if passage.left is None else amount
            tally.delay += amount * wait
            tally.stopped += amount if wait * flow.link.sat >= VEHICLE else 0
            tally.on_green += amount * (lit[passage.reached + 1] - lit[passage.reached])
        tally.expected = tally.vehicles * (lit[end] - lit[begin]) / (end - begin)
        return tally

    @staticmethod
    def _part(flow: Flow, second: int | None, turn: int) -> float:
        """The part, from 0 to 1, of what leaves a link in a second that takes this turn."""
        if second is None:
            return flow.link.turns[turn].share / 1000
        amount = flow.left[second + 1] - flow.left[second]
        return parts_of(flow.link, amount)[turn] / amount

    def is_failure(self, link: str, begin: int, end: int) -> bool:
        """Whether a queue stands at the end of a link from one moment to another."""
        return all(self.flows[link].queue[begin : end + 1])

    def greens_in(self, phases: Iterable[tuple[str, int]], begin: int, end: int) -> list[Green]:
        """The greens of these phases that end in an interval."""
        return [green for phase in phases for green in self.greens[phase] if begin < green.end <= end]

    def spans(self, part: Part, begin: int, end: int) -> list[tuple[int, int, list[str]]]:
        """The greens of a part that end in an interval, each from and to, with its links; of a single link all its greens, and else those of its phases.

        Of a link without any the greens of that phase of its node count which has the most of them: so it may fail once in each cycle.
        """
        single = part.single
        found = [(light.begin, light.end, [single]) for light in self.lights[single] if begin < light.end <= end] if single else [
            (green.begin, green.end, [link for link in part.links if self.phase_of(link) == (green.node, green.phase)])
            for green in self.greens_in(part.phases, begin, end)
        ]  # fmt: skip
        for node, number in part.phases:
            unserved = [link for link in part.links if self.phase_of(link) == (node, number) and self._is_dark(link, begin, end)]
            if unserved:
                others = [self.greens_in([phase], begin, end) for phase in self.greens if phase[0] == node]
                found += [(green.begin, green.end, unserved) for green in max(others, key=len)]
        return found

    def _is_dark(self, link: str, begin: int, end: int) -> bool:
        """Whether a link has no green in an interval."""
        return self.green_seconds[link][end] == self.green_seconds[link][begin]

    def cycles_in(self, part: Part, begin: int, end: int) -> list[int]:
        """The seconds from each green of a phase to its next, where that begins in an interval; of unmarked phases, where there are any."""
        if part.single:
            rows = [[light.begin for light in self.lights[part.single]]]
        else:
            marked = {phase for phase in part.phases if self.network.node_named(phase[0]).phases[phase[1]].skip}
            counted = [phase for phase in part.phases if phase not in marked] or part.phases
            rows = [[green.begin for green in self.greens[phase]] for phase in counted]
        return [after - before for row in rows for before, after in pairwise(row) if begin < after <= end]

    def dark_in(self, greens: Sequence[Green | Light], begin: int, end: int) -> int:
        """The most seconds of an interval that are in none of these greens, one after another."""
        bounds = [(max(begin, green.begin), min(end, green.end)) for green in greens if green.begin < end and begin < green.end]
        return max(after[0] - before[1] for before, after in pairwise([(begin, begin), *bounds, (end, end)]))

    def plans_in(self, nodes: set[str], begin: int, end: int) -> tuple[int, int] | tuple[None, None]:
        """How many plans these nodes made in an interval, and how many times there was none; both None in a report without plans."""
        if not self.report.plans:
            return None, None
        step = self.network.run.step
        plans = [plan for plan in self.report.plans if plan.node in nodes and begin <= plan.round * step < end]
        return len(plans), sum(not plan.is_found for plan in plans)

    def measures(self, kind: str, part: Part, begin: int, end: int) -> Measures:
        """The measures of a part of the network of this kind."""
        tally, walkers, links = Tally(), Tally(), part.links
        for link in links:
            (tally if self.network.link_named(link).walk is None else walkers).add(self.tally(link, begin, end, part.turn))
        both = Tally()
        both.add(tally)
        both.add(walkers)
        roads = [link for link in links if self.network.link_named(link).walk is None]
        queues = {link: self.flows[link].queue[begin + 1 : end + 1] for link in roads or links}
        queue = [sum(each) for each in zip(*queues.values())]
        spans = self.spans(part, begin, end)
        failures = sum(any(self.is_failure(link, first, last) for link in of) for first, last, of in spans)
        lit, cycles = Lengths.of(self.lengths(part, begin, end)), Lengths.of(self.cycles_in(part, begin, end))
        plans = self.plans_in({node for node, _ in part.phases}, begin, end) if kind in ("node", "network") else (None, None)
        each, capacity, ratio = quotient(tally.delay, tally.vehicles), *self.capacity(part, roads, begin, end)
        trips = self.entries(begin, end) if kind == "network" else 0
        return Measures(
            kind, part.name, begin, end,
            tally.vehicles / VEHICLE, tally.left / VEHICLE, tally.delay / VEHICLE, each,
            level_of(each, ratio if kind in ("link", "movement") else None), quotient(tally.delay, trips),
            tally.stopped / VEHICLE,
            *(percentile(queue, hundredths) / VEHICLE for hundredths in (50, 95, 100)),
            len(spans), failures, quotient(both.on_green, both.vehicles), quotient(both.on_green, both.expected),
            lit.mean, lit.least, lit.most, cycles.mean, cycles.least, cycles.most,
            max(self.dark_in(greens, begin, end) for greens in self.greens_of(part)), *plans, capacity, ratio,
            walkers.vehicles / VEHICLE, walkers.delay / VEHICLE, quotient(walkers.delay, walkers.vehicles),
            *(by_lane({link: [each / VEHICLE for each in queue] for link, queue in queues.items()}, self.lanes) or ()),
        )  # fmt: skip

    def greens_of(self, part: Part) -> Sequence[Sequence[Green | Light]]:
        """The greens of a single link, or of each phase of a part."""
        return [self.lights[part.single]] if part.single else [self.greens[phase] for phase in part.phases]

    def lengths(self, part: Part, begin: int, end: int) -> list[int]:
        """How long the greens of a part are that end in an interval."""
        return [green.end - green.begin for greens in self.greens_of(part) for green in greens if begin < green.end <= end]

    def capacity(self, part: Part, links: Sequence[str], begin: int, end: int) -> tuple[float, float | None]:
        """What these links let through in an interval, in vehicles, and the greatest of their ratios of what comes to that."""
        lets = {link: self.lets[link][end] - self.lets[link][begin] for link in links}
        comes = {link: self.flows[link].reached(end) - self.flows[link].reached(begin) for link in links}
        served = {link: comes[link] / lets[link] if lets[link] else math.inf for link in links if comes[link]}
        ratio = max(served.values(), default=None)
        return sum(lets.values()) / VEHICLE, ratio

    def entries(self, begin: int, end: int) -> int:
        """What entered the network from outside in an interval, in thousandths of a vehicle; nobody who walks."""
        flows = (flow for flow in self.flows.values() if flow.link.start is None and flow.link.walk is None)
        return sum(flow.entered[end] - flow.entered[begin] for flow in flows)

    def part(self, name: str, links: list[str]) -> Part:
        """These links, with the phases that are their homes."""
        return Part(name, links, sorted({self.phase_of(link) for link in links}))

    def single(self, name: str, link: str, turn: int | None = None) -> Part:
        """A link, or a movement of it."""
        return Part(name, [link], [self.phase_of(link)], turn, link)

    def parts(self, kind: str, approaches: dict[str, list[str]]) -> list[Part]:
        """The parts of the network of a kind, in the order of the network."""
        ending = [link for link in self.network.links if link.end]
        if kind == "network":
            return [self.part("network", [link.name for link in ending])]
        if kind == "node":
            return [self.part(node.name, [link.name for link in ending if link.end == node.name]) for node in self.network.nodes]
        if kind == "phase":
            return [
                Part(f"{node} {number}", [link.name for link in ending if self.phase_of(link.name) == (node, number)], [(node, number)])
                for node, number in self.greens
            ]
        if kind == "link":
            return [self.single(link.name, link.name) for link in ending]
        if kind == "movement":
            return [self.single(f"{link.name}>{turn.exit}", link.name, place) for link in ending for place, turn in enumerate(link.turns)]
        return [self.part(name, links) for name, links in approaches_of(self.network, approaches).items()]

    def table(
        self, kind: str, begin: int = 0, end: int | None = None, every: int | None = None, approaches: dict[str, list[str]] | None = None
    ) -> list[Measures]:
        """The measures of each part of a kind, in the order of the network; with `every`, in each piece of the interval that is so long."""
        end = self.end if end is None else end
        if not 0 <= begin < end <= self.end:
            raise Fault(f"from second {begin} to {end} is no interval of the run, which goes from 0 to {self.end}")
        if every is not None and every < 1:
            raise Fault(f"every {every} seconds is no interval")
        begins = range(begin, end, every or end - begin)
        return [
            self.measures(kind, part, first, min(end, first + begins.step))
            for first in begins
            for part in self.parts(kind, approaches or {})
            if part.phases
        ]


def approaches_of(network: Network, named: dict[str, list[str]]) -> dict[str, list[str]]:
    """The approaches of all nodes by name, with their links: the named ones, else the links from one node to another, else single links."""
    names = {link: name for name, links in named.items() for link in links}
    for name, links in named.items():
        ends = {link.end for link in map(network.link_named, links) if link}
        if len(ends) != 1 or None in ends or any(network.link_named(link) is None for link in links):
            raise Fault(f"approach {quote(name)}: its links have to be links of the network that end at one node")
    approaches: dict[str, list[str]] = {}
    for link in network.links:
        if link.end:
            own = f"{link.start} to {link.end}" if link.start else link.name
            approaches.setdefault(names.get(link.name, own), []).append(link.name)
    return approaches


def study_of(
    network: Network, arrivals: Place | Sequence[Arrival], report: Place | Records, queues: Place | Queues | None = None, lanes: Lanes | None = None
) -> Study:
    """The study of a report; with queues the vehicles are taken from there, else they are moved under the report's greens. Each is a file or
    what was read of one; with the lanes of links queues are by lane too."""
    read, place = (report, "the report") if isinstance(report, Records) else (read_report(report), report)
    read.require_network(network, place)
    if queues is None:
        flows = _flows_under(network, arrivals, read)
    else:
        flows = flows_of_queues(network, queues if isinstance(queues, Queues) else read_queues(queues))
    try:
        require_totals(flows, read)
    except Fault as fault:
        raise Fault(f"{place}: {fault}") from None
    return Study(network, read, flows, lanes)


def _flows_under(network: Network, arrivals: Place | Sequence[Arrival], read: Records) -> dict[str, Flow]:
    is_place = isinstance(arrivals, str | PathLike)
    rows = read_arrivals(arrivals) if is_place else arrivals
    require_links(network, arrivals if is_place else "the arrivals", rows)
    return flows_of_greens(network, rows, read.greens)


def approach_of(words: str) -> tuple[str, list[str]]:
    """The name and the links of `NAME=LINK,LINK`."""
    name, mark, links = words.partition("=")
    if not (name and mark and links):
        raise argparse.ArgumentTypeError(f"{words!r} is not NAME=LINK,LINK")
    return name, links.split(",")


def parser() -> Words:
    """What the command takes."""
    words = Words(__doc__)
    for name in ("network", "arrivals", "report"):
        words.add_argument(name)
    words.add_argument("--by", choices=(*KINDS, "all"), default="node", help="what there is a row for (node)")
    words.add_argument("--from", dest="begin", type=int, default=0, metavar="SECOND", help="where the interval begins (0)")
    words.add_argument("--to", dest="end", type=int, metavar="SECOND", help="up to where it goes (the end of the run)")
    words.add_argument("--every", type=int, metavar="SECONDS", help="a row for each piece of the interval that is so long")
    words.add_argument("--csv", action="store_true", help="write CSV")
    words.add_argument("--queues", metavar="QUEUES", help="what the command `queues` wrote of this report")
    words.add_argument("--lanes", metavar="LANES", help="the lanes of links, as `street` writes them (lanes.csv beside NET, where it is there)")
    words.add_argument("--approach", type=approach_of, action="append", default=[], metavar="NAME=LINK,LINK", help="links of one approach")
    return words


def answer(words: Sequence[str] | None = None) -> str:
    """What the command writes."""
    form = parser()
    options = form.parse_args(words)
    if options.approach and options.by not in ("approach", "all"):
        form.error("--approach wants --by approach or --by all")
    kinds = KINDS if options.by == "all" else (options.by,)
    with network_faults(options.network):
        network = read_network(options.network)
        lanes = read_lanes(options.lanes, network) if options.lanes else lanes_beside(network, options.network)
        study = study_of(network, options.arrivals, options.report, options.queues, lanes)
        tables = [study.table(kind, options.begin, options.end, options.every, dict(options.approach)) for kind in kinds]
    return csv_text(row for rows in tables for row in rows) if options.csv else "\n".join(map(table_text, tables))


def main() -> None:
    """Runs the command by the words that the process was called with."""
    end(lambda: print(answer(), end=""))


if __name__ == "__main__":
    main()
