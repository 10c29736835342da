"""What passes the links of a network second by second, by running totals: docs/RULES.md, "World".

Moment n is when n seconds of the run have passed, as in what the command `queues` writes; second x lies between the moments x and x + 1.
Amounts are in thousandths of a vehicle. The totals come from the text of `queues`, or from greens and arrivals, by which the vehicles
are moved here again; where they come to something else than a report says, it is no report of this network and these arrivals.
"""

from bisect import bisect_left
from collections.abc import Iterable
from dataclasses import dataclass
from functools import cached_property

from .arrivals import Arrival
from .faults import Fault
from .networks import Link, Network
from .queues import Queues
from .records import quote
from .reports import Green, Records
from .signs import Light, lights_of


@dataclass(frozen=True, slots=True)
class Passage:
    """What reached the end of a link in one second and left it in another; `left` is None where the run ends before."""

    reached: int
    left: int | None
    amount: int


@dataclass(frozen=True)
class Flow:
    """A link's totals: all that entered it, and all that left it, in the first n seconds, for each moment n of the run from 0 on."""

    link: Link
    entered: list[int]
    left: list[int]

    def reached(self, moment: int) -> int:
        """All that has reached the end of the link: what had entered it a travel time before."""
        return self.entered[max(0, moment - self.link.travel)]

    @cached_property
    def queue(self) -> list[int]:
        """The queue at each moment: what has reached the end and not left."""
        return [reached - left for reached, left in zip([0] * self.link.travel + self.entered, self.left)]

    @property
    def delay(self) -> int:
        """The queues summed over the seconds, in thousandths of a vehicle times seconds."""
        return sum(self.queue) if self.link.end else 0

    @cached_property
    def passages(self) -> list[Passage]:
        """Who reached the end first leaves first. In the order of time."""
        passages, left, gone = [], 0, 0  # `gone`: what has left up to the second `left`, of the amounts already paired
        for second in range(len(self.left) - 1):
            amount = self.reached(second + 1) - self.reached(second)
            while amount and left < len(self.left) - 1:
                part = min(amount, self.left[left + 1] - gone)
                if part:
                    passages.append(Passage(second, left, part))
                    amount, gone = amount - part, gone + part
                if gone == self.left[left + 1]:
                    left += 1
            if amount:
                passages.append(Passage(second, None, amount))
        return passages

    def passages_in(self, begin: int, end: int) -> list[Passage]:
        """The passages of what reached the end of the link from second `begin` up to second `end`."""
        first, last = (bisect_left(self.passages, second, key=lambda passage: passage.reached) for second in (begin, end))
        return self.passages[first:last]


def parts_of(link: Link, amount: int) -> list[int]:
    """What of an amount takes each turn of a link: docs/RULES.md, "Turning"."""
    shares, parts = 0, []
    for turn in link.turns:
        parts.append(amount * (shares + turn.share) // 1000 - amount * shares // 1000)
        shares += turn.share
    return parts


def flows_of_queues(network: Network, queues: Queues) -> dict[str, Flow]:
    """The totals of each link, from what the command `queues` writes."""
    changes = queues.changes_of()
    if list(changes) != [link.name for link in network.links]:
        raise Fault("the links of the queues are not those of the network: are they queues of another network?")
    flows = {}
    for link in network.links:
        told = {change.second: (change.queue, change.on) for change in changes[link.name]}
        if told and max(told) > network.run.seconds:
            raise Fault(f"the queues go up to second {max(told)}, and the run has {network.run.seconds}: are they those of another run?")
        entered, left, now = [0], [0], (0, 0)
        for moment in range(1, network.run.seconds + 1):
            now = told.get(moment, now)
            left.append(entered[max(0, moment - link.travel)] - now[0])
            entered.append(now[1] + left[-1])
        flows[link.name] = Flow(link, entered, left)
    return flows


class _World:
    """The vehicles under given greens, second by second."""

    def __init__(self, network: Network, arrivals: Iterable[Arrival], greens: Iterable[Green]) -> None:
        self.flows = {link.name: Flow(link, [0], [0]) for link in network.links}
        self.arrivals: dict[int, list[Arrival]] = {}
        for arrival in arrivals:
            self.arrivals.setdefault(arrival.second, []).append(arrival)
        self.begins: dict[int, list[tuple[str, Light]]] = {}
        rows: dict[str, list[Green]] = {}
        for green in sorted(greens, key=lambda green: green.begin):
            rows.setdefault(green.node, []).append(green)
        for link in network.links:
            for light in lights_of(network, link, rows.get(link.end, ())) if link.end else ():
                self.begins.setdefault(light.begin, []).append((link.name, light))
        self.lit: dict[str, tuple[int, frozenset[int]]] = {}  # by link that is green: the green's end, and the seconds that are lost
        self.parts: dict[tuple[str, int], list[tuple[str, int]]] = {}  # by link and amount: what goes by each exit

    def light(self, second: int) -> None:
        """Begins the greens of a second; those of a queue lose some seconds."""
        for name, light in self.begins.get(second, []):
            flow = self.flows[name]
            stands = flow.reached(second) > flow.left[second]
            self.lit[name] = light.end, light.lost if stands else frozenset()

    def waits(self, name: str, second: int) -> int:
        """What waits at the end of a link in a second, before anything leaves."""
        flow = self.flows[name]
        since = second + 1 - flow.link.travel
        return flow.entered[since] - flow.left[second] if since > 0 else 0

    def is_busy(self, name: str, second: int) -> bool:
        """Whether a link is green in a second and something waits there."""
        return second < self.lit.get(name, (0,))[0] and self.waits(name, second) > 0

    def rate(self, link: Link, second: int) -> int:
        """What a link that ends at a node lets through in a second."""
        end, lost = self.lit.get(link.name, (0, frozenset()))
        if second >= end or second in lost:
            return 0
        gives_way = any(self.is_busy(other, second) for other in link.yields)
        return link.yield_sat if gives_way else link.sat

    def goes(self, link: Link, amount: int) -> list[tuple[str, int]]:
        """By which exits an amount goes on that a link discharges."""
        key = link.name, amount
        if key not in self.parts:
            self.parts[key] = [(turn.exit, part) for turn, part in zip(link.turns, parts_of(link, amount)) if part]
        return self.parts[key]

    def move(self, second: int) -> None:
        """One second more."""
        self.light(second)
        coming: dict[str, int] = {}
        leaving: list[int] = []
        for arrival in self.arrivals.get(second, []):
            coming[arrival.link] = coming.get(arrival.link, 0) + arrival.amount
        for name, flow in self.flows.items():
            amount = self.waits(name, second)
            if amount and flow.link.end:
                amount = min(amount, self.rate(flow.link, second))
                for exit, part in self.goes(flow.link, amount) if amount else ():
                    coming[exit] = coming.get(exit, 0) + part
            leaving.append(amount)
        for (name, flow), amount in zip(self.flows.items(), leaving):
            flow.left.append(flow.left[second] + amount)
            flow.entered.append(flow.entered[second] + coming.get(name, 0))


def flows_of_greens(network: Network, arrivals: Iterable[Arrival], greens: Iterable[Green]) -> dict[str, Flow]:
    """The totals of each link where these vehicles arrive and the signals show these greens."""
    world = _World(network, arrivals, greens)
    for second in range(network.run.seconds):
        world.move(second)
    return world.flows


def require_totals(flows: dict[str, Flow], report: Records) -> None:
    """Raises a fault where a link counts something else than the report says."""
    for totals in report.links:
        flow = flows[totals.link]
        counted = flow.entered[-1], flow.left[-1], flow.delay
        if counted != (totals.entered, totals.left, totals.delay):
            raise Fault(
                f"of link {quote(totals.link)} the report says {totals.entered},{totals.left},{totals.delay} and its vehicles come to "
                f"{counted[0]},{counted[1]},{counted[2]}: is it one of other arrivals?"
            )
