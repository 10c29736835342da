"""A fixed plan from the loads of a network: cycle by Webster, splits by loads, offsets along the streets.

Webster's cycle is (1.5 L + 5) / (1 - Y), where L is what is lost in a cycle and Y the sum of the phases' loads; here one for all nodes, as long as the
node asks that asks for most, within what greens may last. What is not lost of it goes to the phases by their loads.
"""

from collections.abc import Sequence
from dataclasses import dataclass, replace
from itertools import islice

from .check_input import best_loads
from .networks import Network, Node
from .plans import PlanRow

MOST_OFFSET = 17_999
FULL = 0.95  # the greatest sum of loads that the cycle is computed with


@dataclass(frozen=True)
class Timing:
    """The fixed plan of a node: the phases that have greens, how long these are, and the offset."""

    node: Node
    phases: tuple[int, ...]
    greens: tuple[int, ...]
    offset: int = 0

    @property
    def cycle(self) -> int:
        """The length of a cycle."""
        return sum(green + self.change(number) for number, green in zip(self.phases, self.greens))

    def change(self, number: int) -> int:
        """Yellow and red clearance after a green of a phase."""
        return self.node.phases[number].yellow + self.node.phases[number].clear

    def begins(self) -> dict[int, tuple[int, int]]:
        """By phase: in which second of a cycle its green begins, and how long it is."""
        second, found = 0, {}
        for number, green in zip(self.phases, self.greens):
            found[number] = second, green
            second += green + self.change(number)
        return found

    def rows(self) -> list[PlanRow]:
        """Its rows of a plan."""
        return [PlanRow(self.node.name, number, green, self.offset) for number, green in zip(self.phases, self.greens)]


Plan = tuple[Timing, ...]


def cycles_of(timing: Timing) -> tuple[int, int]:
    """The shortest and the longest cycle of these phases of a node."""
    phases = [timing.node.phases[number] for number in timing.phases]
    change = sum(phase.yellow + phase.clear for phase in phases)
    return change + sum(phase.least for phase in phases), change + sum(phase.greatest for phase in phases)


def with_cycle(timing: Timing, weights: Sequence[float], cycle: int) -> Timing:
    """These phases in a cycle of this length, or the nearest one that there is: what is not lost goes to them by their weights."""
    phases = [timing.node.phases[number] for number in timing.phases]
    least, most = cycles_of(timing)
    left = max(least, min(most, cycle)) - sum(phase.yellow + phase.clear for phase in phases)
    free, whole = max(0, left - sum(phase.loss for phase in phases)), sum(weights)
    wanted = [phase.loss + (free * weight / whole if whole else free / len(phases)) for phase, weight in zip(phases, weights)]
    greens = [max(phase.least, min(phase.greatest, round(green))) for phase, green in zip(phases, wanted)]
    while sum(greens) != left:
        step = 1 if sum(greens) < left else -1
        able = [at for at, phase in enumerate(phases) if phase.least <= greens[at] + step <= phase.greatest]
        greens[max(able, key=lambda at: step * (wanted[at] - greens[at]))] += step
    return replace(timing, greens=tuple(greens))


def shown_phases(node: Node, loads: Sequence[float]) -> tuple[int, ...]:
    """The phases that a plan shows: all without `skip`, and those that have a load; two at least."""
    shown = {number for number, phase in enumerate(node.phases) if not phase.skip or loads[number] > 0}
    others = (number for number in range(len(node.phases)) if number not in shown)
    return tuple(sorted([*shown, *islice(others, max(0, 2 - len(shown)))]))


def webster_cycle(timing: Timing, loads: Sequence[float]) -> float:
    """The cycle that Webster gives for a node."""
    phases = [timing.node.phases[number] for number in timing.phases]
    lost = sum(phase.yellow + phase.clear + phase.loss for phase in phases)
    return (1.5 * lost + 5) / (1 - min(FULL, sum(loads)))


def first_plan(network: Network, flows: dict[str, float]) -> tuple[Plan, dict[str, tuple[float, ...]]]:
    """The plan of Webster's cycle, and the weights of each node's phases."""
    timings, weights, wanted = [], {}, []
    for node in network.nodes:
        loads = best_loads(network, node, flows)
        phases = shown_phases(node, loads)
        timing = Timing(node, phases, tuple(node.phases[number].least for number in phases))
        timings.append(timing)
        weights[node.name] = tuple(loads[number] for number in phases)
        wanted.append(webster_cycle(timing, weights[node.name]))
    return scaled(network, tuple(timings), weights, round(max(wanted)), flows), weights


def weights_of(timing: Timing) -> tuple[float, ...]:
    """The seconds of each green of a plan that are not lost, as weights of its phases."""
    return tuple(max(0.5, green - timing.node.phases[number].loss) for number, green in zip(timing.phases, timing.greens))


def scaled(
    network: Network, plan: Plan, weights: dict[str, tuple[float, ...]], cycle: int, flows: dict[str, float]
) -> Plan:
    """A plan with another cycle and the offsets that suit it."""
    return with_offsets(network, tuple(with_cycle(timing, weights[timing.node.name], cycle) for timing in plan), flows)


def with_offsets(network: Network, plan: Plan, flows: dict[str, float]) -> Plan:
    """The same greens with offsets by which most vehicles come on green, node after node from the fullest links on."""
    own = {timing.node.name: timing for timing in plan}
    links = [link for link in network.links if link.start and link.end]
    first = max(own, key=lambda name: sum(flows[link.name] for link in network.links_to(name)))
    done = {first: replace(own[first], offset=0)}
    while len(done) < len(own):
        between = [link for link in links if (link.start in done) != (link.end in done)]
        if between:
            fullest = max(between, key=lambda link: flows[link.name])
            name = fullest.end if fullest.start in done else fullest.start
        else:
            name = next(name for name in own if name not in done)
        choices = (replace(own[name], offset=offset) for offset in range(min(own[name].cycle, MOST_OFFSET + 1)))
        done[name] = max(choices, key=lambda timing: on_green(network, {**done, name: timing}, name, flows))
    return tuple(done[timing.node.name] for timing in plan)


def on_green(network: Network, done: dict[str, Timing], name: str, flows: dict[str, float]) -> float:
    """How much of what a node sends to its neighbours, and they to it, comes on green: flows times seconds that overlap."""
    total = 0.0
    for link in network.links:
        if name in (link.start, link.end) and link.start in done and link.end in done:
            total += sum(
                flows[feeder] * share * overlap(done[link.start], network.phase_of[feeder][1], done[link.end], link.name, network)
                for feeder, share in feeders_of(network, link.name)
            )
    return total


def feeders_of(network: Network, name: str) -> list[tuple[str, float]]:
    """The links that send vehicles to a link, and which part of theirs."""
    return [(link.name, turn.share / 1000) for link in network.links for turn in link.turns if turn.exit == name and link.end]


def overlap(upper: Timing, phase: int, lower: Timing, link: str, network: Network) -> int:
    """For how many seconds of a green of the upper node its vehicles come to the end of a link in its green."""
    begins, (_, home) = upper.begins(), network.phase_of[link]
    if phase not in begins or home not in lower.begins():
        return 0
    (begin, green), (other, wide) = begins[phase], lower.begins()[home]
    comes = upper.offset + begin + network.link_named(link).travel - lower.offset - other
    return sum((comes + second) % lower.cycle < wide for second in range(green))


def rows_of(plan: Plan) -> list[PlanRow]:
    """The rows of a plan."""
    return [row for timing in plan for row in timing.rows()]


def plan_from(network: Network, rows: Sequence[PlanRow]) -> Plan:
    """The plan that has these rows."""
    found = []
    for node in network.nodes:
        own = [row for row in rows if row.node == node.name]
        found.append(Timing(node, tuple(row.phase for row in own), tuple(row.green for row in own), own[0].offset if own else 0))
    return tuple(found)
