"""How much comes to the end of each link of a network, and how much of its time each phase needs for it. Nothing here is proved.

The load of a link is what comes to its end, carried along the turns, over what it lets through in green; that of a phase is the greatest of
its links, and the saturation of a node is the sum of its phases' loads over the part of a cycle of greatest greens that is not lost.
"""

import itertools
from collections.abc import Sequence

from .arrivals import Arrival
from .networks import Link, Network, Node

MOST_PASSES = 1000
LEAST_SECONDS = 60  # over which arrivals count at the least, in a run that is so long


def link_flows(network: Network, arrivals: Sequence[Arrival]) -> dict[str, float]:
    """What comes to the end of each link, in thousandths of a vehicle a second, while vehicles enter."""
    entering = dict.fromkeys((link.name for link in network.links), 0.0)
    for arrival in arrivals:
        entering[arrival.link] += arrival.amount
    last = max((arrival.second for arrival in arrivals), default=0)
    seconds = max(1 + last, min(network.run.seconds, LEAST_SECONDS))
    flows = dict(entering)
    # Each pass carries the flows one link on; what circles in the network fades, and what never leaves it is cut off.
    for _ in range(MOST_PASSES):
        further = dict(entering)
        for link in network.links:
            for turn in link.turns:
                further[turn.exit] += flows[link.name] * turn.share / 1000
        change = max(abs(further[name] - flows[name]) for name in flows)
        flows = further
        if change < 0.001:
            break
    return {name: flow / seconds for name, flow in flows.items()}


def phase_loads(network: Network, node: Node, flows: dict[str, float]) -> list[float]:
    """The load of each phase of a node by the links that have their home in it: 1 is all that its fullest one lets through in green all the time."""
    return [
        max((flows[name] / rate_in(network, network.link_named(name), number, flows) for name in phase.links), default=0)
        for number, phase in enumerate(node.phases)
    ]


def shared_loads(network: Network, node: Node, flows: dict[str, float]) -> list[float]:
    """The load of each phase where each link is served in all its greens: those of the least sum that let through what comes.

    Crossings ask for no more than their phases have.
    """
    count = len(node.phases)
    needs = [[float(place == number) for place in range(count)] + [0.0] for number in range(count)]
    for link in network.links_to(node.name):
        if flows[link.name] > 0 and link.walk is None:
            rates = [rate_in(network, link, number, flows) / flows[link.name] for number in range(count)]
            needs.append([*rates, 1.0])
    corners = (_solution(rows) for rows in itertools.combinations(needs, count))
    fitting = [
        corner
        for corner in corners
        if corner and all(sum(rate * load for rate, load in zip(need, corner)) > need[-1] - 1e-9 for need in needs)
    ]
    return min(fitting, key=sum)


def rate_in(network: Network, link: Link, phase: int, flows: dict[str, float]) -> int:
    """What a link lets through in a second of a phase: `yield_sat` where one to which it gives way is green and brings somebody."""
    if phase not in network.greens_of[link.name]:
        return 0
    in_front = any(phase in network.greens_of[other] and flows[other] > 0 for other in link.yields)
    return link.yield_sat if in_front else link.sat


def _solution(rows: Sequence[Sequence[float]]) -> list[float] | None:
    """The numbers that solve as many linear equations, each its factors and its sum; None where they are not the only ones."""
    left = [list(row) for row in rows]
    for place in range(len(left)):
        best = max(range(place, len(left)), key=lambda at: abs(left[at][place]))
        left[place], left[best] = left[best], left[place]
        if abs(left[place][place]) < 1e-9:
            return None
        left[place] = [value / left[place][place] for value in left[place]]
        for at in range(len(left)):
            if at != place:
                left[at] = [value - left[at][place] * own for value, own in zip(left[at], left[place])]
    return [row[-1] for row in left]


def best_loads(network: Network, node: Node, flows: dict[str, float]) -> list[float]:
    """The loads of its phases; where links are green in several, those of the least sum."""
    shares = any(len(network.greens_of[link.name]) > 1 for link in network.links_to(node.name))
    return shared_loads(network, node, flows) if shares else phase_loads(network, node, flows)


def saturation(node: Node, loads: Sequence[float]) -> float:
    """The sum of the loads over the part of a cycle of greatest greens that is not lost."""
    cycle = sum(phase.greatest + phase.yellow + phase.clear for phase in node.phases)
    lost = sum(phase.yellow + phase.clear + phase.loss for phase in node.phases)
    return sum(loads) * cycle / (cycle - lost)
