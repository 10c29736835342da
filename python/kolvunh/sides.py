"""From which side of its junction each link of a drawing comes or to which it leads, where its other end is outside of the network.

A side is an angle from x to the right to y down. It is where its end is, where that is known; else it comes from the turns: who comes from
outside goes straight on where most of them go, so a link in is opposite to the exit that most of it takes, and a link out to the link of which it
takes most. Where several turns are alike, the one onto a road that is known does not decide. What is still open goes where there is most room.
"""

import cmath
import math
import re

from .networks import Link, Network, Node
from .places import Places

Sides = dict[str, float]
# Names as eb, wbl or north say on which way a link leads, where the map lies so that they agree with the roads between junctions
HEADINGS = {"e": 0.0, "s": math.pi / 2, "w": math.pi, "n": -math.pi / 2}
BOUND = re.compile(r"(?:^|_)([nsew])b[ltr]?(?:_|$)")
TOWARD = re.compile(r"(?:^|_)(n|s|e|w|north|south|east|west)(?:_|$)")
STRAIGHT = 500  # thousandths of a link's vehicles that go straight on by its main turn
TURN = 8  # degrees within which two headings agree


def sides_of(network: Network, places: Places, ends: Places) -> Sides:
    """The side of each link that has an end outside; `ends` has the places of such ends, as far as they are known."""
    known = {name: _angle(places[_node_of(network, name)], end) for name, end in ends.items() if _is_outer(network, name)}
    turn = _turn_of(network, places)
    for node in network.nodes:
        _add_sides(network, node, places, known, turn)
    return known


def _is_outer(network: Network, name: str) -> bool:
    link = network.link_named(name)
    return link is not None and None in (link.start, link.end)


def _node_of(network: Network, name: str) -> str:
    """The node of a link that has an end outside."""
    link = network.link_named(name)
    return str(link.end or link.start) if link else ""


def _angle(one: tuple[float, float], other: tuple[float, float]) -> float:
    return math.atan2(other[1] - one[1], other[0] - one[0])


def heading_of(link: Link) -> float | None:
    """The way on which a link leads, as its name says; north is up."""
    found = BOUND.search(link.name)
    if found:
        return HEADINGS[found[1]]
    found = TOWARD.search(link.name)
    if not found:
        return None
    return HEADINGS[found[1][0]] + (0 if link.end is None else math.pi)


def _turn_of(network: Network, places: Places) -> float | None:
    """By how much the map is turned against the headings of names; None where these do not agree with one another."""
    turns = []
    for link in network.links:
        if link.start and link.end and places[link.start] != places[link.end]:
            found = BOUND.search(link.name)
            if found:
                turns.append(cmath.exp(1j * (_angle(places[link.start], places[link.end]) - HEADINGS[found[1]])))
    if not turns:
        return 0.0
    mean = sum(turns) / len(turns)
    return cmath.phase(mean) if abs(mean) > 0.7 else None


def _add_sides(network: Network, node: Node, places: Places, known: Sides, turn: float | None) -> None:
    """Adds the sides of the open links of a node."""
    into, out = network.links_to(node.name), network.links_from(node.name)
    at = {link.name: known[link.name] for link in (*into, *out) if link.name in known}
    for link in (*into, *out):
        other = link.start if link.end == node.name else link.end
        if other is not None and other != node.name:
            at[link.name] = _angle(places[node.name], places[other])
    open_links = [link for link in (*into, *out) if link.name not in at]
    for link in open_links:
        heading = heading_of(link) if turn is not None else None
        if heading is not None:
            at[link.name] = heading + (turn or 0) + (math.pi if link.end else 0)
    while open_links := [link for link in open_links if link.name not in at]:
        link, side = _next_side(network, open_links, into, at)
        at[link.name] = side
    known.update({name: side for name, side in at.items() if _is_outer(network, name)})


def _next_side(network: Network, open_links: list[Link], into: list[Link], at: Sides) -> tuple[Link, float]:
    """An open link and its side: the first whose turns say it, else the first with the side that has most room."""
    for link in open_links:
        turns = link.turns if link.end else tuple(turn for other in into for turn in other.turns if turn.exit == link.name)
        across = [other for other in into if any(turn.exit == link.name and turn.share >= STRAIGHT for turn in other.turns)]
        mains = [turn.exit for turn in turns if turn.share >= STRAIGHT] if link.end else [other.name for other in across]
        main = next((name for name in mains if name in at), None)
        if main is not None:
            return link, at[main] + math.pi
    link = open_links[0]
    alike = next((side for name, side in at.items() if link.end and _has_one_road(network, link, name)), None)
    return link, alike if alike is not None else _widest(list(at.values()))


def _has_one_road(network: Network, link: Link, name: str) -> bool:
    """Whether two links from outside are of one road by their names, one of which begins with the other."""
    other = network.link_named(name)
    return other is not None and other.start is None and other.end == link.end and (link.name.startswith(name) or name.startswith(link.name))


def _widest(sides: list[float]) -> float:
    """The middle of the widest gap between sides; to the left where there is none yet, and opposite to a single one's right."""
    if not sides:
        return math.pi
    turned = sorted(side % (2 * math.pi) for side in sides)
    gaps = [(after - before, before) for before, after in zip(turned, [*turned[1:], turned[0] + 2 * math.pi])]
    gap, before = max(gaps)
    return before + (gap / 2 if gap < 1.9 * math.pi else math.pi / 2)
