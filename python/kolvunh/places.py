"""Where a drawing puts the nodes of a network, from its links alone: nodes that are far from one another by travel are far apart.

A place is a pair of numbers in seconds of travel, x to the right and y down. A street comes out as a line, a square of junctions as a
square; which way is north is not known.
"""

import cmath
import heapq
import math
from operator import mul

from .networks import Network

Places = dict[str, tuple[float, float]]
ROUNDING = 1e-9  # a part that is no more of the whole is an error of rounding
NEAREST = 64  # so many nodes, those nearest to one, pull it to its place; farther ones do not


def distances_of(network: Network) -> dict[tuple[str, str], float]:
    """The least travel from node to node, whichever way links lead; 1.5 times the greatest one where there is no way."""
    names = [node.name for node in network.nodes]
    ways: dict[str, dict[str, int]] = {name: {} for name in names}
    for link in network.links:
        if link.start and link.end:
            travel = min(link.travel, ways[link.start].get(link.end, link.travel))
            ways[link.start][link.end] = ways[link.end][link.start] = travel
    found = {one: _travel_from(one, ways) for one in names}
    most = max((travel for row in found.values() for travel in row.values()), default=1) or 1
    return {(one, other): found[one].get(other, 1.5 * most) for one in names for other in names}


def _travel_from(begin: str, ways: dict[str, dict[str, int]]) -> dict[str, int]:
    """The least travel from a node to each that can be reached from it, by ways from node to node."""
    found: dict[str, int] = {}
    ahead = [(0, begin)]
    while ahead:
        travel, name = heapq.heappop(ahead)
        if name not in found:
            found[name] = travel
            for other, more in ways[name].items():
                heapq.heappush(ahead, (travel + more, other))
    return found


def _axis(matrix: list[list[float]], without: list[list[float]]) -> list[float]:
    """The strongest direction of a symmetric matrix at right angles to the given ones, by repeated multiplication; zeros where it has none."""
    axis = [math.sin(1.0 + 2.3 * place + 0.7 * len(without)) for place in range(len(matrix))]
    for _ in range(60):
        axis = [sum(map(mul, row, axis)) for row in matrix]
        whole = math.hypot(*axis)
        for other in without:
            part = sum(map(mul, axis, other))
            axis = [a - part * b for a, b in zip(axis, other)]
        length = math.hypot(*axis)
        if length <= ROUNDING * whole:
            return [0.0] * len(matrix)
        axis = [part / length for part in axis]
    return axis


def _begin(names: list[str], distances: dict[tuple[str, str], float]) -> list[complex]:
    """Places by the two strongest directions of the squared distances."""
    count = len(names)
    squares = [[distances[one, other] ** 2 for other in names] for one in names]
    means = [sum(row) / count for row in squares]
    mean = sum(means) / count
    matrix = [[-(squares[i][j] - means[i] - means[j] + mean) / 2 for j in range(count)] for i in range(count)]
    first = _axis(matrix, [])
    second = _axis(matrix, [first])
    scales = []
    for axis in (first, second):
        image = [sum(map(mul, row, axis)) for row in matrix]
        scales.append(math.sqrt(max(0.0, sum(map(mul, axis, image)))))
    return [complex(x * scales[0], y * scales[1]) for x, y in zip(first, second)]


def _pulls(row: list[float], own: int) -> list[tuple[int, float, float]]:
    """The nodes nearest to one, each with the distance from it and what it weighs: near ones most of all."""
    others = sorted((length, other) for other, length in enumerate(row) if other != own)
    return [(other, length, 1 / (length or 1) ** 3) for length, other in others[:NEAREST]]


def _relax(places: list[complex], pulls: list[list[tuple[int, float, float]]]) -> list[complex]:
    """One step that brings each node nearer to its distances from those that pull it."""
    moved = []
    for i, place in enumerate(places):
        total, sums = 0.0, 0j
        for j, wanted, weight in pulls[i]:
            gap = place - places[j]
            length = abs(gap)
            aim = places[j] + (gap * (wanted / length) if length > 1e-9 else wanted * cmath.exp(1j * (i + j)))
            total, sums = total + weight, sums + weight * aim
        moved.append(sums / total if total else place)
    return moved


def _turn_places(network: Network, places: dict[str, complex]) -> dict[str, complex]:
    """The same, turned so that most links go across or up, and the first node is to the left and above."""
    ways = [places[link.end] - places[link.start] for link in network.links if link.start and link.end]
    fourth = sum((way / abs(way)) ** 4 for way in ways if abs(way) > 1e-9)
    turn = cmath.exp(-1j * cmath.phase(fourth) / 4) if abs(fourth) > 1e-9 else 1
    turned = {name: place * turn for name, place in places.items()}
    spans = [max(map(part, turned.values())) - min(map(part, turned.values())) for part in (lambda z: z.real, lambda z: z.imag)]
    if spans[1] > spans[0] * 1.05:
        turned = {name: place * -1j for name, place in turned.items()}
    first, middle = next(iter(turned.values())), sum(turned.values()) / len(turned)
    across, up = (-1 if first.real > middle.real + 1e-6 else 1), (-1 if first.imag > middle.imag + 1e-6 else 1)
    return {name: complex(across * place.real, up * place.imag) for name, place in turned.items()}


def places_of(network: Network, given: Places | None = None) -> Places:
    """A place for each node: the given ones where all are given, else places by travel."""
    names = [node.name for node in network.nodes]
    if given and all(name in given for name in names):
        return {name: given[name] for name in names}
    if len(names) == 1:
        return {names[0]: (0.0, 0.0)}
    distances = distances_of(network)
    pulls = [_pulls([distances[one, other] for other in names], own) for own, one in enumerate(names)]
    places = _begin(names, distances)
    for _ in range(80):
        places = _relax(places, pulls)
    turned = _turn_places(network, dict(zip(names, places)))
    return {name: (place.real, place.imag) for name, place in turned.items()}


def streets_of(network: Network) -> list[list[str]]:
    """Streets as lists of nodes: from each entry the way that most vehicles take; long ones first, each once in either direction."""
    streets: dict[frozenset[str], list[str]] = {}
    for entry in (link for link in network.links if link.start is None):
        street, link = [], entry
        while link and link.end and link.end not in street:
            street.append(link.end)
            turn = max(link.turns, key=lambda turn: turn.share, default=None)
            link = network.link_named(turn.exit) if turn else None
        streets.setdefault(frozenset(street), street)
    kept: list[list[str]] = []
    for street in sorted(streets.values(), key=len, reverse=True):
        if not any(_is_part(street, longer) or _is_part(street[::-1], longer) for longer in kept):
            kept.append(street)
    return kept


def _is_part(street: list[str], longer: list[str]) -> bool:
    """Whether the nodes of a street follow one another in a longer one."""
    return any(longer[at : at + len(street)] == street for at in range(len(longer) - len(street) + 1))
