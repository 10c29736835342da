"""Queues by lane and in metres, where the lanes of links are known: docs/FORMATS.md, "Measures"."""

import math
from collections import defaultdict
from collections.abc import Mapping, Sequence
from operator import ge
from pathlib import Path
from typing import NamedTuple

from .capacities import VEHICLE
from .faults import Fault
from .measure_values import percentile
from .networks import Network
from .records import Place, quote, rows_of, text_of

HEADER = ("link", "lane", "metres")

Lanes = dict[str, tuple[float, ...]]  # the metres of each lane of a link


class LaneQueues(NamedTuple):
    """Vehicles in one lane, how far they reach in metres, and the share of the moments in which a lane is full."""

    lane_95: float
    lane_most: float
    metres_95: float
    metres_most: float
    full: float


def read_lanes(place: Place, network: Network) -> Lanes:
    """The lanes in a file; a row that has not the form of one, or names no link of the network, raises a fault with its line."""
    found: dict[str, tuple[float, ...]] = defaultdict(tuple)
    for row in rows_of(place, text_of(place), HEADER):
        link, _, words = row.fields
        try:
            metres = float(words)
        except ValueError:
            metres = math.nan
        if not 0 < metres < math.inf:
            raise Fault(f"{place}:{row.line}: metres is {quote(words)}, and has to be a number above 0")
        if network.link_named(link) is None:
            raise Fault(f"{place}:{row.line}: the network has no link {quote(link)}: are these the lanes of another one?")
        found[link] += (metres,)
    return dict(found)


def lanes_beside(network: Network, place: Place) -> Lanes:
    """The lanes in `lanes.csv` beside the file of a network; none where there is no such file."""
    beside = Path(place).with_name("lanes.csv")
    return read_lanes(beside, network) if beside.is_file() else {}


def reach(vehicles: float, lanes: Sequence[float]) -> float:
    """How many metres a queue reaches back in the longest of its lanes. It stands alike in all; for whom a lane has no room stands in the others,
    and beyond all lanes in the longest ones."""
    metres, longest = vehicles * VEHICLE, max(lanes)
    for place, length in enumerate(sorted(lanes)):
        level = metres / (len(lanes) - place)
        if level <= length or length == longest:
            return level
        metres -= length
    return metres


def by_lane(queues: Mapping[str, Sequence[float]], lanes: Lanes) -> LaneQueues | None:
    """The queues of links by lane, from those of each link in vehicles, one moment after another; None where the lanes of none are known."""
    reaches = {link: [reach(vehicles, lanes[link]) for vehicles in queue] for link, queue in queues.items() if link in lanes}
    if not reaches:
        return None
    moments = list(zip(*reaches.values()))
    metres, shortest = [max(moment) for moment in moments], [min(lanes[link]) for link in reaches]
    full = sum(any(map(ge, moment, shortest)) for moment in moments)
    m_95, most = (percentile(metres, part) for part in (95, 100))
    return LaneQueues(m_95 / VEHICLE, most / VEHICLE, m_95, most, full / len(moments))
