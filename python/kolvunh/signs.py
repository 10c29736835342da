"""When the links of a network are green, by the rows of a report: docs/RULES.md, "Links" and "Signs". Seconds count from the begin of the run."""

from collections.abc import Sequence
from dataclasses import dataclass

from .networks import Link, Network
from .reports import Green


@dataclass(frozen=True, slots=True)
class Light:
    """A green of a link, from second `begin` up to second `end`: of one row of its node, or of several with the changes between them.

    `clear` is the second up to which its yellow lasts, or who walks may still be on the crossing; and `lost` has the seconds of it in which
    nothing leaves where a queue stood before it.
    """

    begin: int
    end: int
    clear: int
    lost: frozenset[int]


def lights_of(network: Network, link: Link, rows: Sequence[Green]) -> list[Light]:
    """The greens of a link that ends at a node, in the order of time; `rows` are those of the node, in this order too."""
    node, _ = network.phase_of[link.name]
    greens = network.greens_of[link.name]
    if link.walk is not None:
        return [_walk_of(link, row, node.phases[row.phase].loss) for row in rows if row.phase in greens]
    found: list[Light] = []
    parts: list[tuple[int, int, int]] = []  # from, up to, and the loss of the phase that is on or was last
    for row, after in zip(rows, [*rows[1:], None]):
        if row.phase not in greens:
            continue
        phase, goes_on = node.phases[row.phase], after is not None and after.phase in greens
        parts.append((row.begin, after.begin if goes_on else row.end, phase.loss))
        if not goes_on:
            begin = parts[0][0]
            lost = (second for first, last, loss in parts for second in range(first, min(last, begin + loss)))
            found.append(Light(begin, row.end, row.end + phase.yellow, frozenset(lost)))
            parts = []
    return found


def _walk_of(link: Link, row: Green, loss: int) -> Light:
    """The part of a row in which a crossing may be entered."""
    end = min(row.end, row.begin + link.walk)
    return Light(row.begin, end, end + link.cross, frozenset(range(row.begin, min(end, row.begin + loss))))


def has_overlaps(network: Network, node: str) -> bool:
    """Whether a link that ends at a node is green in several phases, gives way, or is a crossing."""
    return any(len(network.greens_of[link.name]) > 1 or link.yields or link.walk for link in network.links_to(node))


def gives_way_in(network: Network, link: Link, phase: int) -> bool:
    """Whether a link is green in a phase beside one to which it gives way."""
    return phase in network.greens_of[link.name] and any(phase in network.greens_of[other] for other in link.yields)
