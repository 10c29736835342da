"""Fixed plans, the third text of `fixed` and `compare`: docs/FORMATS.md, "Fixed plan". They are read as right."""

from collections.abc import Iterable, Sequence
from dataclasses import dataclass
from itertools import groupby

from .faults import Fault
from .networks import Network
from .records import Place, number_in, quote, rows_of, text_of
from .reports import Green

HEADER = ("node", "phase", "green", "offset")


@dataclass(frozen=True, slots=True)
class PlanRow:
    """How long the green of a phase of a node is, and a second at which the first green of one of the node's cycles begins."""

    node: str
    phase: int
    green: int
    offset: int


def read_plan(place: Place) -> list[PlanRow]:
    """The rows of the fixed plan in a file; a row that has not the form of one raises a fault with its line."""
    return [
        PlanRow(row.fields[0], *(number_in(place, row.line, HEADER[at], row.fields[at]) for at in (1, 2, 3)))
        for row in rows_of(place, text_of(place), HEADER)
    ]


def plan_text(rows: Iterable[PlanRow]) -> str:
    """The text of a file that has these rows."""
    return "\n".join([",".join(HEADER), *(f"{row.node},{row.phase},{row.green},{row.offset}" for row in rows)]) + "\n"


def greens_of_plan(network: Network, rows: Iterable[PlanRow]) -> list[Green]:
    """The greens that begin before the second one cycle after the end of a run: docs/RULES.md, "Fixed plan"."""
    greens: list[Green] = []
    for name, own in groupby(rows, lambda row: row.node):
        phases, of_node = network.node_named(name).phases, list(own)
        seconds = [row.green + phases[row.phase].yellow + phases[row.phase].clear for row in of_node]
        cycle, offset = sum(seconds), of_node[0].offset
        begin, end = offset % cycle - cycle, network.run.seconds + cycle
        while begin < end:
            for row, wide in zip(of_node, seconds):
                if 0 <= begin < end:
                    greens.append(Green(name, row.phase, begin, begin + row.green))
                begin += wide
    return greens


def require_plan(network: Network, place: Place, rows: Sequence[PlanRow]) -> None:
    """Raises a fault where rows of a plan, read from a place, are of a node or a phase that the network has not, or out of bounds."""
    for row in rows:
        node = network.node_named(row.node)
        if node is None:
            raise Fault(f"{place}: the network has no node {quote(row.node)}: is it a plan of another network?")
        if row.phase >= len(node.phases):
            raise Fault(f"{place}: node {row.node} has no phase {row.phase}: write one of 0 to {len(node.phases) - 1}")
        phase = node.phases[row.phase]
        if not phase.least <= row.green <= phase.greatest:
            raise Fault(f"{place}: node {row.node}, phase {row.phase}: green {row.green} has to be from {phase.least} to {phase.greatest}")
    for node in network.nodes:
        own = [row for row in rows if row.node == node.name]
        missing = [number for number, phase in enumerate(node.phases) if not phase.skip and number not in {row.phase for row in own}]
        if missing or len(own) < 2:
            raise Fault(f"{place}: node {node.name} has no row of phase {(missing or [0])[0]}: write one for each phase without skip, and two at least")
        if [row.phase for row in own] != sorted({row.phase for row in own}) or len({row.offset for row in own}) != 1:
            raise Fault(f"{place}: node {node.name}: its rows go up from phase 0, each phase once, with one offset")
