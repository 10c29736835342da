"""`movements.csv`: which links of a network serve the movements of its junctions. docs/FORMATS.md, "Junction file"."""

import csv
import io
from collections.abc import Iterable, Sequence
from dataclasses import dataclass
from pathlib import Path

from ..faults import Fault
from ..networks import Network
from ..records import Place, Record, number_in, quote, rows_of, text_of

HEADER = ("junction", "approach", "movement", "link", "part", "leg", "gives", "lanes", "onward")
PEOPLE, BUS = "people", "bus "  # the movement over a crossing; what stands before a movement of buses


@dataclass(frozen=True)
class Serving:
    """A movement of a junction, and a link that serves it: `part` of the movement's vehicles take this link and leave
    by `leg`, on the links
    `onward`. It `gives` way in some stage; the link has so many lanes."""

    junction: str
    approach: str
    movement: str
    link: str
    part: float
    leg: str
    gives: bool = False
    lanes: int = 1
    onward: tuple[str, ...] = ()

    @property
    def kind(self) -> str:
        """Whether it is of cars, of buses by a lane of their own, or of people."""
        return PEOPLE if self.movement == PEOPLE else "buses" if self.movement.startswith(BUS) else "vehicles"


def records(header: Sequence[str], rows: Iterable[Sequence[object]]) -> str:
    """A text of records."""
    file = io.StringIO()
    writer = csv.writer(file, lineterminator="\n")
    writer.writerow(header)
    writer.writerows(rows)
    return file.getvalue()


def servings_text(rows: Iterable[Serving]) -> str:
    """The text of a file that has these rows."""
    return records(HEADER, [
        (
            row.junction,
            row.approach,
            row.movement,
            row.link,
            f"{row.part:.6f}",
            row.leg,
            int(row.gives),
            row.lanes,
            " ".join(row.onward),
        )
        for row in rows
    ])  # fmt: skip


def read_servings(place: Place, network: Network) -> list[Serving]:
    """The rows of a file, of links that the network has."""
    if not Path(place).exists():
        raise Fault(
            f"{place}: there is no such file: `street` and `from-utdf` write it beside the network; else write one "
            f"with {','.join(HEADER)}"
        )
    return [_serving(place, row, network) for row in rows_of(place, text_of(place), HEADER)]


def _serving(place: Place, row: Record, network: Network) -> Serving:
    junction, approach, movement, link, part, leg, gives, lanes, onward = row.fields
    where = f"{place}:{row.line}: junction {junction}, approach {approach}, {movement}"
    found = network.link_named(link)
    if found is None or found.end is None:
        raise Fault(
            f"{where}: link {quote(link)} is none of the network that ends at a node: write the link that serves the "
            f"movement"
        )
    exits = tuple(onward.split())
    strange = next(
        (name for name in exits if (exit := network.link_named(name)) is None or exit.start != found.end), None,
    )
    if strange is not None or not exits:
        raise Fault(
            f"{where}: onward is {quote(onward)}: write the links of the network that begin at {found.end}, with "
            f"spaces between"
        )
    if gives not in ("0", "1"):
        raise Fault(f"{where}: gives is {quote(gives)}: write 1 where the movement gives way in some phase, and else 0")
    try:
        share = float(part)
    except ValueError:
        share = -1.0
    if not 0 < share <= 1:
        raise Fault(
            f"{where}: part is {quote(part)}: write the part of the movement that takes this link, above 0 and up to 1"
        )
    return Serving(
        junction,
        approach,
        movement,
        link,
        share,
        leg,
        gives == "1",
        max(1, number_in(place, row.line, "lanes", lanes)),
        exits,
    )
