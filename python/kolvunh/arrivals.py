"""Files of arrivals, the second text of the commands over a network: docs/FORMATS.md, "Arrivals file"."""

from collections.abc import Iterable
from dataclasses import dataclass

from .faults import Fault
from .networks import Network
from .records import Place, number_in, quote, rows_of, text_of

HEADER = ("second", "link", "amount")
VEHICLE = 1000  # thousandths: the amount of one vehicle
MOST_AMOUNT = 1_000_000
MOST_SUM = 2_000_000_000


@dataclass(frozen=True, slots=True)
class Arrival:
    """What enters a link in a second, counted from the begin of the run: an amount in thousandths of a vehicle."""

    second: int
    link: str
    amount: int


def read_arrivals(place: Place) -> list[Arrival]:
    """The arrivals in a file, in its order; a row that has not the form of one raises a fault with its line."""
    return arrivals_of(place, text_of(place))


def arrivals_of(place: Place, text: str) -> list[Arrival]:
    """The arrivals in a text; faults name the place from which it is."""
    rows = rows_of(place, text, HEADER)
    return [
        Arrival(
            number_in(place, row.line, "the second", row.fields[0]),
            row.fields[1],
            number_in(place, row.line, "the amount", row.fields[2]),
        )
        for row in rows
    ]


def arrivals_text(arrivals: Iterable[Arrival]) -> str:
    """The text of a file that has these arrivals."""
    rows = [",".join(HEADER), *(f"{arrival.second},{arrival.link},{arrival.amount}" for arrival in arrivals)]
    return "\n".join(rows) + "\n"


def require_links(network: Network, place: Place, rows: Iterable[Arrival]) -> None:
    """Raises a fault where the rows of arrivals, read from a place, name a link that the network has not."""
    strange = next((row.link for row in rows if network.link_named(row.link) is None), None)
    if strange is not None:
        raise Fault(f"{place}: link {quote(strange)} is none of the network: is it a file of another one?")
