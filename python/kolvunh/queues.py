"""What the command `queues` writes: docs/FORMATS.md, "Queues". Amounts are in thousandths of a vehicle, seconds count from the begin."""

from collections import defaultdict
from dataclasses import dataclass, field

from .faults import Fault
from .records import Place, number_in, quote, rows_of, text_of

HEADER = ("second", "link", "queue", "on")


@dataclass(frozen=True, slots=True)
class Change:
    """At a second a link has this queue, and so much on it in all, its queue too; one of the two was otherwise a second before."""

    second: int
    link: str
    queue: int
    on: int


@dataclass(frozen=True, slots=True)
class Most:
    """The longest queue of a link and the first second at which it was so long; both are 0 where there never was a queue."""

    link: str
    queue: int
    second: int


@dataclass(frozen=True, slots=True)
class Queues:
    """The changes in the order of time, and the longest queues in the order of the network's links."""

    changes: list[Change] = field(default_factory=list)
    most: list[Most] = field(default_factory=list)

    def changes_of(self) -> dict[str, list[Change]]:
        """The changes of each link, in the order of time; a link without any was empty all the time."""
        changes: dict[str, list[Change]] = defaultdict(list)
        for change in self.changes:
            changes[change.link].append(change)
        return {most.link: changes.get(most.link, []) for most in self.most} | dict(changes)


def read_queues(place: Place) -> Queues:
    """The queues in a file; a row that has not the form of one raises a fault with its line. A verdict that rejects is none."""
    return queues_of(place, text_of(place))


def queues_of(place: Place, text: str) -> Queues:
    """The queues in a text; faults name the place from which it is."""
    queues = Queues()
    for row in rows_of(place, text, HEADER):
        second, link, queue, last = row.fields
        amount = number_in(place, row.line, f"the queue of {quote(link)}", queue)
        other = number_in(place, row.line, "the last field", last)
        if second == "most":
            queues.most.append(Most(link, amount, other))
        elif queues.most:
            raise Fault(f"{place}:{row.line}: a change comes after the first record `most`")
        else:
            queues.changes.append(Change(number_in(place, row.line, "the second", second), link, amount, other))
    return queues
