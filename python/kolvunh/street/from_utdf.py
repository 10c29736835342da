"""Synchro's UTDF in CSV as a network, its arrivals and the fixed plan of its timings.

    ./signal from-utdf FILE FOLDER [--seed N]

Writes into FOLDER what `street` writes, arrivals.csv (the volumes of an hour, evenly, or by Poisson from the number N) and
plan.csv. Node 3 of the file is junction n3. What can't be said is told, junction by junction. docs/FORMATS.md,
"UTDF".
"""

from dataclasses import dataclass
from pathlib import Path

from ..arrivals import Arrival, arrivals_text
from ..commands import Words, end
from ..files import write_files
from ..plans import PlanRow, plan_text
from ..records import Place, plural
from .command import tell, texts_of
from .draft import Draft, Drafter
from .plan import Street
from .utdf import Reader, name_of
from .utdf_file import Utdf
from .volumes import Volumes


@dataclass
class Imported:
    """A file as a street, its network with counted shares, what enters it, and its plan; `told` is what can't be
    said."""

    street: Street
    draft: Draft
    arrivals: list[Arrival]
    plan: list[PlanRow]
    told: list[str]


def imported(place: Place, seed: int | None = None) -> Imported:
    """What a file says."""
    reader = Reader(Utdf(place))
    street = reader.street()
    draft = Drafter(street).draft()
    draft.places = {name_of(node): reader.place(node) for node in reader.signals}
    demand = Volumes(draft.network, draft.servings, place, list(reader.counts())).demand(seed)
    draft.network = demand.network
    return Imported(
        street, draft, demand.arrivals, list(reader.plan()), [*reader.told, *reader.rest(), *draft.told, *demand.told],
    )


def work() -> None:
    """Reads the words, and writes the files."""
    parser = Words(__doc__)
    parser.add_argument("file", type=Path)
    parser.add_argument("folder", type=Path)
    parser.add_argument("--seed", type=int, help="draw the vehicles by Poisson, from this number")
    options = parser.parse_args()
    found = imported(options.file, options.seed)
    texts = {"arrivals.csv": arrivals_text(found.arrivals), "plan.csv": plan_text(found.plan)}
    write_files(options.folder, texts_of(found.draft, found.street) | texts)
    tell(found.told)
    net = found.draft.network
    print(
        f"{plural(len(net.nodes), 'junction')}, {plural(len(net.links), 'link')}, "
        f"{plural(len(net.conflicts), 'conflict')}: {options.folder / 'net.toml'}"
    )


def main() -> None:
    """Runs the command."""
    end(work)


if __name__ == "__main__":
    main()
