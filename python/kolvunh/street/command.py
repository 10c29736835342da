"""A junction file as a network file, with what is beside it.

    ./signal street FILE FOLDER

Writes `net.toml`, `movements.csv` (which link serves which movement), `lanes.csv` (the lanes of each link),
`store.csv` (what they hold) and `places.csv` (where junctions and the open ends of links are, in metres) into FOLDER. What was computed is
told. docs/FORMATS.md, "Junction file".
"""

import sys
from collections.abc import Iterable
from pathlib import Path

from ..capacities import VEHICLE
from ..commands import Words, end
from ..files import write_files
from ..lanes import HEADER as LANES
from ..network_text import network_text
from ..records import plural
from .draft import Draft, Drafter, exit_name, point_from
from .junction_file import read_street
from .plan import Street
from .servings import PEOPLE, records, servings_text


def write_draft(draft: Draft, street: Street, folder: Path) -> None:
    """Writes the files of a street into a folder."""
    write_files(folder, texts_of(draft, street))


def texts_of(draft: Draft, street: Street) -> dict[str, str]:
    """The files of a street by name."""
    return {
        "net.toml": network_text(draft.network),
        "movements.csv": servings_text(draft.servings),
        "lanes.csv": records(LANES, [(link, number, f"{metres:g}") for link, lanes in draft.lanes.items() for number, metres in enumerate(lanes, 1)]),
        "store.csv": records(("link", "storage"), [(link, round(1000 * sum(lanes) / VEHICLE)) for link, lanes in draft.lanes.items()]),
        "places.csv": records(("kind", "name", "x", "y"), places_rows(draft, street)),
    }


def places_rows(draft: Draft, street: Street) -> list[tuple[str, str, str, str]]:
    """Where each junction is, and the open ends of the links that come from outside or lead there."""
    found = {name: place for name, place in draft.places.items()}
    links = {link.name: link for link in draft.network.links}
    for row in draft.servings:
        approach = street.junctions[row.junction].approaches[row.approach]
        if links[row.link].start is None and row.movement != PEOPLE:
            found[row.link] = point_from(draft.places[row.junction], row.approach, approach.distance)
    for name, junction in street.junctions.items():
        for leg, approach in junction.approaches.items():
            if exit_name(name, leg) in links:
                found[exit_name(name, leg)] = point_from(draft.places[name], leg, approach.distance)
    return [("node" if name in draft.places else "link", name, f"{round(x, 1) + 0:.1f}", f"{round(y, 1) + 0:.1f}") for name, (x, y) in found.items()]


def tell(lines: Iterable[str]) -> None:
    """Lines for people, on standard error."""
    for line in lines:
        print(f"kolvunh: {line}", file=sys.stderr)


def work() -> None:
    """Reads the words, and writes the files."""
    parser = Words(__doc__)
    parser.add_argument("file", type=Path)
    parser.add_argument("folder", type=Path)
    options = parser.parse_args()
    street = read_street(options.file)
    draft = Drafter(street).draft()
    write_draft(draft, street, options.folder)
    tell(draft.told)
    net = draft.network
    print(f"{plural(len(net.nodes), 'junction')}, {plural(len(net.links), 'link')}, {plural(len(net.conflicts), 'conflict')}: {options.folder / 'net.toml'}")


def main() -> None:
    """Runs the command."""
    end(work)


if __name__ == "__main__":
    main()
