"""Turning counts as arrivals, and as the turning shares of a network.

    ./signal counts NET COUNTS FOLDER [--seed N] [--from TIME] [--to TIME] [--name OTHER=JUNCTION ..] [--movements FILE]

Writes `net.toml` (NET with the counted turning shares, and a run as long as the counts) and `arrivals.csv` into FOLDER.
Vehicles are spread evenly over each interval, or drawn by Poisson from the number N, as many as were counted.
`movements.csv` is beside NET, as `street` writes it. What was changed is told. docs/FORMATS.md, "Turning counts".
"""

from collections.abc import Mapping
from pathlib import Path

from ..arrivals import arrivals_text
from ..commands import Words, end
from ..faults import Fault
from ..files import write_files
from ..network_text import network_text
from ..networks import network_faults, read_network
from ..records import Place, plural
from .command import tell
from .count_file import TIME, Count, read_counts
from .servings import read_servings
from .volumes import Demand, Volumes


def demand_of(network: Place, counts: Place, movements: Place | None = None, seed: int | None = None,
              between: tuple[int, int] = (0, 1440), names: Mapping[str, str] | None = None) -> Demand:  # fmt: skip
    """The demand of a file of counts: of those that begin from one minute of the day up to another one."""
    with network_faults(network):
        net = read_network(network)
    servings = read_servings(movements or Path(network).parent / "movements.csv", net)
    rows = [count for count in read_counts(counts, names or {}) if within(count, between)]
    if not rows:
        raise Fault(f"{counts}: no interval begins between --from and --to")
    return Volumes(net, servings, counts, rows).demand(seed)


def within(count: Count, between: tuple[int, int]) -> bool:
    """Whether an interval begins between two minutes of the day."""
    return between[0] <= count.begin < between[1]


def minute_in(option: str, text: str) -> int:
    """The minute of the day of an option."""
    found = TIME.fullmatch(text)
    if not found or int(found[1]) > 24 or int(found[2]) > 59:
        raise Fault(f"{option} is {text!r}: write a time of the day as 07:15")
    return 60 * int(found[1]) + int(found[2])


def names_in(words: list[str]) -> dict[str, str]:
    """The junctions of the network for those of the counts."""
    bad = next((word for word in words if not all(word.partition("=")[::2])), None)
    if bad is not None:
        raise Fault(f"--name is {bad!r}: write the name in the counts, =, and the name of the junction")
    return {word.partition("=")[0]: word.partition("=")[2] for word in words}


def work() -> None:
    """Reads the words, and writes the files."""
    parser = Words(__doc__)
    parser.add_argument("network", type=Path)
    parser.add_argument("counts", type=Path)
    parser.add_argument("folder", type=Path)
    parser.add_argument("--seed", type=int, help="draw the vehicles by Poisson, from this number")
    parser.add_argument("--from", dest="begin", default="00:00", help="the first interval begins then")
    parser.add_argument("--to", dest="stop", default="24:00", help="the last interval begins before")
    parser.add_argument(
        "--name", action="append", default=[], help="a junction's name in the counts, =, and in the network",
    )
    parser.add_argument(
        "--movements", type=Path, help="which link serves which movement; movements.csv beside NET if left out",
    )
    options = parser.parse_args()
    between = minute_in("--from", options.begin), minute_in("--to", options.stop)
    demand = demand_of(
        options.network, options.counts, options.movements, options.seed, between, names_in(options.name),
    )
    tell(demand.told)
    write_files(options.folder, {"net.toml": network_text(demand.network), "arrivals.csv": arrivals_text(demand.arrivals)})
    vehicles = sum(arrival.amount for arrival in demand.arrivals) // 1000
    seconds = demand.network.run.seconds
    print(
        f"{plural(vehicles, 'vehicle')} in {seconds // 60} minutes: {options.folder / 'net.toml'}, "
        f"{options.folder / 'arrivals.csv'}"
    )


def main() -> None:
    """Runs the command."""
    end(work)


if __name__ == "__main__":
    main()
