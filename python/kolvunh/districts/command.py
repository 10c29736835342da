"""Runs a network that is cut into districts, each a process under MPI, and writes what each link and the network counted.

    mpirun -n RANKS tools/districts.py NET ARR [--cut FILE] [--greens] [--times] [--program WORDS]

Each rank has some nodes and the links that end there, moves what is on these by the rules of docs/RULES.md, "World", and asks a process
of the program, `serve`, for the turns of its nodes. In each round all nodes read, and then all publish, so none waits for another; between
rounds ranks tell their neighbours what they forecast, and what entered the links between them. These have to take a round or longer. The
nodes are cut in the order of the file into blocks, or by a file with the header `node,rank` and a row for each node. The answer, at rank
0, is that of `replay` by the order `read_first` of tools/orders.py: its `link` and `total` records, with --greens its `green` records too, as
`audit` reads them. With --times a line on standard error for each rank says where its seconds went. Needs mpi4py (Debian: python3-mpi4py,
openmpi-bin); without it there is one rank. Nothing here is proved.
"""

import argparse
import sys
import time
from collections.abc import Iterator
from pathlib import Path

from ..arrivals import Arrival, read_arrivals, require_links
from ..commands import Words, end
from ..faults import Fault
from ..networks import Network, Node, network_faults, read_network
from ..programs import built_program_words, split_words
from ..records import Place, quote
from ..reports import HEADER
from ..serving import Serving
from .cut import blocks_of, read_cut, require_travel
from .ranks import Ranks, ranks_here
from .rounds import Decider, District, Part
from .world import Row, World


class Clock:
    """Seconds by what they are spent on."""

    def __init__(self) -> None:
        self.spent = {"deciding": 0.0, "moving": 0.0, "waiting": 0.0}
        self._last = time.perf_counter()

    def lap(self, on: str) -> None:
        """Counts the time since the last call as spent on this."""
        now = time.perf_counter()
        self.spent[on], self._last = self.spent[on] + now - self._last, now


def run_rounds(seconds: range, district: District, decider: Decider, ranks: Ranks) -> Clock:
    """Runs the rounds of a district that begin in these seconds."""
    ranks.meet(district.sources, district.targets)
    clock = Clock()
    for now in seconds:
        district.decide(now, decider)
        clock.lap("deciding")
        parcels = district.move(now)
        clock.lap("moving")
        district.hear(now, ranks.swap(parcels))
        clock.lap("waiting")
    return clock


def arrivals_of(place: Place, network: Network) -> list[Arrival]:
    """The arrivals in a file that enter before the run ends; their links have to come from outside."""
    rows = read_arrivals(place)
    require_links(network, place, rows)
    inner = next((row.link for row in rows if network.link_named(row.link).start is not None), None)
    if inner is not None:
        raise Fault(f"{place}: link {quote(inner)} comes from a node: vehicles arrive on links from outside alone")
    return [row for row in rows if row.second < network.run.seconds]


def district_of(options: argparse.Namespace, network: Network, ranks: Ranks) -> District:
    """The district of a rank, before its first round."""
    cut = read_cut(options.cut, network, ranks.size) if options.cut else blocks_of(network, ranks.size)
    require_travel(network, cut)
    world = World(network, cut, ranks.rank, arrivals_of(options.arrivals, network))
    return District(network, cut, ranks.rank, world, options.greens)


def report_of(network: Network, parts: list[Part]) -> Iterator[str]:
    """The records of the report, from the parts of all districts."""
    greens, links = ({name: each for part in parts for name, each in getattr(part, of).items()} for of in ("greens", "links"))
    yield ",".join(HEADER)
    for node in network.nodes:
        for row in told_rows(network, node, greens.get(node.name, [])):
            yield f"green,,{node.name},{','.join(map(str, row))},"
    for link in network.links:
        yield f"link,,,{link.name},{','.join(map(str, links[link.name]))}"
    arrived = sum(part.arrived for part in parts)
    gone = sum(links[link.name][1] for link in network.links if link.end is None)
    yield f"total,,,{arrived},{gone},{arrived - gone},{sum(delay for _, _, delay in links.values())}"


def told_rows(network: Network, node: Node, line: list[Row]) -> list[Row]:
    """The greens that a report tells of a node: those that begin before the run ends, and where a link may stay green through a change that
    is under way then, the one to which it leads."""
    until = network.run.seconds
    through = any(network.link_named(name).walk is None for phase in node.phases for name in phase.also)
    before = [0, *(row[2] for row in line)] if through else [row[1] for row in line]
    return [row for row, second in zip(line, before) if second < until]


def run_district(options: argparse.Namespace, decider: Decider, ranks: Ranks) -> Iterator[str]:
    """Runs the district of a rank; the answer is the report at rank 0, and nothing elsewhere."""
    network = district = fault = None
    try:
        with network_faults(options.network):
            network = read_network(options.network)
            district = district_of(options, network, ranks)
    except Fault as found:
        fault = str(found)
    faults = [found for found in ranks.share(fault) if found is not None]
    if faults:
        raise Fault(faults[0]) if ranks.rank == 0 else SystemExit(2)
    clock = run_rounds(range(0, network.run.seconds, network.run.step), district, decider, ranks)
    parts = ranks.gather(district.part(clock.spent))
    if options.times:
        for rank, part in enumerate(parts):
            spent = ", ".join(f"{on} {seconds:.1f}" for on, seconds in part.spent.items())
            print(f"rank {rank}: {len(part.links)} links, seconds {spent}", file=sys.stderr)
    return report_of(network, parts) if parts else iter(())


def options_of() -> argparse.Namespace:
    """The words of the command."""
    parser = Words(__doc__)
    parser.add_argument("network", type=Path)
    parser.add_argument("arrivals", type=Path)
    parser.add_argument("--cut", type=Path, metavar="FILE")
    parser.add_argument("--greens", action="store_true")
    parser.add_argument("--times", action="store_true")
    parser.add_argument("--program", type=split_words, help="its words before `serve`; the built program if left out")
    return parser.parse_args()


def work() -> None:
    """Runs the district of this process. The program is started before MPI, which does not like a process to be copied."""
    options = options_of()
    with Serving(options.program or built_program_words(), options.network) as decider:
        ranks = ranks_here()
        try:
            lines = run_district(options, decider, ranks)
        except (Fault, OSError, KeyboardInterrupt, MemoryError) as fault:  # else the other ranks would wait for this one without an end
            why = {KeyboardInterrupt: "interrupted", MemoryError: "out of memory"}.get(type(fault), str(fault))
            print(f"kolvunh: {why}", file=sys.stderr)
            ranks.stop()
    for line in lines:
        print(line)


def main() -> None:
    """Runs the command."""
    end(work)


if __name__ == "__main__":
    main()
