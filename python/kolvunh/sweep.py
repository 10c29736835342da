"""Runs a network under several demands with several seeds, and writes the delay of each run as a point of a CSV.

    tools/sweep.py NET ARR [--demands X ..] [--seeds N] [--series NAME ..] [--warm SECONDS] [--jobs N] [--part K/N] > points.csv

For each demand and seed vehicles are drawn: a link that ARR brings vehicles to gets one in each second with the probability
that ARR has on the average, times the demand. Each run is a process of the program, on files of its own. A series is `turns`
or `actuate`, a fixed plan, as `fixed:plan=today.csv`, or an order of tools/orders.py by which `replay` runs the nodes: `backward`,
`read_first`, or `random`, drawn by the seed. Keys of the file's [run] may follow, as `actuate:act_step=1,gap=3`; a key without a
value, as `turns:hold=`, is left out. The CSV has the header `series,x,y,seed`: series, demand, delay in seconds for each vehicle that entered, and the
seed; tools/draw.py draws it, and makes a table of it. With --warm the streets fill first: the delay is that of the seconds from this one on, for
each vehicle that entered in them. With --part only each Nth run, from the Kth (from 0) on, is done, and only the first part
writes the header: so N processes or machines share the work, and their outputs, one after another, are the whole. Nothing
here is proved.
"""

import argparse
import csv
import itertools
import os
import sys
from collections.abc import Callable, Sequence
from concurrent.futures import ThreadPoolExecutor
from functools import partial
from pathlib import Path

from .arrivals import Arrival, arrivals_of, read_arrivals, require_links
from .commands import Words, end
from .faults import Fault
from .flows import flows_of_greens
from .networks import Network, read_network
from .programs import built_program_words, split_words
from .reports import Records
from .series import Series, delay_each, draw_arrivals, rates_of, report_under, series_of, totals_under

MOST_DEMAND = 1000  # times the vehicles that a file brings


def delay(options: argparse.Namespace, draw: Callable[[float, int], str], task: tuple[float, int, Series]) -> float:
    """The delay in seconds for each vehicle that entered in one run."""
    demand, seed, series = task
    network = options.network.read_text(encoding="utf-8")
    arrivals = draw(demand, seed)
    try:
        if options.warm:
            report = report_under(series, network, arrivals, seed, options.program)
            return warm_delay(options.read, arrivals_of("the draw", arrivals), report.records, options.warm)
        return delay_each(totals_under(series, network, arrivals, seed, options.program))
    except Fault as fault:
        raise Fault(f"at demand {demand:g}: {fault}") from None


def warm_delay(network: Network, arrivals: Sequence[Arrival], report: Records, warm: int) -> float:
    """The delay of the seconds from one on, in seconds for each vehicle that entered in them."""
    flows = flows_of_greens(network, arrivals, report.greens).values()
    delay = sum(sum(flow.queue[warm + 1 :]) for flow in flows if flow.link.end)
    entered = sum(flow.entered[-1] - flow.entered[warm] for flow in flows if flow.link.start is None)
    return delay / max(1, entered)


def options_of() -> argparse.Namespace:
    """The words of the command."""
    parser = Words(__doc__)
    parser.add_argument("network", type=Path)
    parser.add_argument("arrivals", type=Path)
    parser.add_argument("--demands", type=float, nargs="+", default=[0.4, 0.6, 0.8, 1.0])
    parser.add_argument("--seeds", type=int, default=10)
    parser.add_argument("--series", nargs="+", default=["turns", "actuate"], metavar="NAME")
    parser.add_argument("--program", type=split_words, help="its words before the command; the built program if left out")
    parser.add_argument("--warm", type=int, default=0, metavar="SECONDS", help="up to which second nothing counts (0)")
    parser.add_argument("--jobs", type=int, default=os.cpu_count())
    parser.add_argument("--part", default="0/1", metavar="K/N")
    options = parser.parse_args()
    if options.jobs < 1 or options.seeds < 1 or not all(0 <= demand <= MOST_DEMAND for demand in options.demands):
        parser.error(f"--jobs and --seeds are above 0, and demands from 0 to {MOST_DEMAND}")
    try:
        options.series = [series_of(series) for series in options.series]
    except Fault as fault:
        parser.error(str(fault))
    return options


def part_of(word: str) -> tuple[int, int]:
    """K and N of a part."""
    part, _, parts = word.partition("/")
    if not (part.isdigit() and parts.isdigit() and int(part) < int(parts)):
        raise Fault(f"--part is {word!r}, and has to be K/N with K from 0 to below N")
    return int(part), int(parts)


def work() -> None:
    """Writes the points."""
    options = options_of()
    part, parts = part_of(options.part)
    options.program = options.program or built_program_words()
    arrivals = read_arrivals(options.arrivals)
    network = read_network(options.network)
    require_links(network, options.arrivals, arrivals)
    if not 0 <= options.warm < network.run.seconds:
        raise Fault(f"--warm is {options.warm}, and has to be 0 to {network.run.seconds - 1}: the run has {network.run.seconds} seconds")
    options.read = network
    rates, until = rates_of(arrivals)
    until = min(until, network.run.known_seconds)
    tasks = list(itertools.product(options.demands, range(1, options.seeds + 1), options.series))[part::parts]
    with ThreadPoolExecutor(options.jobs) as pool:
        delays = pool.map(partial(delay, options, partial(draw_arrivals, rates, until)), tasks)
        if part == 0:
            print("series,x,y,seed")
        try:
            rows = csv.writer(sys.stdout, lineterminator="\n")
            for (demand, seed, series), seconds in zip(tasks, delays):
                rows.writerow([series.name, demand, f"{seconds:.3f}", seed])
                sys.stdout.flush()
        except BaseException:
            pool.shutdown(cancel_futures=True)
            raise


def main() -> None:
    """Runs the command."""
    end(work)


if __name__ == "__main__":
    main()
