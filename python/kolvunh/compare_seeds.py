"""Compares controllers over several draws of the vehicles, with the spread of each: plans, actuated control, fixed plans.

    ./signal compare-seeds NET ARR [ARR ..] [--series NAME ..] [--seeds N] [--first N] [--demand X] [--csv]

Of one file of arrivals N draws are made, as `sweep` makes them: in each second a link gets a vehicle with the probability that ARR has on the
average, times X; `--first` says which draw is the first one. Several files, and one with `--seeds 0`, are taken as they are. A series is `turns`,
`actuate`, `fixed:plan=FILE` or another one of kolvunh.series; each is set against the first one, draw by draw. Nothing here is proved.
"""

import argparse
import csv
import io
import os
import statistics
from collections.abc import Sequence
from concurrent.futures import ThreadPoolExecutor
from pathlib import Path

from .arrivals import read_arrivals, require_links
from .commands import Words, end
from .networks import network_faults, read_network
from .programs import built_program_words, run, split_words
from .progress import Progress
from .records import plural
from .reports import Totals
from .series import Series, delay_each, draws_of, series_of, totals_under

HEADER = ("series", "draw", "entered", "left", "on_links", "delay")
HEADS = ("", "veh s", "s/veh", "±", "least", "most", "on links", "first below, in 100", "±", "above at")
MOST_SEEDS = 10_000


def spread(values: Sequence[float]) -> float:
    """The standard deviation, 0 of one value."""
    return statistics.stdev(values) if len(values) > 1 else 0.0


def run_all(
    network: str, draws: Sequence[str], series: Sequence[Series], program: Sequence[str], jobs: int
) -> dict[str, list[Totals]]:
    """The totals of each series, draw by draw."""
    tasks = [(each, number) for each in series for number in range(len(draws))]
    progress = Progress(len(tasks), "runs")

    def one(task: tuple[Series, int]) -> Totals:
        totals = totals_under(task[0], network, draws[task[1]], task[1] + 1, program)
        progress.step()
        return totals

    with ThreadPoolExecutor(jobs) as pool:
        try:
            found = list(pool.map(one, tasks))
        except BaseException:
            pool.shutdown(cancel_futures=True)
            raise
        finally:
            progress.end()
    return {each.name: found[at * len(draws) : (at + 1) * len(draws)] for at, each in enumerate(series)}


def cells_of(name: str, own: Sequence[Totals], first: Sequence[Totals] | None) -> list[str]:
    """The cells of a series; `first` is the one that it is set against."""
    delays = [delay_each(totals) for totals in own]
    cells = [
        name,
        f"{statistics.mean(totals.delay for totals in own) / 1000:.0f}",
        *(f"{value:.1f}" for value in (statistics.mean(delays), spread(delays), min(delays), max(delays))),
        f"{statistics.mean(totals.on_links for totals in own) / 1000:.1f}",
    ]
    if first is None:
        return [*cells, "", "", ""]
    pairs = [(mine.delay, its.delay) for mine, its in zip(own, first)]
    parts = [100 * (1 - its / mine) for mine, its in pairs if mine]
    above = sum(its > mine for mine, its in pairs)
    gains = [f"{statistics.mean(parts):.1f}", f"{spread(parts):.1f}"] if parts else ["-", "-"]
    return [*cells, *gains, f"{above} of {len(pairs)}"]


def table_text(found: dict[str, list[Totals]]) -> str:
    """The table for people."""
    first = next(iter(found))
    table = [list(HEADS), *(cells_of(name, own, None if name == first else found[first]) for name, own in found.items())]
    wide = [max(map(len, column)) for column in zip(*table)]
    lines = ("  ".join([line[0].ljust(wide[0]), *map(str.rjust, line[1:], wide[1:])]) for line in table)
    return "\n".join(line.rstrip() for line in lines) + "\n"


def csv_text(found: dict[str, list[Totals]]) -> str:
    """A row for each series and draw, with the totals of its run in thousandths."""
    text = io.StringIO()
    rows = csv.writer(text, lineterminator="\n")
    rows.writerow(HEADER)
    for name, own in found.items():
        rows.writerows([name, number, each.entered, each.left, each.on_links, each.delay] for number, each in enumerate(own, 1))
    return text.getvalue()


def add_draws(words: argparse.ArgumentParser, seeds: int) -> None:
    """Adds what says of which vehicles the runs are, and how they are run."""
    words.add_argument("--seeds", type=int, default=seeds, metavar="N", help=f"how many draws of one file ({seeds}); 0 takes it as it is")
    words.add_argument("--first", type=int, default=1, metavar="N", help="the number of the first draw (1)")
    words.add_argument("--demand", type=float, default=1.0, metavar="X", help="times what the file brings (1)")
    words.add_argument("--jobs", type=int, default=os.cpu_count(), help="how many runs go side by side")
    words.add_argument("--program", type=split_words, help="its words before the command; the built program if left out")


def draws_from(options: argparse.Namespace, form: argparse.ArgumentParser) -> list[str]:
    """The texts of arrivals that the words of a command name."""
    if options.jobs < 1 or not 0 <= options.seeds <= MOST_SEEDS or not 0 < options.demand <= 1000:
        form.error(f"--jobs is above 0, --seeds from 0 to {MOST_SEEDS}, and --demand above 0, up to 1000")
    options.program = options.program or built_program_words()
    run(["upgrade", options.network], options.program).require_answer()  # what the program refuses is told of this file
    network, files = read_network(options.network), options.arrivals
    arrivals = [read_arrivals(file) for file in files]
    for file, rows in zip(files, arrivals):
        require_links(network, file, rows)
    if len(files) > 1 or options.seeds == 0:
        return [Path(file).read_text(encoding="utf-8") for file in files]
    return draws_of(arrivals[0], network.run.known_seconds, options.demand, range(options.first, options.first + options.seeds))


def answer(words: Sequence[str] | None = None) -> str:
    """What the command writes."""
    form = Words(__doc__)
    form.add_argument("network")
    form.add_argument("arrivals", nargs="+")
    form.add_argument("--series", nargs="+", default=["turns", "actuate"], metavar="NAME")
    form.add_argument("--csv", action="store_true", help="write a row for each run")
    add_draws(form, 10)
    options = form.parse_args(words)
    with network_faults(options.network):
        series = [series_of(name) for name in dict.fromkeys(options.series)]
        draws = draws_from(options, form)
    network = Path(options.network).read_text(encoding="utf-8")
    found = run_all(network, draws, series, options.program, options.jobs)
    return csv_text(found) if options.csv else f"{plural(len(draws), 'draw')}\n" + table_text(found)


def main() -> None:
    """Runs the command by the words that the process was called with."""
    end(lambda: print(answer(), end=""))


if __name__ == "__main__":
    main()
