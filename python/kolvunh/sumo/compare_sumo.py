"""Runs a network in SUMO under several controllers, with several seeds each, and prints a Markdown table of means and spreads.

    tools/sumo/compare_sumo.py NET PLACES ARR DIR [--seeds N] [--at-once] [--early] [--controllers NAME ..] [--program WORDS] [--jobs N]

The controllers: `decide`, the program in the loop (loop.py, and so is --early); `pressure`, max-pressure of the package, which looks each second;
`turns` and `actuate`, the greens of the program's reports replayed; and SUMO's own `actuated` and `delay_based`, within the least and greatest greens of the network, and `fixed`, the
plan that SUMO's tools make of the vehicles that come (tlsCycleAdaptation.py, and tlsCoordinator.py where there are several
nodes). A seed draws the turns of the vehicles and SUMO's drivers; with --at-once these stop and start at once. The seconds in
which SUMO showed something else than the greens are counted. Nothing here is proved.
"""

import statistics
import subprocess
import sys
from concurrent.futures import ProcessPoolExecutor
from functools import partial
from pathlib import Path

from ..commands import Words, end
from ..faults import Fault
from ..networks import read_tables
from ..programs import built_program_words, split_words
from .layout import SUMO_HOME, read_greens, read_places, vehicles
from .loop import asker, early_sensors, run_control, run_loop
from .measures import differences, last_line, outcome, run_words
from .pressure import MaxPressure
from .to_sumo import convert, element, report_programs, rings, write_routes

CONTROLLERS = ("decide", "pressure", "turns", "actuate", "actuated", "delay_based", "fixed")
LOOKING = ("decide", "pressure")
REPORTED = ("turns", "actuate")
HEADWAY = 2  # seconds between two vehicles of a queue that leaves by one lane
SAFE = ("collisions", "emergency_stops")
COLUMNS = "signals by|vehicles|arrived|waiting in s|time loss in s|collisions|emergency stops|seconds that differ".split("|")
HEADER = f"| {' | '.join(COLUMNS)} |\n{'|---' * len(COLUMNS)}|"


def fixed_programs(options, signals, seed):
    """The files of SUMO's plan for the vehicles that come: greens by tlsCycleAdaptation.py, offsets by tlsCoordinator.py."""
    files = ["-n", options.folder / "net.net.xml", "-r", options.folder / f"routes.{seed}.rou.xml"]
    cycles, offsets = (options.folder / f"fixed.{seed}.{name}.xml" for name in ("cycle", "offset"))
    # The tool takes the routes for those of one hour.
    headway = HEADWAY * 3600 / (1 + max(second for second, _ in vehicles(signals.layout, options.arrivals, seed)))
    bounds = "--min-cycle 40 --max-cycle 150 --min-green 5 --yellow-time 3 --all-red 2 --lost-time 7 -R -u -p fixed".split()
    bounds += ["--saturation-headway", headway]
    tool("tlsCycleAdaptation.py", *files, *bounds, "-o", cycles)
    if len(signals.layout.nodes) == 1:
        return [cycles]
    tool("tlsCoordinator.py", *files, "-a", cycles, "-o", offsets)
    return [cycles, offsets]


def tool(name, *words):
    run = subprocess.run([sys.executable, f"{SUMO_HOME}/tools/{name}", *map(str, words)], capture_output=True, text=True)
    if run.returncode:
        raise Fault(f"{name}: {last_line(run.stderr)}")


def report_greens(options, command):
    """The greens of the program's report of a command."""
    words = [*options.program, command, options.network, options.arrivals]
    run = subprocess.run(words, capture_output=True, text=True)
    if run.returncode:
        raise Fault(f"{command}: {last_line(run.stderr)}")
    (options.folder / f"{command}.csv").write_text(run.stdout)
    return read_greens(options.folder / f"{command}.csv")


def additional_files(options, signals, name, seed, greens):
    if name == "fixed":
        return fixed_programs(options, signals, seed)
    path = options.folder / f"{name}.add.{seed}.xml"
    path.write_text(element("additional", "\n" + (report_programs(signals, greens) if greens else rings(signals, name))))
    return [path]


def one_run(options, signals, reports, task):
    """The outcome of a controller with a seed, and the seconds that differ from the greens that were to be shown."""
    name, seed = task
    greens = reports.get(name)
    if name in LOOKING:
        words = run_words(options.folder, name, seed, signals)
        if name == "decide":
            with asker(options.program, options.network, options.folder / f"state.{seed}.csv") as ask:
                greens = run_loop(signals, ask, words, early_sensors(options.early))
        else:
            greens = run_control(signals, MaxPressure(signals), words)
    else:
        words = run_words(options.folder, name, seed, signals, additional_files(options, signals, name, seed, greens))
        run = subprocess.run(words, capture_output=True, text=True)
        if run.returncode:
            raise Fault(f"sumo: {last_line(run.stderr)}")
    differing = len(list(differences(options.folder, name, seed, signals, greens))) if greens else 0
    return outcome(options.folder, name, seed), differing


def row_of(name, results, shows):
    """A controller's line of the table: the means over its seeds with their spread, the sums of what is unsafe, and what differs."""
    cells = [name, f"{results[0][0].vehicles}"]
    for field in ("arrived", "waiting", "time_loss"):
        values = [getattr(found, field) for found, _ in results]
        spread = statistics.stdev(values) if len(values) > 1 else 0
        cells.append(f"{statistics.mean(values):.1f} ± {spread:.1f}")
    cells += [str(sum(getattr(found, field) for found, _ in results)) for field in SAFE]
    cells.append(str(sum(differing for _, differing in results)) if shows else "")
    return "| " + " | ".join(cells) + " |"


def work() -> None:
    """Runs all, and writes the table."""
    parser = Words(__doc__)
    for name in ("network", "places", "arrivals", "folder"):
        parser.add_argument(name, type=Path)
    parser.add_argument("--seeds", type=int, default=3)
    parser.add_argument("--at-once", action="store_true", help="vehicles stop and start at once")
    parser.add_argument("--early", action="store_true", help="for `decide` links end before their stop lines where nobody gives way")
    parser.add_argument("--controllers", nargs="+", choices=CONTROLLERS, default=CONTROLLERS, metavar="NAME")
    parser.add_argument("--program", type=split_words, help="its words before the command; the built program if left out")
    parser.add_argument("--jobs", type=int, default=2, help="runs side by side")
    options = parser.parse_args()
    if options.seeds < 1 or options.jobs < 1:
        parser.error("--seeds and --jobs are above 0")
    options.program = options.program or built_program_words()
    signals = convert(read_tables(options.network), read_places(options.places), options.folder)
    seeds = range(1, options.seeds + 1)
    for seed in seeds:
        path = options.folder / f"routes.{seed}.rou.xml"
        write_routes(signals.layout, options.arrivals, seed, path, options.at_once)
    reports = {name: report_greens(options, name) for name in REPORTED if name in options.controllers}
    tasks = [(name, seed) for name in options.controllers for seed in seeds]
    with ProcessPoolExecutor(options.jobs) as runs:
        results = dict(zip(tasks, runs.map(partial(one_run, options, signals, reports), tasks)))
    print(HEADER)
    for name in options.controllers:
        print(row_of(name, [results[name, seed] for seed in seeds], name in (*LOOKING, *REPORTED)))


def main() -> None:
    """Runs the command."""
    end(work)


if __name__ == "__main__":
    main()
