"""Runs SUMO's own network under several controllers, with several seeds each, and prints a Markdown table of means and spreads.

    tools/sumo/compare_own.py NET.net.xml ROUTES DIR [--seeds N] [--controllers NAME ..] [--program WORDS] [--jobs N]

DIR is the folder that from_sumo.py wrote of NET. The network stays as it is, and its signals show what a controller answers, link by
link. In ROUTES `%` stands for the seed; SUMO's drivers are drawn from it in any case. The controllers: `decide`, the program in the
loop; `pressure`, max-pressure of the package; `program`, with which the network came; and SUMO's own `actuated` and `delay_based`,
within the least and greatest greens of the network. The seconds in which SUMO showed something else than was answered are counted; the
exit status is 1 where there are any. Nothing here is proved.
"""

import subprocess
from argparse import Namespace
from concurrent.futures import ProcessPoolExecutor
from functools import partial
from pathlib import Path

from ..commands import Words, end
from ..faults import Fault
from ..programs import built_program_words, split_words
from .compare_sumo import HEADER, row_of
from .loop import asker, run_control, run_loop
from .measures import Outcome, differences, last_line, outcome, run_words
from .own import OwnSensors, OwnSignals
from .pressure import MaxPressure
from .to_sumo import element

CONTROLLERS = ("decide", "pressure", "program", "actuated", "delay_based")
LOOKING = ("decide", "pressure")


def one_run(options: Namespace, task: tuple[str, int]) -> tuple[Outcome, int]:
    """The outcome of a controller with a seed, and the seconds that differ from what was to be shown."""
    name, seed = task
    folder, signals = options.folder, OwnSignals(options.network, options.folder)
    files = options.network, Path(str(options.routes).replace("%", str(seed)))
    if name in LOOKING:
        words = run_words(folder, name, seed, signals, files=files)
        if name == "decide":
            with asker(options.program, folder / "net.toml", folder / f"state.{seed}.csv") as ask:
                lines = run_loop(signals, ask, words, OwnSensors)
        else:
            lines = run_control(signals, MaxPressure(signals), words, OwnSensors)
        return outcome(folder, name, seed), len(list(differences(folder, name, seed, signals, lines)))
    more = [] if name == "program" else [folder / f"{name}.own.{seed}.xml"]
    for path in more:
        path.write_text(element("additional", "\n" + signals.programs(name)), encoding="utf-8")
    run = subprocess.run(run_words(folder, name, seed, signals, more, files), capture_output=True, text=True, check=False)
    if run.returncode:
        raise Fault(f"sumo: {last_line(run.stderr)}")
    return outcome(folder, name, seed), 0


def work() -> int:
    """Runs all, and writes the table."""
    parser = Words(__doc__)
    for name in ("network", "routes", "folder"):
        parser.add_argument(name, type=Path)
    parser.add_argument("--seeds", type=int, default=3)
    parser.add_argument("--controllers", nargs="+", choices=CONTROLLERS, default=CONTROLLERS, metavar="NAME")
    parser.add_argument("--program", type=split_words, help="its words before `serve`; the built program if left out")
    parser.add_argument("--jobs", type=int, default=1, help="runs side by side")
    options = parser.parse_args()
    if options.seeds < 1 or options.jobs < 1:
        parser.error("--seeds and --jobs are above 0")
    if "decide" in options.controllers:
        options.program = options.program or built_program_words()
    tasks = [(name, seed) for name in options.controllers for seed in range(1, options.seeds + 1)]
    with ProcessPoolExecutor(options.jobs) as runs:
        results = dict(zip(tasks, runs.map(partial(one_run, options), tasks)))
    print(HEADER)
    for name in options.controllers:
        print(row_of(name, [results[task] for task in tasks if task[0] == name], name in LOOKING))
    return 1 if any(differing for _, differing in results.values()) else 0


def main() -> None:
    """Runs the command."""
    end(work)


if __name__ == "__main__":
    main()
