#!/usr/bin/env python3
"""How long queues wait on random networks, beside what `bounds` says of their phases.

    bench/longest_waits.py [--program PROGRAM] [--networks N] [--first SEED]

The networks are those of recall_delay.py, with `recall`, `look`, `gap` and `act_step` at random, half of them with `split`, and many vehicles on
some. The program, which takes the words of `signal`, runs each (`turns`, `actuate`); the vehicles are moved again under the greens of its
reports, by the package. A queue waits too long where it stands at a second and nothing has left its link within the bound of its phase. Written
are how many bounds were looked at, how many were passed, and the greatest share of a bound that a queue waited.
"""

import argparse
import csv
import random
import subprocess
import sys
import tempfile
from collections.abc import Iterator
from pathlib import Path

from recall_delay import ROUNDS, STEP, arrivals, network

sys.path.insert(0, str(Path(__file__).parent.parent / "python"))
from kolvunh.arrivals import read_arrivals  # noqa: E402
from kolvunh.flows import Flow, flows_of_greens, require_totals  # noqa: E402
from kolvunh.networks import read_network  # noqa: E402
from kolvunh.reports import read_report  # noqa: E402


def options(draw: random.Random) -> str:
    """The run of a network."""
    recall = draw.choice(("", "recall = 1\n", f"recall = {draw.randint(10, 120)}\n"))
    act_step = draw.choice(("", "act_step = 1\n"))
    split = draw.choice(("true", "false"))
    return f"[run]\nstep = {STEP}\nlook = {draw.choice((10, 20, 60))}\ngap = {draw.randint(0, 3)}\nrounds = {ROUNDS}\nsplit = {split}\n{recall}{act_step}"


def longest_wait(flow: Flow, end: int) -> int:
    """The most seconds for which a queue stood until something left, of queues that stand before the end."""
    longest, since = 0, None
    for moment in range(end + 1):
        if moment and flow.left[moment] > flow.left[moment - 1]:
            since = None
        if flow.queue[moment] and since is None:
            since = moment
        if not flow.queue[moment]:
            since = None
        if since is not None:
            longest = max(longest, moment - since + 1)
    return longest


def run(program: list[str], *words: object) -> str:
    return subprocess.run([*program, *map(str, words)], check=True, capture_output=True, text=True).stdout


def shares(program: list[str], net: Path, arr: Path, place: Path) -> Iterator[tuple[int, int]]:
    """Of each bound of a network the seconds of its longest wait, and the bound."""
    street = read_network(net)
    bounds = {(row["node"], int(row["phase"])): row for row in csv.DictReader(run(program, "bounds", net).splitlines())}
    for command, column in (("turns", "planned"), ("actuate", "actuated")):
        place.write_text(run(program, command, net, arr))
        report = read_report(place)
        flows = flows_of_greens(street, read_arrivals(arr), report.greens)
        require_totals(flows, report)
        for node in street.nodes:
            for number, phase in enumerate(node.phases):
                bound = bounds[node.name, number][column]
                if bound.isdigit():
                    for link in phase.links:
                        yield longest_wait(flows[link], street.run.seconds), int(bound)


def main() -> None:
    parser = argparse.ArgumentParser(description=__doc__, formatter_class=argparse.RawDescriptionHelpFormatter)
    parser.add_argument("--program", default=str(Path(__file__).parent.parent / "signal"))
    parser.add_argument("--networks", type=int, default=2000)
    parser.add_argument("--first", type=int, default=0)
    given = parser.parse_args()
    looked, over, worst = 0, 0, 0.0
    with tempfile.TemporaryDirectory() as folder:
        net, arr, report = (Path(folder) / name for name in ("net.toml", "arr.csv", "report.csv"))
        for number in range(given.first, given.first + given.networks):
            draw = random.Random(number)
            tables, flows = network(draw)
            many = draw.choice((1, 1, 2, 4))
            arr.write_text(arrivals(draw, [(link, flow * many) for link, flow in flows]))
            net.write_text(options(draw) + tables)
            for wait, bound in shares(given.program.split(), net, arr, report):
                looked, over, worst = looked + 1, over + (wait > bound), max(worst, wait / bound)
    print(f"{looked} bounds, {over} passed, the greatest share {worst:.3f}")


if __name__ == "__main__":
    main()
