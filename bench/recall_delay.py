#!/usr/bin/env python3
"""What `recall` costs in delay, on random networks in which phases are marked.

    bench/recall_delay.py [--program PROGRAM] [--networks N] [--recall R ..] [--no-split]

Each network has one to three nodes in a row, two unmarked phases and one or two marked ones at each node, and vehicles at random, few on the
links of marked phases. All have `split`, or with --no-split none. The program, which takes the words of `signal`, runs each with and without
`recall` (`compare NET ARR`). Written are, for each value of R, the planned delay of all networks over that without `recall`, and on how many of
them it is above 1.02 of it.
"""

import argparse
import random
import subprocess
import tempfile
from pathlib import Path

ROUNDS, STEP = 120, 5


def phase(draw: random.Random, marked: bool, link: str) -> str:
    least, yellow, clear, loss = draw.randint(4, 8), draw.randint(2, 4), draw.randint(0, 3), draw.randint(0, 3)
    times = f"least = {least}, greatest = {draw.randint(20, 60)}, yellow = {yellow}, clear = {clear}, loss = {loss}, wait = {draw.choice((60, 120, 300))}"
    return f'  {{ {times}, skip = {str(marked).lower()}, links = ["{link}"] }},'


def network(draw: random.Random) -> tuple[str, list[tuple[str, float]]]:
    """The text of a network without `recall`, up to its nodes, and for each link from outside the vehicles that enter it in a second."""
    nodes, tables, flows = draw.randint(1, 3), [], []
    for n in range(nodes):
        links = [f"street{n}", f"side{n}"] + [f"turn{n}_{k}" for k in range(draw.randint(1, 2))]
        marks = [False, False] + [True] * (len(links) - 2)
        tables += ["[[node]]", f'name = "n{n}"', "phase = ["] + [phase(draw, mark, link) for mark, link in zip(marks, links)] + ["]"]
        for link, mark in zip(links, marks):
            inner = link == f"street{n}" and n > 0
            to = f"street{n + 1}" if link.startswith("street") and n + 1 < nodes else f"out{n}"
            tables += ["[[link]]", f'name = "{link}"'] + ([f'from = "n{n - 1}"'] if inner else []) + [f'to = "n{n}"', f"travel = {draw.randint(10, 30)}"]
            tables += [f"sat = {draw.choice((400, 500, 600))}", "weight = 1", f'turn = [{{ exit = "{to}", share = 1000 }}]']
            if not inner:
                flows.append((link, draw.uniform(0.003, 0.02) if mark else draw.uniform(0.03, 0.15)))
        tables += ["[[link]]", f'name = "out{n}"', f'from = "n{n}"', "travel = 5", "sat = 1000", "weight = 1"]
    return "\n".join(tables) + "\n", flows


def arrivals(draw: random.Random, flows: list[tuple[str, float]]) -> str:
    rows = [(second, link) for link, flow in flows for second in range(ROUNDS * STEP) if draw.random() < flow]
    return "second,link,amount\n" + "".join(f"{second},{link},1000\n" for second, link in sorted(rows))


def planned_delay(program: str, net: Path, arr: Path) -> int:
    words = [*program.split(), "compare", str(net), str(arr)]
    return int(subprocess.run(words, check=True, capture_output=True, text=True).stdout.split()[4])


def main() -> None:
    parser = argparse.ArgumentParser(description=__doc__, formatter_class=argparse.RawDescriptionHelpFormatter)
    parser.add_argument("--program", default=str(Path(__file__).parent.parent / "signal"))
    parser.add_argument("--networks", type=int, default=200)
    parser.add_argument("--recall", type=int, nargs="+", default=[1, 30, 60])
    parser.add_argument("--no-split", action="store_true")
    given = parser.parse_args()
    sums, above = {r: 0 for r in (None, *given.recall)}, {r: 0 for r in given.recall}
    with tempfile.TemporaryDirectory() as folder:
        net, arr = Path(folder) / "net.toml", Path(folder) / "arr.csv"
        for number in range(given.networks):
            draw = random.Random(number)
            tables, flows = network(draw)
            arr.write_text(arrivals(draw, flows))
            delays = {}
            for recall in sums:
                more = f"recall = {recall}\n" if recall is not None else ""
                net.write_text(f"[run]\nstep = {STEP}\nlook = 60\ngap = 2\nrounds = {ROUNDS}\nsplit = {str(not given.no_split).lower()}\n{more}{tables}")
                delays[recall] = planned_delay(given.program, net, arr)
                sums[recall] += delays[recall]
            for recall in given.recall:
                above[recall] += delays[recall] * 100 > delays[None] * 102
    for recall in given.recall:
        print(f"recall {recall}: {sums[recall] / sums[None]:.4f} of the delay without, above 1.02 of it on {above[recall]} of {given.networks}")


if __name__ == "__main__":
    main()
