"""Runs a network in many orders of its nodes' board steps, and says from which delay to which they come.

    tools/orders.py NET ARR [--count N] [--seed N] [--jobs N] [--to FOLDER]

In a street no clock tells the nodes who acts first, so what one run shows may be the luck of its order. Each order here is a history that
`replay` runs: docs/FORMATS.md, "History file". In each round

    forward     the nodes act one after another in the order of the file, as in `turns`
    backward    one after another from the last to the first
    read_first  all nodes read before any of them publishes, so nobody hears what is planned in this round
    random K    the steps of all nodes are shuffled, each round anew; --count says how many such orders (40), --seed from which number

A line for each order has its delay in vehicle seconds. The last two have the least, the mean and the greatest of them, and the delay of
`actuate`, which knows no order. With --to the histories are written into a folder. Nothing here is proved.
"""

import argparse
import os
import random
import statistics
import tempfile
from collections.abc import Iterator
from concurrent.futures import ThreadPoolExecutor
from pathlib import Path

from .commands import Words, end
from .faults import Fault
from .networks import Network, read_network
from .programs import built_program_words, run, split_words
from .reports import HEADER

FORWARD, BACKWARD, READ_FIRST, RANDOM = "forward", "backward", "read_first", "random"


def steps_of(network: Network) -> dict[str, tuple[int, int]]:
    """How often each node reads and how often it publishes in a round: once for each link from a node, and to one."""
    return {
        node.name: (
            sum(link.start is not None for link in network.links_to(node.name)),
            sum(link.end is not None for link in network.links_from(node.name)),
        )
        for node in network.nodes
    }


def round_of(order: str, steps: dict[str, tuple[int, int]], draw: random.Random) -> list[str]:
    """The nodes of a round's steps, in their order; a node reads first and publishes then, whatever the order."""
    names = list(steps)
    if order == READ_FIRST:
        return [name for part in (0, 1) for name in names for _ in range(steps[name][part])]
    one_by_one = [name for name in (names[::-1] if order == BACKWARD else names) for _ in range(sum(steps[name]))]
    if order == RANDOM:
        draw.shuffle(one_by_one)
    return one_by_one


def history_text(network: Network, order: str, seed: int = 1) -> str:
    """The history of all rounds in this order, as a file; the same for the same seed."""
    steps, draw = steps_of(network), random.Random(seed)
    rows = (f"step,,{name},,,," for _ in range(network.run.rounds) for name in round_of(order, steps, draw))
    return "\n".join([",".join(HEADER), *rows, ""])


def orders_of(count: int, seed: int) -> Iterator[tuple[str, str, int]]:
    """Each order with what it is called and its seed."""
    yield from ((order, order, 0) for order in (FORWARD, BACKWARD, READ_FIRST))
    yield from ((f"{RANDOM} {seed + number}", RANDOM, seed + number) for number in range(count))


def options_of() -> argparse.Namespace:
    """The words of the command."""
    parser = Words(__doc__)
    parser.add_argument("network", type=Path)
    parser.add_argument("arrivals", type=Path)
    parser.add_argument("--count", type=int, default=40)
    parser.add_argument("--seed", type=int, default=1)
    parser.add_argument("--program", type=split_words, help="its words before the command; the built program if left out")
    parser.add_argument("--jobs", type=int, default=os.cpu_count())
    parser.add_argument("--to", type=Path, metavar="FOLDER")
    options = parser.parse_args()
    if options.jobs < 1 or options.count < 0:
        parser.error("--jobs is above 0, and --count is not below it")
    return options


def delay(options: argparse.Namespace, words: list[str | Path]) -> float:
    """The delay of a run in vehicle seconds."""
    answer = run(words, options.program)
    if answer.status:
        raise Fault(f"{words[0]}: {'; '.join([answer.refusal or 'no answer', *answer.explanation])}")
    return answer.records.totals.delay / 1000


def delays(options: argparse.Namespace, folder: Path) -> Iterator[tuple[str, float]]:
    """Each order with the delay of its run; the histories are written into the folder."""
    network, orders = read_network(options.network), list(orders_of(options.count, options.seed))

    def delay_of(order: tuple[str, str, int]) -> float:
        name, kind, seed = order
        history = folder / f"{name.replace(' ', '_')}.csv"
        history.write_text(history_text(network, kind, seed))
        return delay(options, ["replay", options.network, options.arrivals, history])

    with ThreadPoolExecutor(options.jobs) as pool:
        try:
            yield from zip((name for name, _, _ in orders), pool.map(delay_of, orders))
        except BaseException:
            pool.shutdown(cancel_futures=True)
            raise


def work() -> None:
    """Writes a line for each order, and the range."""
    options = options_of()
    options.program = options.program or built_program_words()
    found = []
    with tempfile.TemporaryDirectory() as place:
        folder = options.to or Path(place)
        folder.mkdir(parents=True, exist_ok=True)
        for name, seconds in delays(options, folder):
            print(f"{name:<10} {seconds:12.3f}", flush=True)
            found.append(seconds)
    print(f"{len(found)} orders: {min(found):.3f} to {max(found):.3f}, mean {statistics.mean(found):.3f}")
    print(f"actuated   {delay(options, ['actuate', options.network, options.arrivals]):12.3f}")


def main() -> None:
    """Runs the command."""
    end(work)


if __name__ == "__main__":
    main()
