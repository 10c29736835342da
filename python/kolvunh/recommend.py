"""Tries the keys that suit a network, on draws of its own arrivals, and writes the network with those that gained.

    ./signal recommend NET ARR [--seeds N] [--passes N] [--minutes M] > better.toml

One change after another is tried under `turns` on every draw: `split`, `age`, `hold`, `rate`, `step`, `gap`, free rings, and each key of these without
what it has. A change stays where it gains more on the average than its standard error. `recall` stays wherever a phase may be left out, whatever it costs,
since without it nothing says how long a queue there may stand. The lines on top of the file have what each gained with its spread, and actuated
control beside. The same seeds give the same file. Nothing here is proved.
"""

import math
import statistics
import sys
import time
from collections.abc import Callable, Iterator, Sequence
from concurrent.futures import ThreadPoolExecutor
from dataclasses import dataclass, field, replace
from pathlib import Path
from typing import Any

from .commands import Words, end
from .compare_seeds import add_draws, draws_from, spread
from .faults import Fault
from .network_text import network_text
from .networks import GREAT, Network, limits_of, network_faults, read_network
from .progress import Progress
from .records import plural
from .series import CONTROLLERS, Series, delay_each, totals_under

RECALL, FREE_RECALL = 60, 90
# The values of each key of [run] that are tried, in this order; None leaves it out
VALUES: dict[str, tuple[Any, ...]] = {
    "split": (True, False), "age": (20, 40, None), "hold": (2, 4, None), "rate": (600, None), "step": (2, 5), "gap": (0, 2),
}  # fmt: skip
LEAVES_OPEN = "with recall: nothing is promised of a queue without it"


@dataclass(frozen=True)
class Change:
    """A change of a network: what is said of it, and the network with it, or None where it says nothing new or can't be."""

    name: str
    apply: Callable[[Network], Network | None]


def with_key(key: str, value: Any) -> Change:
    """The change that sets a key of [run], or leaves it out."""
    words = f"without {key}" if value is None or value is False else f"{key} = {str(value).lower()}"

    def apply(network: Network) -> Network | None:
        if getattr(network.run, key) == value:
            return None
        return with_step(network, value) if key == "step" else replace(network, run=replace(network.run, **{key: value}))

    return Change(words, apply)


def with_step(network: Network, step: int) -> Network | None:
    """The network with another step and as many seconds, where the bounds of files allow it."""
    run = network.run
    rounds, rest = divmod(run.seconds, step)
    if rest or rounds > GREAT.rounds or step > run.look:
        return None
    act = run.act_step if run.act_step is None or step % run.act_step == 0 else 1
    version = network.version if rounds <= limits_of(network.version).rounds else 3
    return replace(network, version=version, run=replace(run, step=step, rounds=rounds, act_step=act))


def with_short_steps(network: Network) -> Network | None:
    """The network with short steps and what suits these."""
    found = with_step(network, 2)
    return found and replace(found, run=replace(found.run, hold=4, gap=0))


def with_free_rings(network: Network) -> Network | None:
    """The network with free rings at its nodes of three phases and more, and a recall."""
    if not any(len(node.phases) > 2 and not all(phase.skip for phase in node.phases) for node in network.nodes):
        return None
    nodes = tuple(
        replace(node, phases=tuple(replace(phase, skip=True) for phase in node.phases)) if len(node.phases) > 2 else node
        for node in network.nodes
    )
    return replace(network, version=3, nodes=nodes, run=replace(network.run, recall=network.run.recall or FREE_RECALL))


def with_recall(network: Network) -> Network | None:
    """The network with a recall, where a phase may be left out and there is none."""
    if network.run.recall or not any(phase.skip for node in network.nodes for phase in node.phases):
        return None
    return replace(network, run=replace(network.run, recall=RECALL))


def changes() -> Iterator[Change]:
    """The changes in the order in which they are tried."""
    for key, values in VALUES.items():
        yield from (with_key(key, value) for value in values)
    yield Change("step = 2, hold = 4, gap = 0", with_short_steps)
    yield Change(f"free rings, recall = {FREE_RECALL}", with_free_rings)


@dataclass
class Trials:
    """The network that is the best so far, its delays by draw in seconds for each vehicle, and what was tried."""

    draws: Sequence[str]
    program: Sequence[str]
    jobs: int
    progress: Progress
    best: Network
    delays: list[float] = field(default_factory=list)
    lines: list[tuple[str, str, str, str]] = field(default_factory=list)
    seen: set[Network] = field(default_factory=set)

    def run(self, network: Network, controller: str = "turns") -> list[float]:
        """The delay of each draw under a controller."""
        self.seen.add(network)
        text, series = network_text(network), Series(controller, CONTROLLERS[controller])
        with ThreadPoolExecutor(self.jobs) as pool:
            found = list(pool.map(lambda draw: delay_each(totals_under(series, text, draw, 0, self.program)), self.draws))
        self.progress.step()
        return found

    def tell(self, name: str, delays: Sequence[float], gains: Sequence[float] | None, words: str) -> None:
        """Adds a line on a trial."""
        gained = "" if gains is None else f"{statistics.mean(gains):.1f} ± {spread(gains):.1f}"
        self.lines.append((name, f"{statistics.mean(delays):.1f} ± {spread(delays):.1f}", gained, words))

    def begin(self, first: Network) -> None:
        """Runs the network as it is, and under actuated control."""
        self.delays = self.run(first)
        self.tell("actuated control", self.run(first, "actuate"), None, "")
        self.tell("as it is", self.delays, None, "")

    def try_change(self, change: Change, stays: str = "") -> None:
        """Tries a change, which stays where it gains, or where `stays` says why; nothing is done where the network was tried."""
        network = change.apply(self.best)
        if network is None or network in self.seen:
            return
        delays = self.run(network)
        gains = [before - after for before, after in zip(self.delays, delays)]
        is_kept = bool(stays) or is_gain(gains)
        self.tell(change.name, delays, gains, f"stays {stays}".rstrip() if is_kept else "does not stay")
        if is_kept:
            self.best, self.delays = network, delays


def is_gain(gains: Sequence[float]) -> bool:
    """Whether what was gained is more than its standard error; of one draw, more than nothing."""
    return statistics.mean(gains) > spread(gains) / math.sqrt(len(gains))


def try_all(trials: Trials, passes: int, until: float | None) -> None:
    """Tries the changes, pass after pass while one stays, up to a moment."""
    recall = Change(f"recall = {RECALL}", with_recall)
    trials.try_change(recall, LEAVES_OPEN)
    for number in range(passes):
        before = trials.best
        for change in changes():
            if until is not None and time.monotonic() > until:
                trials.lines.append(("the time is over", "", "", f"in pass {number + 1}, before {change.name}"))
                return
            trials.try_change(change)
        if trials.best == before:
            return


def head_text(trials: Trials, options: Any) -> str:
    """The lines on top of the file."""
    first = f"{plural(len(trials.draws), 'draw')} of {Path(options.arrivals[0]).name}, of {Path(options.network).name}: seconds for each vehicle, what was gained"
    wide = [max(len(line[at]) for line in trials.lines) for at in range(3)]
    lines = ("  ".join([*(cell.ljust(width) for cell, width in zip(line, wide)), line[3]]).rstrip() for line in trials.lines)
    return "".join(f"# {line}\n" for line in (first, *lines))


def answer(words: Sequence[str] | None = None) -> str:
    """What the command writes."""
    form = Words(__doc__)
    form.add_argument("network")
    form.add_argument("arrivals")
    form.add_argument("--passes", type=int, default=2, metavar="N", help="how often all changes are tried (2)")
    form.add_argument("--minutes", type=float, metavar="M", help="after which no further change is tried")
    add_draws(form, 5)
    options = form.parse_args(words)
    if options.passes < 1 or (options.minutes is not None and not options.minutes > 0):
        form.error("--passes and --minutes are above 0")
    until = time.monotonic() + 60 * options.minutes if options.minutes else None
    options.arrivals = [options.arrivals]
    with network_faults(options.network):
        network, draws = read_network(options.network), draws_from(options, form)
        if not any("\n" in draw.strip() for draw in draws):
            raise Fault(f"{options.arrivals[0]}: no vehicle was drawn: write more arrivals, or a greater --demand")
        count = 2 + options.passes * len(list(changes()))
        trials = Trials(draws, options.program, options.jobs, Progress(count, "changes"), network)
        trials.begin(network)
        try_all(trials, options.passes, until)
    trials.progress.end()
    print(f"recommend: {trials.lines[1][1]} s for each vehicle as it is, {statistics.mean(trials.delays):.1f} with what stays", file=sys.stderr)
    return head_text(trials, options) + network_text(trials.best)


def main() -> None:
    """Runs the command by the words that the process was called with."""
    end(lambda: print(answer(), end=""))


if __name__ == "__main__":
    main()
