"""Times a fixed plan: cycle by Webster, splits by loads, offsets along the streets, and then a search over draws of the vehicles.

    ./signal retime NET ARR [PLAN] [--seeds N] [--tries N] [--minutes M] [--judge program|python] > plan.csv

With PLAN the search begins at it. Each plan that is tried runs on every draw, by `fixed` of the program or, with `--judge python`, by the world of this
package, which comes to the same and is quicker than a program that is not proved yet. The search ends after so many tries, or so many
minutes; the same seeds and tries give the same plan. On standard error it says where it began and what it came to. Nothing here is proved.
"""

import argparse
import random
import sys
import time
from collections.abc import Callable, Iterator, Sequence
from concurrent.futures import ThreadPoolExecutor
from dataclasses import dataclass, field, replace
from pathlib import Path
from tempfile import TemporaryDirectory

from .arrivals import arrivals_of, read_arrivals
from .check_input import link_flows
from .commands import Words, end
from .compare_seeds import add_draws, draws_from
from .flows import flows_of_greens
from .networks import Network, network_faults, read_network
from .plans import greens_of_plan, plan_text, read_plan, require_plan
from .progress import Progress
from .series import CONTROLLERS, Series, totals_under
from .webster import MOST_OFFSET, Plan, Timing, first_plan, plan_from, rows_of, scaled, weights_of

Judge = Callable[[Plan, float], float]
FACTORS = (0.7, 0.8, 0.9, 1.0, 1.1, 1.25, 1.4, 1.6)  # of the first cycle
STEPS = (1, 2, 4, 8)


@dataclass(frozen=True)
class Scene:
    """A network, its draws, and the flows of its links."""

    network: Network
    text: str
    draws: Sequence[str]
    flows: dict[str, float]


def judge_by_program(scene: Scene, program: Sequence[str], jobs: int) -> Judge:
    """The mean delay of a plan over the draws, in vehicle seconds, by the command `fixed`."""

    def judge(plan: Plan, most: float) -> float:
        with TemporaryDirectory() as folder, ThreadPoolExecutor(jobs) as pool:
            file = Path(folder) / "plan.csv"
            file.write_text(plan_text(rows_of(plan)), encoding="utf-8")
            series = Series("fixed", CONTROLLERS["fixed"], {}, file)
            runs = pool.map(lambda draw: totals_under(series, scene.text, draw, 0, program).delay, scene.draws)
            return sum(runs) / len(scene.draws) / 1000

    return judge


def judge_by_world(scene: Scene) -> Judge:
    """The same by the world of this package, draw by draw, as long as the sum is below that of `most`."""
    arrivals = [arrivals_of("the draw", draw) for draw in scene.draws]

    def judge(plan: Plan, most: float) -> float:
        greens, delay = greens_of_plan(scene.network, rows_of(plan)), 0
        for draw in arrivals:
            delay += sum(flow.delay for flow in flows_of_greens(scene.network, draw, greens).values())
            if delay >= most * 1000 * len(arrivals):
                break
        return delay / len(arrivals) / 1000

    return judge


@dataclass
class Search:
    """The best plan that was found, and how many were tried."""

    judge: Judge
    best: Plan
    delay: float = float("inf")
    tries: int = 0
    seen: set[Plan] = field(default_factory=set)

    def tries_plan(self, plan: Plan) -> bool:
        """Tries a plan, unless it was tried; whether it is the best so far."""
        if plan in self.seen:
            return False
        self.seen.add(plan)
        self.tries += 1
        delay = self.judge(plan, self.delay)
        if delay < self.delay:
            self.best, self.delay = plan, delay
            return True
        return False


def moved_green(timing: Timing, draw: random.Random) -> Timing:
    """A node's plan in which one green has some seconds of another."""
    give, take = draw.sample(range(len(timing.greens)), 2)
    phases = [timing.node.phases[number] for number in timing.phases]
    step = min(draw.choice(STEPS), timing.greens[give] - phases[give].least, phases[take].greatest - timing.greens[take])
    greens = list(timing.greens)
    greens[give], greens[take] = greens[give] - step, greens[take] + step
    return replace(timing, greens=tuple(greens))


def longer_cycle(timing: Timing, step: int, draw: random.Random) -> Timing:
    """A node's plan whose cycle has some seconds more, or fewer, in one green."""
    phases = [timing.node.phases[number] for number in timing.phases]
    able = [at for at, phase in enumerate(phases) if phase.least <= timing.greens[at] + step <= phase.greatest]
    if not able:
        return timing
    at = draw.choice(able)
    return replace(timing, greens=tuple(green + step * (place == at) for place, green in enumerate(timing.greens)))


def moved_offset(timing: Timing, step: int) -> Timing:
    """A node's plan that is so many seconds later."""
    offset = (timing.offset + step) % timing.cycle
    return replace(timing, offset=min(offset, MOST_OFFSET))


def neighbour(plan: Plan, draw: random.Random) -> Plan:
    """A plan near to this one: another offset of a node or of some in the order of the file, another split, or another cycle of all."""
    at, kind = draw.randrange(len(plan)), draw.random()
    step = draw.choice(STEPS) * draw.choice((-1, 1))
    if kind < 0.15:
        changed = tuple(longer_cycle(timing, step, draw) for timing in plan)
        return changed if len({timing.cycle for timing in changed}) <= len({timing.cycle for timing in plan}) else plan
    if kind < 0.45 or len(plan) == 1:
        return (*plan[:at], moved_green(plan[at], draw), *plan[at + 1 :])
    last = len(plan) if kind < 0.65 else at + 1
    return tuple(moved_offset(timing, step) if at <= place < last else timing for place, timing in enumerate(plan))


def beginnings(scene: Scene, given: Plan | None) -> Iterator[Plan]:
    """The plans from which the search goes on: the one that is given, that of Webster's cycle, and both with other cycles."""
    first, weights = first_plan(scene.network, scene.flows)
    bases = [(given, {timing.node.name: weights_of(timing) for timing in given})] if given else []
    bases.append((first, weights))
    yield from (base for base, _ in bases)
    for base, of_phases in reversed(bases):
        cycle = max(timing.cycle for timing in base)
        yield from (scaled(scene.network, base, of_phases, round(factor * cycle), scene.flows) for factor in FACTORS)


def search(scene: Scene, judge: Judge, given: Plan | None, options: argparse.Namespace) -> tuple[float, Search]:
    """Tries plans up to the end that the options set; answers the delay of the first one too."""
    draw, until = random.Random(options.seed), time.monotonic() + 60 * options.minutes if options.minutes else None
    found, progress = Search(judge, ()), Progress(options.tries, "plans")
    first = float("inf")
    begins, stale = beginnings(scene, given), 0
    while found.tries < options.tries and stale < 200 and (until is None or found.tries == 0 or time.monotonic() < until):
        before = found.tries
        found.tries_plan(next(begins, None) or neighbour(found.best, draw))
        stale = 0 if found.tries > before else stale + 1
        first = found.delay if found.tries == 1 else first
        if found.tries > before:
            progress.step(f"{found.delay:.0f} vehicle seconds")
    progress.end()
    return first, found


def parser() -> Words:
    """What the command takes."""
    form = Words(__doc__)
    form.add_argument("network")
    form.add_argument("arrivals")
    form.add_argument("plan", nargs="?", help="the fixed plan at which the search begins")
    form.add_argument("--tries", type=int, default=300, metavar="N", help="how many plans are tried (300)")
    form.add_argument("--minutes", type=float, metavar="M", help="after which no further plan is tried")
    form.add_argument("--seed", type=int, default=1, help="of the search (1)")
    form.add_argument("--judge", choices=("program", "python"), default="program", help="what runs the plans (program)")
    add_draws(form, 3)
    return form


def answer(words: Sequence[str] | None = None) -> str:
    """What the command writes."""
    form = parser()
    options = form.parse_args(words)
    if options.tries < 1 or (options.minutes is not None and not options.minutes > 0):
        form.error("--tries and --minutes are above 0")
    with network_faults(options.network):
        network, given = read_network(options.network), None
        arrivals, options.arrivals = read_arrivals(options.arrivals), [options.arrivals]
        draws = draws_from(options, form)
        if options.plan:
            rows = read_plan(options.plan)
            require_plan(network, options.plan, rows)
            given = plan_from(network, rows)
        scene = Scene(network, Path(options.network).read_text(encoding="utf-8"), draws, link_flows(network, arrivals))
        judge = judge_by_world(scene) if options.judge == "python" else judge_by_program(scene, options.program, options.jobs)
        first, found = search(scene, judge, given, options)
    began = options.plan or f"Webster's cycle of {max(timing.cycle for timing in first_plan(network, scene.flows)[0])} s"
    now = ", ".join(sorted({str(timing.cycle) for timing in found.best}))
    print(f"retime: {first:.0f} vehicle seconds with {began}; {found.delay:.0f} with the best of {found.tries} plans, cycle {now} s", file=sys.stderr)
    return plan_text(rows_of(found.best))


def main() -> None:
    """Runs the command by the words that the process was called with."""
    end(lambda: print(answer(), end=""))


if __name__ == "__main__":
    main()
