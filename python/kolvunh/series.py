"""Controllers under which a network is run, with the keys of its [run] that they set and the fixed plan that they take.

A series is written `turns`, `actuate`, `fixed:plan=FILE` or an order of kolvunh.orders by which `replay` runs the nodes; keys of [run] follow
after the colon, as `actuate:act_step=1,gap=3`. A key without a value, as `turns:hold=`, is left out of the file.
"""

import os
import random
from collections import Counter
from collections.abc import Iterable, Sequence
from dataclasses import dataclass, field
from itertools import product
from pathlib import Path
from tempfile import TemporaryDirectory

from .arrivals import VEHICLE, Arrival, arrivals_text
from .faults import Fault
from .measures import Study, study_of
from .networks import Run, read_network
from .orders import BACKWARD, RANDOM, READ_FIRST, history_text
from .plans import read_plan
from .programs import Report, run
from .records import Place, quote
from .reports import Totals

PLAN = "plan"  # the key of a series that names a file


@dataclass(frozen=True)
class Controller:
    """A command of the program that runs a network: whether it takes a fixed plan, and the order of the nodes that it replays."""

    command: str
    takes_plan: bool = False
    order: str | None = None


CONTROLLERS = {
    "turns": Controller("turns"),
    "actuate": Controller("actuate"),
    "fixed": Controller("fixed", takes_plan=True),
    **{order: Controller("replay", order=order) for order in (BACKWARD, READ_FIRST, RANDOM)},
}
KEYS = frozenset(Run.__dataclass_fields__)


@dataclass(frozen=True)
class Series:
    """A controller with the keys that it sets and its plan; `name` is as it was written."""

    name: str
    controller: Controller
    keys: dict[str, str] = field(default_factory=dict)
    plan: Place | None = None


def keys_of(series: str) -> dict[str, str]:
    """What a series sets after its colon."""
    _, _, words = series.partition(":")
    return {key: value for key, _, value in (word.partition("=") for word in words.split(",") if word)}


def series_of(text: str) -> Series:
    """The series that is written so."""
    name = text.partition(":")[0]
    keys = keys_of(text)
    plan = keys.pop(PLAN, None)
    if name not in CONTROLLERS:
        raise Fault(f"{quote(text)} is no series: it begins with one of {', '.join(CONTROLLERS)}, and key=value may follow after a colon")
    strange = next((key for key in keys if key not in KEYS), None)
    if strange is not None:
        raise Fault(f"{quote(text)}: {quote(strange)} is no key of [run]: write one of {', '.join(sorted(KEYS))}")
    controller = CONTROLLERS[name]
    if controller.takes_plan != bool(plan):
        wanted = f"write {name}:plan=FILE" if controller.takes_plan else f"{name} takes no plan"
        raise Fault(f"{quote(text)}: {wanted}")
    if plan:
        read_plan(plan)
    return Series(text, controller, keys, plan)


def network_text(text: str, keys: dict[str, str]) -> str:
    """The text of a network file with these keys of its [run], and those of its own that have other names."""
    lines = text.splitlines()
    begin = next((at for at, line in enumerate(lines, 1) if line.strip().startswith("[run]")), None)
    if begin is None:
        raise Fault("no line of the network is [run], so none of its keys can be set")
    end = next((at for at, line in enumerate(lines[begin:], begin) if line.startswith("[")), len(lines))
    kept = [line for line in lines[begin:end] if line.partition("=")[0].strip() not in keys]
    return "\n".join([*lines[:begin], *(f"{key} = {value}" for key, value in keys.items() if value), *kept, *lines[end:], ""])


def rates_of(arrivals: Sequence[Arrival]) -> tuple[dict[str, float], int]:
    """Vehicles a second on each link on the average, and for how many seconds they come."""
    if not arrivals:
        raise Fault("there are no arrivals")
    seconds = 1 + max(arrival.second for arrival in arrivals)
    amounts: Counter[str] = Counter()
    for arrival in arrivals:
        amounts[arrival.link] += arrival.amount
    return {link: amount / VEHICLE / seconds for link, amount in amounts.items()}, seconds


def draw_arrivals(rates: dict[str, float], seconds: int, demand: float, seed: int) -> str:
    """A file of arrivals at a demand, the same for the same seed."""
    draw, drawn = random.Random(f"{demand} {seed}"), []
    for second, (link, rate) in product(range(seconds), rates.items()):
        count = int(rate * demand + draw.random())
        drawn += [Arrival(second, link, VEHICLE * count)] if count else []
    return arrivals_text(drawn)


def draws_of(arrivals: Sequence[Arrival], known_seconds: int, demand: float, seeds: Iterable[int]) -> list[str]:
    """A text of arrivals for each seed, at the rates of these; as long as they come, and no longer than files of the network may say."""
    rates, until = rates_of(arrivals)
    return [draw_arrivals(rates, min(until, known_seconds), demand, seed) for seed in seeds]


def report_under(series: Series, network: str, arrivals: str, seed: int, program: Sequence[str] | None) -> Report:
    """What the program answers of the texts of a network and its arrivals under a series; a random order of nodes is that of the seed."""
    with TemporaryDirectory() as folder:
        files = [Path(folder) / name for name in ("network.toml", "arrivals.csv", "third.csv")]
        files[0].write_text(network_text(network, series.keys) if series.keys else network, encoding="utf-8")
        files[1].write_text(arrivals, encoding="utf-8")
        third: list[str | os.PathLike[str]] = [series.plan] if series.plan else []
        if series.controller.order:
            files[2].write_text(history_text(read_network(files[0]), series.controller.order, seed), encoding="utf-8")
            third = [files[2]]
        answer = run([series.controller.command, *files[:2], *third], program)
    if answer.status:
        why = f"{answer.refusal}{''.join(f'; {line}' for line in answer.explanation)}"
        raise Fault(f"{series.name} with draw {seed}: {why}")
    return answer


def totals_under(series: Series, network: str, arrivals: str, seed: int, program: Sequence[str] | None = None) -> Totals:
    """The totals of such a run."""
    return report_under(series, network, arrivals, seed, program).table("totals")[0]


def delay_each(totals: Totals) -> float:
    """The delay in seconds for each vehicle that entered."""
    return totals.delay / max(1, totals.entered)


def study_under(network: Place, arrivals: Place, series: str = "turns", program: Sequence[str] | None = None) -> Study:
    """The study of a run of these files under a series, as `fixed:plan=today.csv`."""
    texts = (Path(file).read_text(encoding="utf-8") for file in (network, arrivals))
    answer = report_under(series_of(series), *texts, 0, program)
    with TemporaryDirectory() as folder:
        report = Path(folder) / "report.csv"
        report.write_text(answer.text, encoding="utf-8")
        return study_of(read_network(network), arrivals, report)
