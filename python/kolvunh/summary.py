"""A run in a dozen lines for people, in vehicles and seconds.

    ./signal summary NET ARR [REPORT]

Without a report `turns` is run. The lines are from the measures of docs/FORMATS.md, "Measures". Nothing here is proved.
"""

import sys
from collections.abc import Sequence
from pathlib import Path
from tempfile import TemporaryDirectory

from .check_input import say_worst
from .commands import Words, end
from .arrivals import VEHICLE
from .lanes import lanes_beside
from .measure_values import Measures, quotient
from .measures import Study, study_of
from .networks import Network, network_faults, read_network
from .programs import run
from .records import plural


def few(amount: float) -> str:
    """A number with at most one digit after the point."""
    return f"{amount:.1f}".removesuffix(".0")


def run_report(network: str, arrivals: str, report: Path) -> None:
    """Runs the command `turns`, and keeps its report in a file. That the program is not proved goes to standard error."""
    answer = run(["turns", network, arrivals])
    if answer.notice:
        print(answer.notice, file=sys.stderr)
    answer.require_answer()
    report.write_text(answer.text, encoding="utf-8")


def _worst(rows: Sequence[Measures]) -> str:
    waited = sorted((row for row in rows if row.delay_each is not None), key=lambda row: row.delay_each, reverse=True)
    return ", ".join(f"{row.name} {few(row.delay_each)} s ({row.level})" for row in waited[:3]) or "no vehicle came to a stop line"


def _longest(rows: Sequence[Measures], study: Study) -> str:
    longest = max(rows, key=lambda row: row.queue_most)
    if not longest.queue_most:
        return "there is none"
    second = study.flows[longest.name].queue.index(round(longest.queue_most * VEHICLE))
    back = f", {longest.metres_most:.0f} m back in its longest lane" if longest.metres_most is not None else ""
    return f"{few(longest.queue_most)} vehicles on {longest.name}{back}, first after {second} seconds"


def _lengths(row: Measures) -> str:
    greens = f"{row.green_mean:.0f} s on the average, {row.green_least} to {row.green_most}" if row.green_mean is not None else "none ended"
    return greens + (f"; cycles {row.cycle_mean:.0f} s, {row.cycle_least} to {row.cycle_most}" if row.cycle_mean is not None else "")


def _vehicles(study: Study) -> str:
    entered, flows = study.entries(0, study.end), study.flows.values()
    over = {turn.exit for flow in flows if flow.link.walk is not None for turn in flow.link.turns}
    left = sum(flow.left[-1] for flow in flows if flow.link.end is None and flow.link.name not in over)
    return f"{few(entered / VEHICLE)} came in, {few(left / VEHICLE)} left, {few((entered - left) / VEHICLE)} on the way at the end"


def lines_of(network: Network, study: Study) -> list[tuple[str, str]]:
    """The lines of a summary: what each is of, and what it says."""
    (whole,) = study.table("network")
    nodes, links, whole_run = study.table("node"), study.table("link"), network.run
    each, stopped = whole.delay_each or 0, quotient(whole.stopped, whole.vehicles) or 0
    size = f"{plural(len(network.nodes), 'node')}, {plural(len(network.links), 'link')}"
    lines = [
        ("network", f"{size}; {whole_run.seconds} s in rounds of {whole_run.step} s"),
        ("vehicles", _vehicles(study)),
        ("delay", f"{few(whole.delay)} vehicle seconds, {few(whole.trip_delay or 0)} s for each vehicle that came in"),
        ("stop lines", f"{few(each)} s at each, level of service {whole.level or '-'}; {stopped:.0%} of the vehicles stop"),
        ("worst links", _worst(links)),
        ("worst nodes", _worst(nodes)),
        ("queue", f"the longest: {_longest(links, study)}"),
        ("all queues", f"{few(whole.queue_50)} vehicles half of the time, {few(whole.queue_95)} or less in 95 of 100 seconds"),
        ("greens", _lengths(whole)),
        ("failures", f"{whole.failures} of {plural(whole.greens, 'green')} ended with a queue that stood since the green began"),
        ("on green", f"{whole.on_green or 0:.0%} of the vehicles come on green, platoon ratio {whole.platoon_ratio or 0:.2f}"),
    ]
    if whole.persons:
        lines.insert(2, ("on foot", f"{few(whole.persons)} came to a crossing, and waited {few(whole.person_delay_each or 0)} s each"))
    if whole.plans is not None:
        missed = f"{whole.none} of them `none`: no order kept the longest waits" if whole.none else "an order was found for each"
        lines.append(("plans", f"{whole.plans}, {missed}"))
    return lines


def parser_of() -> Words:
    """What the command takes."""
    parser = Words(__doc__)
    parser.add_argument("network")
    parser.add_argument("arrivals")
    parser.add_argument("report", nargs="?", help="a report of this network and these arrivals; without one `turns` is run")
    return parser


def answer(words: Sequence[str] | None = None) -> str:
    """What the command writes."""
    options = parser_of().parse_args(words)
    with TemporaryDirectory() as folder:
        report = Path(options.report or Path(folder) / "report.csv")
        if not options.report:
            run_report(options.network, options.arrivals, report)
        with network_faults(options.network):
            network = read_network(options.network)
            study = study_of(network, options.arrivals, report, lanes=lanes_beside(network, options.network))
            lines = lines_of(network, study)
    return "".join(f"{name:12}{line}\n" for name, line in lines)


def main() -> None:
    """Runs the command by the words that the process was called with."""
    end(work)


def work() -> None:
    """Writes the answer, and the worst of what `check-input` finds."""
    print(answer(), end="", flush=True)
    options = parser_of().parse_args()
    say_worst(options.network, options.arrivals)


if __name__ == "__main__":
    main()
