"""Makes a network file and arrivals of SUMO's network and of those who drive and walk there.

    tools/sumo/from_sumo.py NET.net.xml ROUTES DIR [--turns FILE] [--counts FILE] [--no-walks] [--seed N] [--report REPORT]
    tools/sumo/from_sumo.py NET.net.xml .. --survey [--no-walks]

ROUTES has vehicles, trips, flows, routes and persons, as .rou.xml; files may be packed by gzip. With --turns, shares of turns as
jtrrouter takes them, flows need no end; with --counts, `entered` or `count` of edges by intervals, ROUTES may be `-`. Turns are drawn
from the number N.

A signal is a node where its greens are 2 to 4 phases; any other is passed as if it were not there. A link is the lanes of an edge that
are green in the same phases and give way in the same ones, from the signal before it. A crossing is a link on which people walk, and is
left out by --no-walks. Conflicts, and who gives way, are those of SUMO's junctions. What a network file can't say, and what is done in
its place, is told on standard error, a line each.

Writes DIR/net.toml, DIR/arrivals.csv, DIR/places.csv for to_sumo.py, and DIR/names.csv, which says for each node, phase and link what
it is in SUMO. With --report the greens of a report on DIR/net.toml become DIR/report.add.xml, signal programs for NET.net.xml.

With --survey each signal has a line for each loss, and for why it is no node; nothing is written, and the exit status is 1 where one is
none. Nothing here is proved.
"""

import sys
from argparse import Namespace
from collections import Counter
from collections.abc import Iterator, Mapping
from pathlib import Path

from ..commands import Words, end
from ..faults import Fault
from ..networks import MOST_SECONDS, read_tables
from .demand import Demand
from .drafts import Draft, names_in, write_draft
from .groups import Loss, Node
from .layout import read_greens
from .signals import state_at
from .streets import Streets
from .to_sumo import element, report_program


def nodes_of(streets: Streets, walks: bool = True) -> tuple[dict[str, Node], dict[str, list[Loss]]]:
    """The signals that are nodes, and for each signal that is none why."""
    nodes, reasons = {}, {}
    for name, programs in streets.programs.items():
        moves = streets.junctions.movements[name]
        if moves:
            crossings = {move: streets.lengths[move.lane] for move in streets.junctions.crossings[name] if walks}
            node = Node(name, moves, programs[-1].states, streets.junctions, crossings)
            if node.reasons():
                reasons[name] = node.reasons()
            else:
                nodes[name] = node
    return nodes, reasons


def lines_on(streets: Streets, nodes: Mapping[str, Node], reasons: Mapping[str, list[Loss]]) -> Iterator[str]:
    """What is told of the signals, a line each."""
    for name, programs in streets.programs.items():
        if len(programs) > 1:
            words = f"it has {len(programs)} programs: the last one, {programs[-1].name}, is taken, which SUMO shows"
            yield f"signal {name}: {words}"
        for loss in reasons.get(name, []):
            yield f"signal {name} is no node, and is passed as if it were not there: {loss.words}"
        for loss in nodes[name].losses if name in nodes else []:
            yield f"signal {name}: {loss.words}"
    if streets.left_hand:
        yield "traffic keeps left: the network is the same, but to_sumo.py would lay it out for traffic that keeps right"


def survey(path: Path, walks: bool) -> Counter[str]:
    """Tells what can't be said of the signals of a network, and counts them by kinds."""
    streets = Streets(path)
    nodes, reasons = nodes_of(streets, walks)
    for line in lines_on(streets, nodes, reasons):
        print(line)
    kinds = Counter(signals=len(nodes) + len(reasons))
    for node in nodes.values():
        kinds["with losses" if node.losses else "wholly"] += 1
        kinds["wholly in version 2"] += node.is_plain()
        kinds.update({f"lost: {loss.kind}" for loss in node.losses})
    for losses in reasons.values():
        kinds["no node"] += 1
        kinds[f"no node: {losses[0].kind}"] += 1
    return kinds


def survey_line(kinds: Counter[str]) -> str:
    """The counts of a survey in a line."""
    front = f"{kinds['signals']} signals: {kinds['wholly']} wholly ({kinds['wholly in version 2']} of them in version 2), "
    front += f"{kinds['with losses']} with losses, {kinds['no node']} no nodes"
    return "; ".join([front, *(f"{kind} {kinds[kind]}" for kind in sorted(kinds) if ": " in kind)])


def demand_of(options: Namespace, streets: Streets) -> Demand:
    """The vehicles and people of the files that are named."""
    demand = Demand(streets, MOST_SECONDS, options.seed)
    if options.turns:
        demand.read_turns(options.turns)
    if options.counts:
        demand.read_counts(options.counts)
    if str(options.routes) != "-":
        demand.read_routes(options.routes)
    elif not options.counts:
        raise Fault("ROUTES is `-`, and no --counts says who drives")
    return demand


def report_programs(nodes: Mapping[str, Node], folder: Path, greens: Mapping[str, list[tuple[int, int, int]]]) -> str:
    """Programs of SUMO's own network that show the greens of a report."""
    network, found = read_tables(folder / "net.toml"), ""
    shown = shown_states(folder)
    end = network["run"]["rounds"] * network["run"]["step"]
    for plan in network["node"]:
        name, states = shown[plan["name"]]
        walks = nodes[name].walks
        rows = greens[plan["name"]]
        found += report_program(name, (state_at(plan["phase"], states, rows, second, walks) for second in range(end + 1)))
    return element("additional", "\n" + found)


def shown_states(folder: Path) -> dict[str, tuple[str, list[str]]]:
    """Of each node of a folder: its signal in SUMO, and what that shows in each of its phases."""
    names = names_in(folder)
    states = names["phase"]
    return {name: (sumo, [states[f"{name} {n}"] for n in range(4) if f"{name} {n}" in states]) for name, sumo in names["node"].items()}


def tell(lines: Iterator[str], counts: Mapping[str, int]) -> None:
    """Writes on standard error what is told, a line each, with its count where it has one."""
    for line in (*lines, *(f"{words}: {count}" if count else words for words, count in counts.items())):
        print(line, file=sys.stderr)


def imported(options: Namespace) -> None:
    """Writes the files of an imported network."""
    streets = Streets(options.network)
    nodes, reasons = nodes_of(streets, not options.no_walks)
    if not streets.programs:
        raise Fault(f"{options.network}: the network has no signals")
    demand = demand_of(options, streets)
    draft = Draft(streets.edges, streets.places, nodes, demand.vehicles, demand.walkers)
    if not draft.links:
        tell(lines_on(streets, nodes, reasons), {})
        raise Fault(f"{options.network}: no vehicle passes a signal that is a node")
    write_draft(draft, options.folder)
    tell(lines_on(streets, nodes, reasons), {**demand.told, **draft.told})
    if options.report:
        programs = report_programs(nodes, options.folder, read_greens(options.report))
        (options.folder / "report.add.xml").write_text(programs, encoding="utf-8")


def work() -> int:
    """Writes the files, or the survey."""
    parser = Words(__doc__)
    parser.add_argument("network", type=Path)
    parser.add_argument("routes", type=Path, nargs="?")
    parser.add_argument("folder", type=Path, nargs="?")
    parser.add_argument("more", type=Path, nargs="*", help="further networks of a survey")
    parser.add_argument("--survey", action="store_true", help="only say what does not fit")
    parser.add_argument("--turns", type=Path, help="shares of turns, as jtrrouter takes them")
    parser.add_argument("--counts", type=Path, help="counts of edges by intervals")
    parser.add_argument("--no-walks", action="store_true", help="leave crossings out")
    parser.add_argument("--seed", type=int, default=1, help="the number from which turns are drawn")
    parser.add_argument("--report", type=Path)
    options = parser.parse_args()
    if options.survey:
        kinds = Counter[str]()
        for path in filter(None, (options.network, options.routes, options.folder, *options.more)):
            kinds.update(survey(path, not options.no_walks))
        print(survey_line(kinds))
        return 1 if kinds["no node"] else 0
    if options.folder is None or options.more:
        parser.error("ROUTES and DIR are wanted, or --survey")
    imported(options)
    return 0


def main() -> None:
    """Runs the command."""
    end(work)


if __name__ == "__main__":
    main()
