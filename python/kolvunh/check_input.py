"""Says how much each phase and node of a network has to carry, and what in its files may make trouble, with what to write.

    ./signal check-input NETWORK.toml ARRIVALS.csv [PLAN.csv]

A line for each node, and a line `warning: ..` for each trouble, the worst first. The load of a link is what comes to its end, carried along the turns,
over what it lets through in green, which is `yield_sat` where it gives way to one that brings somebody; that of a phase is the greatest of its links;
and the saturation of a node is the sum of its phases' loads over the part of a cycle that is not lost, where each green has its greatest length.
Where links are green in several phases, the loads are those of the shortest greens that let through what comes. The files are read as right: what the
program refuses is explained where it refuses it. With --worst nothing is written but one line on standard error, of the worst, where there is any.
The status is 1 where there is a warning, 2 where a file can't be read, and with --worst always 0. Nothing here is proved.
"""

import enum
import itertools
import shlex
import sys
from collections import defaultdict
from collections.abc import Iterator, Sequence
from dataclasses import dataclass
from functools import cached_property

from .arrivals import VEHICLE, Arrival, read_arrivals, require_links
from .commands import Words, end
from .faults import Fault
from .loads import best_loads, link_flows, rate_in, saturation
from .networks import GREAT, MOST_SECONDS, Link, Network, Node, Phase, limits_of, network_faults, read_network
from .plans import PlanRow, read_plan
from .records import plural, quote, records_of, text_of
from .signs import gives_way_in
from .toml_lines import TomlLines

LANE_MOST, LANE_LEAST = 1000, 100  # thousandths of a vehicle a second that one lane hardly lets through, or hardly so few
HOUR = 3600
FULL = 0.895  # saturation, 0.90 as it is written, from which queues grow long
FEW = 0.05  # of what a link lets through: so few are seldom in front of who gives way to them
LEAST_CLEAR = 3  # seconds of all-red in which who is trapped inside a junction leaves it
MOST_COUNT = 20  # an amount up to this is taken for a count of vehicles


class Rank(enum.IntEnum):
    """How much a finding matters: what can hardly be meant, what makes queues grow, and what may be dangerous or dear on the street."""

    MEANT_OTHERWISE = 0
    GROWS = 1
    LOOK_AT = 2


# Where something is: `arrivals` or `plan` and the number of a row from 0, or a path of the network file
Where = tuple[str | int, ...]
Said = tuple[Where, str]


@dataclass(frozen=True)
class Finding:
    """What may make trouble and where, with what to write."""

    rank: Rank
    where: Where
    words: str


@dataclass(frozen=True)
class Inputs:
    """The two files of a run, and a fixed plan where there is one; `flows` has what comes to the end of each link a second."""

    network: Network
    arrivals: Sequence[Arrival]
    flows: dict[str, float]
    plan: Sequence[PlanRow] = ()
    files: tuple[str, str, str] = ("", "", "")

    def place_of(self, where: Where) -> str:
        """`FILE:LINE` of where something is; the file alone where it has no such line."""
        kind, *row = where
        if kind not in ("arrivals", "plan"):
            return at(self.files[0], self._toml.line(where))
        lines = self._arrival_lines if kind == "arrivals" else self._plan_lines
        return at(self.files[1 if kind == "arrivals" else 2], lines[int(row[0])] if int(row[0]) < len(lines) else None)

    @cached_property
    def _toml(self) -> TomlLines:
        return TomlLines(text_of(self.files[0]))

    @cached_property
    def _arrival_lines(self) -> list[int]:
        return lines_of_rows(self.files[1])

    @cached_property
    def _plan_lines(self) -> list[int]:
        return lines_of_rows(self.files[2])


def at(file: str, line: int | None) -> str:
    """`FILE:LINE`, or the file alone."""
    return f"{file}:{line}" if line else file


def lines_of_rows(file: str) -> list[int]:
    """The line of each row of a file of records after its header."""
    return [row.line for row in records_of(text_of(file))][1:]


def node_path(network: Network, node: Node, *more: str | int) -> Where:
    """The path of a node in the network file, or of what is in it."""
    return ("node", network.nodes.index(node), *more)


def link_path(network: Network, link: Link, *more: str | int) -> Where:
    """The path of a link in the network file, or of what is in it."""
    return ("link", network.links.index(link), *more)


def lane_warnings(inputs: Inputs) -> Iterator[Said]:
    """A `sat` that no lane has: most often one for an hour, or for several lanes. A crossing is no lane, and nothing waits where a link leads out."""
    of_sat: dict[int, list[Link]] = defaultdict(list)
    for link in inputs.network.links:
        if link.walk is None and link.end is not None and not LANE_LEAST <= link.sat <= LANE_MOST:
            of_sat[link.sat].append(link)
    for sat, found in of_sat.items():
        where = link_path(inputs.network, found[0], "sat")
        links = f"link{'s' if len(found) > 1 else ''} {_some([link.name for link in found])}: sat = {sat} is"
        if sat > LANE_MOST:
            words = f"{links} {sat / 1000:g} vehicles a second, {sat * HOUR // 1000} an hour"
            yield where, f"{words}: if {sat} an hour are meant, write sat = {round(sat * 1000 / HOUR)}; if these are several lanes, some 500 for each"
        else:
            words = f"{links} {sat * HOUR / 1000:g} vehicles an hour: is it one every {1000 / sat:g} seconds?"
            yield where, f"{words} A lane lets some 500 through, which is 1800 an hour"


def amount_warnings(inputs: Inputs) -> Iterator[Said]:
    """Amounts that look like counts of vehicles, and more in a second than its link lets through in a cycle."""
    amounts = [arrival.amount for arrival in inputs.arrivals]
    if amounts and max(amounts) <= MOST_COUNT:
        words = f"all amounts are at most {max(amounts)}, thousandths of a vehicle: if they count vehicles"
        more = f"write {VEHICLE} for each, as {VEHICLE * max(amounts)} for {max(amounts)}"
        yield ("arrivals", amounts.index(max(amounts))), f"arrivals: {words}, {more}"
    elif amounts and len({arrival.second for arrival in inputs.arrivals}) == 1 and any(amount % VEHICLE for amount in amounts):
        words = f"all come in second {inputs.arrivals[0].second}, and {amounts[0]} is {amounts[0] / VEHICLE:g} of a vehicle: if these are volumes of an hour"
        yield ("arrivals", 0), f"arrivals: {words}, write a row with {VEHICLE} for each vehicle, in the second in which it comes"
    for link, of_link in itertools.groupby(sorted(inputs.arrivals, key=lambda arrival: arrival.link), lambda arrival: arrival.link):
        most = max(of_link, key=lambda arrival: arrival.amount)
        if most.amount >= 20 * VEHICLE:
            words = f"{most.amount / VEHICLE:g} vehicles enter in second {most.second} alone"
            more = "if they come in an interval, write a row for each second in which one comes"
            yield ("arrivals", inputs.arrivals.index(most)), f"link {link}: {words}: {more}"


def time_warnings(inputs: Inputs) -> Iterator[Said]:
    """Arrivals at or past the end of the run, a run without any, and one with as many rounds as seconds are meant."""
    run, arrivals = inputs.network.run, inputs.arrivals
    if not arrivals:
        yield ("arrivals", 0), "arrivals: there are none: nobody enters"
        return
    late, last = [arrival for arrival in arrivals if arrival.second >= run.seconds], max(arrival.second for arrival in arrivals)
    if late:
        rounds = last // run.step + 1
        most = min(limits_of(inputs.network.version).rounds, MOST_SECONDS // run.step)
        fewer = f"a run has at most {most} rounds, {most * run.step} seconds: take fewer arrivals"
        third = f", or write version = 3, with {GREAT.rounds} rounds at most" if inputs.network.version != 3 else ""
        how = f"write rounds = {rounds} or more" if rounds <= most else fewer + third
        words = f"{len(late)} of {plural(len(arrivals), 'row')} come at second {run.seconds}, the end of the run, or later, and never enter"
        yield ("arrivals", arrivals.index(late[0])), f"arrivals: {words}: {how}"
    if run.step > 1 and last < run.rounds <= 1.1 * last:
        words = f"rounds = {run.rounds} of {run.step} seconds are {run.seconds} seconds, and the last vehicle enters in second {last}"
        yield ("run", "rounds"), f"{words}: if {run.rounds} seconds are meant, write rounds = {-(-run.rounds // run.step)}"


def load_warnings(inputs: Inputs, node: Node) -> Iterator[Said]:
    """A node that has to carry about what it can, or more."""
    full = saturation(node, best_loads(inputs.network, node, inputs.flows))
    if full >= FULL:
        more = "more comes than can leave" if full >= 1 else "queues will be long"
        yield node_path(inputs.network, node), f"{node.name} is at {full:.2f} of saturation: {more}"


def phase_warnings(inputs: Inputs, node: Node) -> Iterator[Said]:
    """A phase that serves nobody in its least green, whose wait can't be kept, or that may be left out while somebody waits."""
    yield from wait_warnings(inputs.network, node)
    yield from green_warnings(inputs.network, node, best_loads(inputs.network, node, inputs.flows))


def street_warnings(inputs: Inputs, node: Node) -> Iterator[Said]:
    """What may be dangerous on the street, or serve nobody."""
    yield from crossing_warnings(inputs.network, node)
    yield from merging_warnings(inputs.network, node)
    yield from trapped_warnings(inputs.network, node)
    yield from walk_warnings(inputs.network, node)


def wait_warnings(network: Network, node: Node) -> Iterator[Said]:
    """A `wait` that is shorter than the red of its phase can be: then there is no plan at times, and queues grow."""
    for number, phase in enumerate(node.phases):
        red = longest_red(node, number)
        if phase.wait < red:
            words = f"wait = {phase.wait} is shorter than the longest red, {red}: where no order keeps it, there is no plan"
            yield node_path(network, node, "phase", number, "wait"), f"{node.name}: phase {number}: {words}; write wait = {red + 1} or more"


def longest_red(node: Node, number: int) -> int:
    """The seconds from the end of a green of a phase to its next one, where all others have their greatest greens."""
    others = [phase for place, phase in enumerate(node.phases) if place != number]
    own = node.phases[number]
    return own.yellow + own.clear + sum(phase.greatest + phase.yellow + phase.clear for phase in others)


def green_warnings(network: Network, node: Node, loads: Sequence[float]) -> Iterator[Said]:
    """A phase that may be left out while others are served, and one whose least green serves no queue."""
    for number, phase in enumerate(node.phases):
        where = node_path(network, node, "phase", number)
        if phase.skip and loads[number] > 0 and network.run.recall is None:
            words = "skip = true: a plan may leave it out time after time, and nothing bounds how long its vehicles wait"
            of_all = " of all its phases" if all(each.skip for each in node.phases) else ""
            more = f"write recall or age in [run] or a weight of its links, or leave skip out{of_all}"
            yield (*where, "skip"), f"{node.name}: phase {number}: {words}; {more}"
        if phase.least <= phase.loss:
            words = f"least = {phase.least} is not above loss = {phase.loss}: a green of the least length serves no queue"
            yield (*where, "least"), f"{node.name}: phase {number}: {words}; write least = {phase.loss + 1} or more"


def crossing_warnings(network: Network, node: Node) -> Iterator[Said]:
    """Links that are never green together and in no conflict, though they seem to cross. Where they do, nothing is proved of them."""
    conflicts = {frozenset((pair.a, pair.b)) for pair in network.conflicts}
    found = [
        f"{one.name} and {other.name}"
        for first, second in itertools.combinations(node.phases, 2)
        for one, other in itertools.product(_links(network, first), _links(network, second))
        if _may_cross(network, conflicts, one, other, first, second)
    ]
    if found:
        words = f"never green together and in no conflict are {_some(found)}"
        yield node_path(network, node), f"{node.name}: {words}; for each two that cross write [[conflict]] with a and b"


def _links(network: Network, phase: Phase) -> list[Link]:
    """The links that have their home in a phase, without crossings."""
    links = (network.link_named(name) for name in phase.links)
    return [link for link in links if link is not None and link.walk is None]


def _may_cross(network: Network, conflicts: set[frozenset[str]], one: Link, other: Link, first: Phase, second: Phase) -> bool:
    """Whether two links of two phases lead into one exit, or each is in conflict with most other links of the other's phase."""
    if frozenset((one.name, other.name)) in conflicts or is_one_approach(one, other):
        return False
    if network.greens_of[one.name] & network.greens_of[other.name]:
        return False
    return _has_common_exit(one, other) or all(
        2 * sum(frozenset((link.name, each.name)) in conflicts for each in others) > len(others) > 0
        for link, others in (
            (one, [link for link in _links(network, second) if link != other]),
            (other, [link for link in _links(network, first) if link != one]),
        )
    )


def _has_common_exit(one: Link, other: Link) -> bool:
    return bool({turn.exit for turn in one.turns} & {turn.exit for turn in other.turns})


def is_one_approach(one: Link, other: Link) -> bool:
    """Whether two links come from one node, or both from outside where the name of one begins with that of the other, as those of a road and its turn."""
    if one.start is not None or other.start is not None:
        return one.start == other.start
    return one.name.startswith(other.name) or other.name.startswith(one.name)


def merging_warnings(network: Network, node: Node) -> Iterator[Said]:
    """Links of a network of version 3 that are green together and of which one leads into an exit of the other alone, where neither gives way."""
    if network.version != 3:
        return
    found = [
        f"{a.name} and {b.name}"
        for a, b in itertools.combinations(network.links_to(node.name), 2)
        if min(len(a.turns), len(b.turns)) == 1
        and _has_common_exit(a, b)
        and not (is_one_approach(a, b) or a.name in b.yields or b.name in a.yields)
        and network.greens_of[a.name] & network.greens_of[b.name]
    ]
    if found:
        words = f"green together and into one exit are {_some(found)}, and neither gives way"
        more = "for each two that cross write yields in one of them, or a [[conflict]] and no common green"
        yield node_path(network, node), f"{node.name}: {words}; {more}"


def trapped_warnings(network: Network, node: Node) -> Iterator[Said]:
    """A phase in which somebody gives way, and whose follower may be left out: who waits inside the junction as its green ends is trapped there."""
    for number, phase in enumerate(node.phases):
        after = (number + 1) % len(node.phases)
        waits = [link.name for link in network.links_to(node.name) if gives_way_in(network, link, number)]
        if waits and node.phases[after].skip and phase.clear < LEAST_CLEAR:
            words = f"{', '.join(waits)} may wait inside the junction as its green ends, and phase {after}, which follows, may be left out"
            yield node_path(network, node, "phase", number, "clear"), f"{node.name}: phase {number}: {words}; write clear = {LEAST_CLEAR} or more"


def walk_warnings(network: Network, node: Node) -> Iterator[Said]:
    """A crossing whose walk is over before a queue starts."""
    for link in network.links_to(node.name):
        for number in sorted(network.greens_of[link.name]) if link.walk is not None else ():
            loss = node.phases[number].loss
            if link.walk <= loss:
                words = f"walk = {link.walk} is not above loss = {loss} of phase {number}: who waits there does not go in it"
                yield link_path(network, link, "walk"), f"link {link.name}: {words}; write walk = {loss + 1} or more"


def _some(found: Sequence[str]) -> str:
    """The first of these words, with two dots where there are more."""
    return f"{', '.join(found[:8])}{' ..' if len(found) > 8 else ''}"


def _cycles(inputs: Inputs) -> dict[str, int]:
    """The seconds of the cycle of each node of a fixed plan."""
    cycles: dict[str, int] = defaultdict(int)
    phases: dict[str, tuple[Phase, ...]] = {node.name: node.phases for node in inputs.network.nodes}
    for row in inputs.plan:
        phase = phases[row.node][row.phase]
        cycles[row.node] += row.green + phase.yellow + phase.clear
    return cycles


def _plan_row(inputs: Inputs, node: str) -> Where:
    return "plan", next(number for number, row in enumerate(inputs.plan) if row.node == node)


def plan_warnings(inputs: Inputs) -> Iterator[Said]:
    """A phase with traffic that has no row in a fixed plan, and neighbours whose cycles differ."""
    network, cycles = inputs.network, _cycles(inputs)
    rows = {(row.node, row.phase) for row in inputs.plan}
    for link in network.links:
        if link.end in cycles and inputs.flows[link.name] > 0 and not any((link.end, phase) in rows for phase in network.greens_of[link.name]):
            node, home = network.phase_of[link.name]
            words = f"phase {home} has no row, and {link.name} brings {inputs.flows[link.name] * HOUR / VEHICLE:.0f} an hour, who wait to the end"
            yield _plan_row(inputs, node.name), f"fixed plan: {node.name}: {words}; write one"
    told = set()
    for link in network.links:
        pair = frozenset((link.start, link.end))
        if link.start in cycles and link.end in cycles and cycles[link.start] != cycles[link.end] and pair not in told:
            told.add(pair)
            words = f"{link.start} has a cycle of {cycles[link.start]} seconds and its neighbour {link.end} one of {cycles[link.end]}"
            more = "their offsets hold in the first cycle alone; write greens that make them alike"
            yield _plan_row(inputs, link.start), f"fixed plan: {words}: {more}"


def short_warnings(inputs: Inputs) -> Iterator[Said]:
    """A link that brings more than its greens in a fixed plan let through. Who gives way to few, as to a bus lane, is hardly held up by them."""
    network, cycles = inputs.network, _cycles(inputs)
    in_front = {link.name: inputs.flows[link.name] if inputs.flows[link.name] > FEW * link.sat else 0 for link in network.links}
    greens = {(row.node, row.phase): row.green for row in inputs.plan}
    for link in network.links:
        if link.end not in cycles or link.walk is not None:
            continue
        node, _ = network.phase_of[link.name]
        on = {phase: greens[node.name, phase] for phase in network.greens_of[link.name] if (node.name, phase) in greens}
        served = {phase: max(0, green - node.phases[phase].loss) for phase, green in on.items()}
        cycle, brings = cycles[node.name], inputs.flows[link.name]
        lets = sum(seconds * rate_in(network, link, phase, in_front) for phase, seconds in served.items()) / cycle
        if on and brings > lets:
            hourly = f"{lets * HOUR / VEHICLE:.0f}"
            words = f"{link.name} brings {brings * HOUR / VEHICLE:.0f} an hour, and its {sum(on.values())} of {cycle} seconds let {hourly} through"
            yield _plan_row(inputs, node.name), f"fixed plan: {node.name}: {words}: its queue grows; write a longer green"


def findings(inputs: Inputs) -> list[Finding]:
    """What may make trouble, the worst first, and of one rank in the order of the network."""
    nodes = inputs.network.nodes
    split = "no split: a queue that is longer than what is left of its green gives the green up; write split = true in [run]"
    ranked = (
        (Rank.MEANT_OTHERWISE, (*lane_warnings(inputs), *amount_warnings(inputs), *plan_warnings(inputs), *time_warnings(inputs))),
        (Rank.GROWS, short_warnings(inputs)),
        (Rank.GROWS, itertools.chain.from_iterable(load_warnings(inputs, node) for node in nodes)),
        (Rank.GROWS, itertools.chain.from_iterable(phase_warnings(inputs, node) for node in nodes)),
        (Rank.LOOK_AT, itertools.chain.from_iterable(street_warnings(inputs, node) for node in nodes)),
        (Rank.LOOK_AT, () if inputs.network.run.split else ((("run",), split),)),
    )
    return sorted((Finding(rank, *said) for rank, found in ranked for said in found), key=lambda finding: finding.rank)


def warnings(inputs: Inputs) -> list[str]:
    """The same in words alone."""
    return [finding.words for finding in findings(inputs)]


def warning_lines(inputs: Inputs) -> list[str]:
    """The same in words, each with its file and line."""
    return [f"{inputs.place_of(finding.where)}: {finding.words}" for finding in findings(inputs)]


def require_phases(network: Network, place: str, rows: Sequence[PlanRow]) -> None:
    """Raises a fault where the rows of a fixed plan, read from a place, name a phase that the network has not."""
    phases = {node.name: len(node.phases) for node in network.nodes}
    strange = next((row for row in rows if row.phase >= phases.get(row.node, 0)), None)
    if strange is not None:
        raise Fault(f"{place}: the network has no phase {strange.phase} of node {quote(strange.node)}: is it a plan of another one?")


def inputs_of(network: str, arrivals: str, plan: str | None = None) -> Inputs:
    """What is in the files."""
    net, rows, greens = read_network(network), read_arrivals(arrivals), read_plan(plan) if plan else []
    require_links(net, arrivals, rows)
    require_phases(net, plan or "", greens)
    return Inputs(net, rows, link_flows(net, rows), greens, (str(network), str(arrivals), str(plan or "")))


def say_worst(network: str, arrivals: str, plan: str | None = None) -> None:
    """Writes the worst of what is found in files to standard error, in a line that says how to see all; nothing where nothing is found."""
    with network_faults(network):
        found = warning_lines(inputs_of(network, arrivals, plan))
    if found:
        more = f" (and {len(found) - 1} more)" if len(found) > 1 else ""
        files = shlex.join(filter(None, (network, arrivals, plan)))
        print(f"check-input: {found[0]}{more}: ./signal check-input {files}", file=sys.stderr)


def load_lines(inputs: Inputs) -> list[str]:
    """A line for each node: the load of each phase, and the saturation."""
    found = []
    for node in inputs.network.nodes:
        loads = best_loads(inputs.network, node, inputs.flows)
        phases = ", ".join(f"phase {number} {load:.2f}" for number, load in enumerate(loads))
        found.append(f"{node.name}: {phases}; saturation {saturation(node, loads):.2f}")
    return found


def work() -> int:
    """Writes the loads and the warnings."""
    parser = Words(__doc__, prog="./signal check-input")
    parser.add_argument("network", metavar="NET")
    parser.add_argument("arrivals", metavar="ARR")
    parser.add_argument("plan", metavar="PLAN", nargs="?")
    parser.add_argument("--worst", action="store_true", help="write one line on standard error, of the worst alone")
    options = parser.parse_args()
    if options.worst:
        say_worst(options.network, options.arrivals, options.plan)
        return 0
    with network_faults(options.network):
        inputs = inputs_of(options.network, options.arrivals, options.plan)
        lines, found = load_lines(inputs), warning_lines(inputs)
    print("\n".join([*lines, *(f"warning: {warning}" for warning in found)]))
    return 1 if found else 0


def main() -> None:
    """Runs the command."""
    end(work)


if __name__ == "__main__":
    main()
