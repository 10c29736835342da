"""Draws what the program writes: greens as text, and a street, queues or points as SVG on standard output.

    tools/draw.py greens NET REPORT [--links]             # a line for each phase of each node, `#` is a second of green
    tools/draw.py street NET REPORT NODE=METRES NODE=METRES .. [--queues QUEUES] > street.svg
    tools/draw.py queues QUEUES [LINK ..] > queues.svg    # the longest six where no link is named
    tools/draw.py points POINTS [--across LABEL] [--up LABEL] > points.svg
    tools/draw.py table POINTS [--of SERIES]              # a table in Markdown: a row for each series, a column for each x

`street` is a time-space diagram: time to the right, the street upwards, in the order of its nodes. Beside each node is what
its signal shows to the street, red or green: above its place to those who go up, below to those who go down. With the
queues that the command `queues` writes the lines between are what the links carry, else the begin and the end of each
green. `--from SECOND` and `--to SECOND` draw a window of time, `--title WORDS` has words above the picture, and `greens --ruler`
the seconds in a line above. Where a link of a node is green in several phases, gives way or is a crossing, and with `--links` at each node,
`greens` has a line for each link too: `#` is green, `+` green beside a green link to which it gives way, and `-` its yellow, or the seconds in
which who walks may still be on the crossing. POINTS is a CSV with the header `series,x,y` or `series,x,y,seed`; of points of one series with one x the mean is drawn,
with a bar of one standard deviation to either side. `table` has the same as numbers; with `--of` it has besides by how many
hundredths this series is below each other one, point by point in the order of the file: mean, standard deviation, from where to where,
and at how many points it is above. Nothing here is proved.
"""

import argparse
import contextlib
import itertools
import math
import statistics
from collections import defaultdict
from collections.abc import Iterable, Sequence
from pathlib import Path
from xml.sax.saxutils import escape

from .commands import Words, end as end_command
from .faults import Fault
from .networks import Link, Network, network_faults, read_network
from .queues import Queues, read_queues
from .records import Place, quote, rows_of, text_of
from .reports import Green, Records, read_report
from .signs import has_overlaps, lights_of

Span = tuple[int, int]

COLOURS = ("#0072b2", "#d55e00", "#009e73", "#cc79a7", "#e69f00", "#56b4e9")
SECONDS = "seconds since the begin of the run"
GREEN, RED = "#009e73", "#e8a58f"
WIDE, HIGH, LEFT, RIGHT, TOP, BOTTOM = 960, 400, 90, 20, 46, 50
WITHIN = 'clip-path="url(#within)"'


class Chart:
    """An SVG with an axis up from 0 and one across from `least_x`, to given bounds; x and y are in the units of the axes."""

    def __init__(self, most_x: float, most_y: float, across: str, up: str, least_x: float = 0, title: str = "") -> None:
        self.least_x, self.most_x, self.most_y = least_x, most_x if most_x > least_x else least_x + 1, most_y or 1
        self.parts: list[str] = []
        self.text(LEFT + self._width() / 2, HIGH - 10, across, "middle")
        self.text(LEFT, 16, up, "start")
        self.text(WIDE - RIGHT, 16, title, "end")
        for value in ticks(self.most_x, self.least_x):
            self.text(self.x(value), HIGH - BOTTOM + 18, value, "middle")
            self.parts.append(f'<path d="M{self.x(value):.1f} {TOP}V{HIGH - BOTTOM}" stroke="#ddd"/>')

    def _width(self) -> int:
        return WIDE - LEFT - RIGHT

    def x(self, value: float) -> float:
        """The place of a value across, in the units of the picture."""
        return LEFT + (value - self.least_x) / (self.most_x - self.least_x) * self._width()

    def y(self, value: float) -> float:
        """The place of a value up."""
        return HIGH - BOTTOM - value / self.most_y * (HIGH - BOTTOM - TOP)

    def text(self, x: float, y: float, words: object, anchor: str, colour: str = "#222") -> None:
        """Words at a place of the picture, which is their start, middle or end."""
        self.parts.append(f'<text x="{x:.1f}" y="{y:.1f}" text-anchor="{anchor}" fill="{colour}">{escape(str(words))}</text>')

    def up_axis(self) -> None:
        """Values and lines across, from 0 up."""
        for value in ticks(self.most_y):
            self.text(LEFT - 8, self.y(value) + 4, value, "end")
            self.parts.append(f'<path d="M{LEFT} {self.y(value):.1f}H{WIDE - RIGHT}" stroke="#ddd"/>')

    def line(self, points: Iterable[tuple[float, float]], colour: str, width: float = 2.0, opacity: float = 1.0) -> None:
        """A line through points in the units of the axes."""
        way = "L".join(f"{self.x(x):.1f} {self.y(y):.1f}" for x, y in points)
        self.parts.append(
            f'<path d="M{way}" fill="none" stroke="{colour}" stroke-width="{width:.1f}" stroke-opacity="{opacity:.2f}" {WITHIN}/>'
        )

    def box(self, x: float, to_x: float, y: float, shift: int, colour: str) -> None:
        """A bar 6 high at a height, from one x to another as far as they are in the picture, moved down by so much."""
        at, to = (self.x(min(max(place, self.least_x), self.most_x)) for place in (x, to_x))
        self.parts.append(f'<rect x="{at:.1f}" y="{self.y(y) + shift:.1f}" width="{to - at:.1f}" height="6" fill="{colour}"/>')

    def legend(self, names: Iterable[str]) -> None:
        """The names of the colours."""
        at = LEFT
        for name, colour in zip(names, itertools.cycle(COLOURS)):
            self.parts.append(f'<rect x="{at}" y="26" width="14" height="10" fill="{colour}"/>')
            self.text(at + 18, 35, name, "start")
            at += 36 + 8 * len(name)

    def svg(self) -> str:
        """The picture."""
        head = f'<svg xmlns="http://www.w3.org/2000/svg" viewBox="0 0 {WIDE} {HIGH}" font-family="sans-serif" font-size="13">'
        field = f'<rect x="{LEFT}" y="{TOP}" width="{self._width()}" height="{HIGH - BOTTOM - TOP}"/>'
        ground = ['<rect width="100%" height="100%" fill="white"/>', f'<clipPath id="within">{field}</clipPath>']
        return "\n".join([head, *ground, *self.parts, "</svg>"])


def ticks(most: float, least: float = 0) -> list[float]:
    """Round values between the bounds, at most eleven."""
    span = most - least
    step = next(size * 10**power for power in range(-6, 308) for size in (1, 2, 5) if span / (size * 10**power) <= 10)
    values = (number * step for number in range(math.ceil(least / step - 1e-9), int(most / step + 1e-9) + 1))
    return [int(value) if value == int(value) else round(value, 6) for value in values]


def window_of(options: argparse.Namespace, end: int) -> Span:
    """From which second to which is drawn, of a run that ends at a second."""
    begin, last = options.begin, end if options.end is None else min(end, options.end)
    if not 0 <= begin < last:
        raise Fault(f"from second {begin} to {last} there is nothing to draw: the run goes from 0 to {end}")
    return begin, last


def ruler(wide: int, begin: int, end: int) -> list[str]:
    """Two lines: the seconds in steps of ten, and a mark below each fifth second."""
    numbers, marks = "", ""
    for second in range(begin, end):
        marks += "|" if second % 10 == 0 else "'" if second % 5 == 0 else " "
        if second % 10 == 0:
            numbers = f"{numbers:{second - begin}}{second}"
    return [f"{'second':{wide + 2}} {numbers}".rstrip(), f"{'':{wide + 2}} {marks}".rstrip()]


def report_of(options: argparse.Namespace, network: Network) -> Records:
    """The report that is to be drawn, which has to be one of the network."""
    report = read_report(options.report)
    report.require_network(network, options.report)
    return report


def greens_of(report: Records) -> dict[tuple[str, int], list[Span]]:
    """The greens (from, to) of each node and phase in a report."""
    greens = defaultdict(list)
    for green in report.greens:
        greens[green.node, green.phase].append((green.begin, green.end))
    return greens


def phase_line(rows: Iterable[Span], end: int) -> list[str]:
    """A character for each second of the run: `#` in the greens of a phase."""
    line = ["."] * end
    for first, last in rows:
        line[first:last] = "#" * (min(last, end) - first)
    return line


def link_lines(network: Network, node: str, rows: Sequence[Green], end: int) -> dict[str, list[str]]:
    """The same of each link that ends at a node, with its yellow, or the seconds in which who walks may be on it."""
    lights = {link.name: lights_of(network, link, rows) for link in network.links_to(node)}
    green = {name: {second for light in of for second in range(light.begin, light.end)} for name, of in lights.items()}
    lines = {}
    for link in network.links_to(node):
        lines[link.name] = ["."] * end
        for light in lights[link.name]:
            for second in range(light.begin, min(light.clear, end)):
                gives_way = any(second in green[other] for other in link.yields)
                lines[link.name][second] = "-" if second >= light.end else "+" if gives_way else "#"
    return lines


def draw_greens(options: argparse.Namespace) -> str:
    """A line for each phase of each node, and for each link where that says more; each character is a second of the run."""
    network = read_network(options.network)
    report = report_of(options, network)
    greens, rows, end = greens_of(report), report.greens_of(), network.run.seconds
    begin, last_shown = window_of(options, end)
    wide = max(len(node.name) for node in network.nodes)
    lines: list[tuple[str, list[str]]] = []
    for node in network.nodes:
        for phase in range(len(node.phases)):
            lines.append((f"{node.name:{wide}} {phase}", phase_line(greens[node.name, phase], end)))
        if options.links or has_overlaps(network, node.name):
            drawn = link_lines(network, node.name, rows.get(node.name, ()), end)
            lines += [(f"  {link}", line) for link, line in drawn.items()]
    widest = max(len(label) for label, _ in lines)
    above = ruler(widest - 2, begin, last_shown) if options.ruler else []
    return "\n".join([*above, *(f"{label:{widest}} {''.join(line[begin:last_shown])}" for label, line in lines)])


def series_of(queues: Queues) -> dict[str, dict[int, Span]]:
    """The queue and what is on each link at each second that the records of `queues` name."""
    series: dict[str, dict[int, Span]] = defaultdict(dict)
    for change in queues.changes:
        series[change.link][change.second] = change.queue, change.on
    return series


def entries_of(series: dict[int, Span], travel: int, end: int) -> dict[int, int]:
    """What entered a link in each second: what has reached its end has left, or is in the queue."""
    amounts: dict[int, int] = {}
    before = (0, 0)
    for second in range(1, end + 1):
        queue, on = series.get(second, before)
        left = amounts.get(second - travel, 0) - (queue - before[0])
        amounts[second] = on - before[1] + left
        before = queue, on
    return {second - 1: amount for second, amount in amounts.items() if amount > 0}


def link_between(network: Network, start: str, end: str) -> Link | None:
    """A link from one node to another, the first in the file."""
    return next((link for link in network.links if (link.start, link.end) == (start, end)), None)


def street_phase(network: Network, nodes: Sequence[str], place: int, way: int) -> tuple[str, int] | None:
    """The node and phase for those who go the given way along the street, up 1 or down -1; None where nobody does."""
    behind, onward = place - way, place + way
    if 0 <= behind < len(nodes):
        entry = link_between(network, nodes[behind], nodes[place])
        name = entry.name if entry else None
    else:
        exit = link_between(network, nodes[place], nodes[onward])
        shares = [
            (turn.share, link.name) for link in network.links for turn in link.turns if exit and turn.exit == exit.name
        ]
        name = max(shares)[1] if shares else None
    if name is None:
        return None
    node, phase = network.phase_of[name]
    return node.name, phase


def street_of(options: argparse.Namespace, network: Network) -> tuple[list[str], list[float]]:
    """The nodes along the street and their metres, from words NODE=METRES."""
    nodes, metres = [], []
    for pair in options.nodes:
        name, _, at = pair.partition("=")
        if network.node_named(name) is None:
            raise Fault(f"{quote(pair)}: the network has no node {quote(name)}; the form is NODE=METRES")
        try:
            metres.append(float(at))
        except ValueError as fault:
            raise Fault(f"{quote(pair)}: {quote(at)} is no number of metres; the form is NODE=METRES") from fault
        nodes.append(name)
    if len(nodes) < 2:
        raise Fault("a street has two nodes or more")
    return nodes, metres


def draw_street(options: argparse.Namespace) -> str:
    """A time-space diagram."""
    network = read_network(options.network)
    greens, (nodes, metres) = greens_of(report_of(options, network)), street_of(options, network)
    end, series = network.run.seconds, series_of(read_queues(options.queues)) if options.queues else None
    low, margin = min(metres), (max(metres) - min(metres)) / 12
    heights = [at - low + margin for at in metres]
    begin, end = window_of(options, end)
    title = options.title or f"{Path(options.report).name}, {nodes[0]} to {nodes[-1]}"
    chart = Chart(end, max(heights) + margin, SECONDS, "metres", begin, title)
    chart.legend([f"{nodes[0]} to {nodes[-1]}", f"{nodes[-1]} to {nodes[0]}"])
    ways = [(way, place, street_phase(network, nodes, place, way)) for way in (1, -1) for place in range(len(nodes))]
    for way, place, phase in ways:
        onward = place + way
        link = link_between(network, nodes[place], nodes[onward]) if 0 <= onward < len(nodes) else None
        if link is not None:
            amounts = entries_of(series[link.name], link.travel, end) if series else edges_of(greens[phase], end, link.sat)
            amounts = {second: amount for second, amount in amounts.items() if second + link.travel > begin}
            draw_platoons(chart, amounts, (heights[place], heights[onward]), link, COLOURS[0 if way == 1 else 1])
    for way, place, phase in ways:
        draw_signal(chart, greens[phase], heights[place], -7 if way == 1 else 1, end)
    for name, height, at in zip(nodes, heights, metres):
        chart.text(LEFT - 8, chart.y(height) - 2, name, "end")
        chart.text(LEFT - 8, chart.y(height) + 12, f"{at:g} m", "end", "#777")
    return chart.svg()


def edges_of(rows: Iterable[Span], end: int, amount: int) -> dict[int, int]:
    """An amount in the second in which each green begins, and in that in which it ends."""
    return {second: amount for first, last in rows for second in (first, last) if second <= end}


def draw_signal(chart: Chart, rows: Sequence[Span], height: float, shift: int, end: int) -> None:
    """What a signal shows to one way along the street."""
    if rows:
        chart.box(0, end, height, shift, RED)
    for first, last in rows:
        if first < end and last > chart.least_x:
            chart.box(first, last, height, shift, GREEN)


def draw_platoons(chart: Chart, amounts: dict[int, int], heights: tuple[float, float], link: Link, colour: str) -> None:
    """A line for what enters a link in each second; its opacity is the part of what the link lets through."""
    for second, amount in amounts.items():
        until = min(second + link.travel, chart.most_x)
        part = (until - second) / link.travel
        points = [(second, heights[0]), (until, heights[0] + part * (heights[1] - heights[0]))]
        chart.line(points, colour, 2.5, 0.25 + 0.75 * min(1, amount / link.sat))


def draw_queues(options: argparse.Namespace) -> str:
    """The queues of links over time, in vehicles."""
    queues = read_queues(options.queues)
    series, most = series_of(queues), {record.link: record.queue for record in queues.most}
    for link in options.links:
        if link not in most:
            raise Fault(f"{options.queues}: there is no link {quote(link)}")
    links = options.links or [link for link in sorted(most, key=most.get, reverse=True)[: len(COLOURS)] if most[link]]
    begin, end = window_of(options, max((second for of_link in series.values() for second in of_link), default=1))
    title = options.title or Path(options.queues).name
    chart = Chart(end, max((most[link] / 1000 for link in links), default=1), SECONDS, "vehicles in the queue", begin, title)
    chart.up_axis()
    chart.legend(links)
    for link, colour in zip(links, itertools.cycle(COLOURS)):
        points = [(0, 0)]
        for second, (queue, _) in sorted(series[link].items()):
            points += [(second, points[-1][1]), (second, queue / 1000)]
        chart.line([*points, (end, points[-1][1])], colour)
    return chart.svg()


def points_of(place: Place) -> dict[str, dict[float, list[float]]]:
    """The values of each series at each x in a file of points."""
    points: dict[str, dict[float, list[float]]] = defaultdict(lambda: defaultdict(list))
    text = text_of(place)
    seed = ("seed",) if text.startswith("series,x,y,seed") else ()
    for row in rows_of(place, text, ("series", "x", "y", *seed)):
        try:
            x, y = map(float, row.fields[1:3])
        except ValueError:
            x = y = math.nan
        if not (math.isfinite(x) and math.isfinite(y)):
            raise Fault(f"{place}:{row.line}: x and y have to be numbers, and are {quote(','.join(row.fields[1:3]))}")
        points[row.fields[0]][x].append(y)
    if not points:
        raise Fault(f"{place}: there are no points")
    return points


def draw_points(options: argparse.Namespace) -> str:
    """The mean of each series over x, with its spread."""
    points = points_of(options.points)
    spread = {name: {x: statistics.stdev(ys) if len(ys) > 1 else 0 for x, ys in of.items()} for name, of in points.items()}
    most_x = max(x for of in points.values() for x in of)
    most_y = max(statistics.mean(ys) + spread[name][x] for name, of in points.items() for x, ys in of.items())
    chart = Chart(most_x, most_y, options.across, options.up, title=options.title)
    chart.up_axis()
    chart.legend(points)
    for (name, of), colour in zip(points.items(), itertools.cycle(COLOURS)):
        means = [(x, statistics.mean(ys)) for x, ys in sorted(of.items())]
        chart.line(means, colour)
        for x, mean in means:
            chart.line([(x, max(0, mean - spread[name][x])), (x, mean + spread[name][x])], colour, 6, 0.4)
    return chart.svg()


def spread_of(values: Sequence[float]) -> str:
    """A mean with its standard deviation."""
    return f"{statistics.mean(values):.1f} ± {statistics.stdev(values) if len(values) > 1 else 0:.1f}"


def gains(name: str, points: dict[str, dict[float, list[float]]]) -> Iterable[tuple[str, dict[float, str]]]:
    """By how many hundredths a series is below each other one at each x."""
    if name not in points:
        raise Fault(f"there is no series {quote(name)}; there are {', '.join(points)}")
    for other in points:
        if other != name:
            cells = {}
            for x in points[name].keys() & points[other].keys():
                parts = [100 * (1 - y / of) for y, of in zip(points[name][x], points[other][x]) if of]
                if parts:
                    above = sum(part < 0 for part in parts)
                    cells[x] = f"{spread_of(parts)} ({round(min(parts))} to {round(max(parts))}), {above} of {len(parts)} above"
            yield f"`{name}` below `{other}`, in 100", cells


def table_of_points(options: argparse.Namespace) -> str:
    """The mean of each series at each x with its spread, in Markdown."""
    points = points_of(options.points)
    places = sorted({x for of in points.values() for x in of})
    rows = [(f"`{name}`", {x: spread_of(ys) for x, ys in of.items()}) for name, of in points.items()]
    rows += gains(options.of, points) if options.of else ()
    lines = [["", *(f"{x:g}" for x in places)], ["---"] * (1 + len(places))]
    lines += [[name, *(cells.get(x, "") for x in places)] for name, cells in rows]
    return "\n".join("| " + " | ".join(cells) + " |" for cells in lines)


def parser_of() -> Words:
    """The words of each kind of picture."""
    parser = Words(__doc__)
    kinds = parser.add_subparsers(required=True)
    for name, draw, words in (
        ("greens", draw_greens, ("network", "report")),
        ("street", draw_street, ("network", "report")),
        ("queues", draw_queues, ("queues",)),
        ("points", draw_points, ("points",)),
        ("table", table_of_points, ("points",)),
    ):
        kind = kinds.add_parser(name)
        kind.set_defaults(draw=draw)
        for word in words:
            kind.add_argument(word)
        if name == "greens":
            kind.add_argument("--ruler", action="store_true", help="the seconds in a line above")
            kind.add_argument("--links", action="store_true", help="what each link shows, at each node")
        elif name != "table":
            kind.add_argument("--title", default="", help="words above the picture")
        if name not in ("points", "table"):
            kind.add_argument("--from", dest="begin", type=int, default=0, metavar="SECOND", help="where the window begins")
            kind.add_argument("--to", dest="end", type=int, metavar="SECOND", help="up to where it goes")
        if name == "street":
            kind.add_argument("nodes", nargs="+", metavar="NODE=METRES")
            kind.add_argument("--queues")
        if name == "queues":
            kind.add_argument("links", nargs="*", metavar="LINK")
        if name == "points":
            kind.add_argument("--across", default="x")
            kind.add_argument("--up", default="y")
        if name == "table":
            kind.add_argument("--of", metavar="SERIES", help="which one is set against each other")
    return parser


def work() -> None:
    """Writes a picture."""
    options = parser_of().parse_args()
    with network_faults(options.network) if "network" in options else contextlib.nullcontext():
        picture = options.draw(options)
    print(picture)


def main() -> None:
    """Runs the command."""
    end_command(work)


if __name__ == "__main__":
    main()
