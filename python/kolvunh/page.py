"""A page for a browser that needs no network: a street and its reports side by side, in a window of time that the reader chooses.

    ./signal page NET ARR REPORT .. [--title TITLE] [--places FILE | --place NODE=X,Y ..]

A REPORT may be written NAME=FILE; without a name it has that of its file. The street is laid out by its links' travel, or by the places of
all nodes where they are given, x to the right and y up in any unit. FILE is a CSV with the header `kind,name,x,y`, as the importers from SUMO and
OpenStreetMap write it: rows `node,NAME,x,y` for all nodes, and `link,NAME,x,y` for the outer ends of links. Where it has none of a link, its
turns say from which side it comes. Nothing here is proved.
"""

import argparse
import json
import math
from collections.abc import Sequence
from importlib import resources
from itertools import groupby, pairwise
from pathlib import Path
from typing import Any

from .check_input import say_worst
from .commands import Words, end
from .faults import Fault
from .measure_values import LEVELS
from .measures import Study, study_of
from .networks import Network, network_faults, read_network
from .places import Places, places_of, streets_of
from .records import Place, plural, quote, rows_of, text_of
from .sides import sides_of


FARTHEST = 1e9  # of a place from the middle, in its unit


def part_of(name: str) -> str:
    """The text of a file of this package."""
    return resources.files(__package__).joinpath(name).read_text(encoding="utf-8")


def pairs_of(totals: list[int]) -> list[int]:
    """Running totals as pairs: an amount, and for how many seconds it comes in each; what comes no more is left out."""
    runs = [(amount, len(list(same))) for amount, same in groupby(after - before for before, after in pairwise(totals))]
    if runs and not runs[-1][0]:
        runs.pop()
    return [number for run in runs for number in run]


def report_data(name: str, study: Study) -> dict[str, Any]:
    """What the page knows of a report: greens by node, rounds without a plan by node, and of each link what entered it, left it and could leave it,
    and its own greens."""
    nodes, flows = study.network.nodes, study.flows.values()
    greens = study.report.greens_of()
    return {
        "name": name,
        "greens": [[[green.phase, green.begin, green.end] for green in greens.get(node.name, [])] for node in nodes],
        "none": [
            [plan.round for plan in study.report.plans if plan.node == node.name and not plan.is_found] for node in nodes
        ] if study.report.plans else None,
        "entered": [pairs_of(flow.entered) for flow in flows],
        "left": [pairs_of(flow.left) for flow in flows],
        "lets": [pairs_of(study.lets.get(name, [0])) for name in study.flows],
        "lights": [lights_data(study, name) for name in study.flows],
    }  # fmt: skip


def lights_data(study: Study, link: str) -> list[list[int]] | None:
    """The greens of a link, from and to; none where they are those of its home."""
    if link not in study.lights:
        return None
    own = [[light.begin, light.end] for light in study.lights[link]]
    return own if own != [[green.begin, green.end] for green in study.greens[study.phase_of(link)]] else None


def network_data(network: Network, places: Places, ends: Places) -> dict[str, Any]:
    """What the page knows of a network: its nodes with their places, its links, and streets, all by their numbers from 0."""
    nodes = {node.name: number for number, node in enumerate(network.nodes)}
    links = {link.name: number for number, link in enumerate(network.links)}
    sides = sides_of(network, places, ends)
    return {
        "seconds": network.run.seconds,
        "step": network.run.step,
        "nodes": [
            {
                "name": node.name,
                "x": round(places[node.name][0], 2),
                "y": round(places[node.name][1], 2),
                "phases": [{"skip": phase.skip, "links": [links[link] for link in phase.links]} for phase in node.phases],
            }
            for node in network.nodes
        ],
        "links": [
            {
                "name": link.name,
                "from": nodes[link.start] if link.start else -1,
                "to": nodes[link.end] if link.end else -1,
                "travel": link.travel,
                "sat": link.sat,
                "phase": network.phase_of[link.name][1] if link.end else -1,
                "greens": sorted(network.greens_of[link.name]) if link.end else [],
                "walk": link.walk,
                "side": round(sides[link.name], 3) if link.name in sides else None,
                "turns": [[links[turn.exit], turn.share] for turn in link.turns],
            }
            for link in network.links
        ],
        "streets": [[nodes[node] for node in street] for street in streets_of(network)] or [[0]],
    }


def page_text(data: dict[str, Any]) -> str:
    """The page with its data and its script inside."""
    text = json.dumps(data, separators=(",", ":")).replace("<", "\\u003c")
    page, script = part_of("page.html"), part_of("page.js")
    return page.replace("SCRIPT", script, 1).replace("DATA", text, 1)


def report_of(words: str) -> tuple[str, str]:
    """The name and the file of a report, from NAME=FILE or FILE."""
    name, mark, file = words.partition("=")
    return (name, file) if mark and not Path(words).exists() else (Path(words).stem, words)


def place_of(words: str) -> tuple[str, tuple[float, float]]:
    """The node and its place from NODE=X,Y; on the page y goes down."""
    name, _, numbers = words.partition("=")
    try:
        x, y = map(float, numbers.split(","))
    except ValueError:
        x = y = math.nan
    if not (abs(x) <= FARTHEST and abs(y) <= FARTHEST):
        raise argparse.ArgumentTypeError(f"{words!r} is not NODE=X,Y")
    return name, (x, -y)


def read_places(place: Place) -> tuple[Places, Places]:
    """The places of nodes and of the outer ends of links in a file; on the page y goes down."""
    found: dict[str, Places] = {"node": {}, "link": {}, "begin": {}, "end": {}}  # the last two say where links meet a node, for `to-sumo`
    for row in rows_of(place, text_of(place), ("kind", "name", "x", "y")):
        kind, name, *numbers = row.fields
        try:
            x, y = map(float, numbers)
        except ValueError:
            x = y = math.nan
        if not (abs(x) <= FARTHEST and abs(y) <= FARTHEST):
            raise Fault(f"{place}:{row.line}: x and y have to be numbers of at most 9 digits, and are {quote(','.join(numbers))}")
        if kind not in found:
            raise Fault(f"{place}:{row.line}: the kind is {quote(kind)}, and has to be node, link, begin or end")
        found[kind][name] = (x, -y)
    return found["node"], found["link"]


def parser_of() -> Words:
    """What the command takes."""
    parser = Words(__doc__)
    parser.add_argument("network")
    parser.add_argument("arrivals")
    parser.add_argument("reports", nargs="+", metavar="REPORT", type=report_of)
    parser.add_argument("--title", help="what the page is called (the name of the network's file)")
    parser.add_argument("--place", type=place_of, action="append", default=[], metavar="NODE=X,Y", help="where a node is")
    parser.add_argument("--places", metavar="FILE", help="where nodes are, and the outer ends of links")
    return parser


def answer(words: Sequence[str] | None = None) -> str:
    """What the command writes."""
    options = parser_of().parse_args(words)
    network = read_network(options.network)
    given, ends = read_places(options.places) if options.places else (dict(options.place), {})
    strange = set(given) ^ {node.name for node in network.nodes} if given else set()
    if strange:
        raise Fault(f"{options.network}: places are to be given for all nodes of the network and for no other: {quote(min(strange))}")
    with network_faults(options.network):
        data = network_data(network, places_of(network, given), ends)
        data["reports"] = [report_data(name, study_of(network, options.arrivals, file)) for name, file in options.reports]
    data["levels"] = LEVELS
    data["title"] = options.title or Path(options.network).stem
    data["about"] = (
        f"{Path(options.network).name} with {Path(options.arrivals).name}: {plural(len(network.nodes), 'junction')}, "
        f"{plural(len(network.links), 'link')}, {network.run.seconds} seconds. One draw of the vehicles and one order of the nodes: another draw may rank the reports otherwise. "
        f"Drawn from reports by tools that are not proved."
    )
    return page_text(data)


def main() -> None:
    """Runs the command by the words that the process was called with."""
    end(work)


def work() -> None:
    """Writes the page, and the worst of what `check-input` finds."""
    print(answer(), end="", flush=True)
    options = parser_of().parse_args()
    say_worst(options.network, options.arrivals)


if __name__ == "__main__":
    main()
