"""Makes SUMO's files from a network file: DIR/net.net.xml, and with the options routes and signal programs.

    tools/sumo/to_sumo.py NET PLACES DIR [--arrivals ARR [--seed N] [--at-once]] [--report REPORT]

PLACES is a CSV with the header `kind,name,x,y`, in metres: rows `node,NAME,x,y` for each node, and `link,NAME,x,y` for the
open end of each link that enters or leaves the network; `begin,NAME,x,y` and `end,NAME,x,y` may say by which points a link leaves a
node and comes to one, and `walk,NAME,x,y` by which point the roads come that a crossing goes over (`walk 2` and so on where it goes over
roads of several sides). Links between the same places by the same points are lanes of one road, and so is an open link that comes to
its node by the point of another, or leaves it so. With `-` in its stead the nodes stand in a line from west to east, in the order of the
file. Lengths come from the `travel` of the links, and not from the places.

The vehicles and people of ARR become DIR/routes.N.rou.xml, their turns drawn from the number N; with --at-once vehicles stop and start
at once, as the rules of the world have it, and from a stand only after the start-up loss. The greens of REPORT become
DIR/report.add.xml. What crosses in SUMO's network, and neither is in conflict in the file nor gives way, is listed on standard error, and
so are crossings that can't be laid out. Nothing here is proved.
"""

import itertools
import math
import subprocess
import sys
from pathlib import Path
from types import MappingProxyType
from xml.sax.saxutils import quoteattr

from ..commands import Words, end
from ..faults import Fault
from ..files import claim, nothing_left
from ..networks import read_tables
from .crossings import edges_at
from .groups import WALKING
from .layout import SPEED, Layout, read_greens, read_places, vehicles, walkers
from .signals import Signals
from .streets import Streets, edge_of, read_root

RING_GREEN = 20  # seconds of each green of a ring that turns without vehicles, where the plan allows it
SIDEWALK = 2  # metres
CORNER = 2  # metres from the node at which people begin and end their ways
# Vehicles that stop and start at once, in metres and seconds: within a second they stand or drive at full speed.
AT_ONCE = {"accel": 20, "decel": 20, "emergencyDecel": 20, "tau": 1, "minGap": 0.5, "sigma": 0, "speedFactor": 1, "speedDev": 0}


def element(name, inside="", **attributes):
    """A line of XML; an attribute's name may end in `_`."""
    written = "".join(f" {key.rstrip('_')}={quoteattr(str(value))}" for key, value in attributes.items())
    return f"<{name}{written}>{inside}</{name}>\n" if inside else f"<{name}{written}/>\n"


def place_name(end):
    kind, name = end
    return name if kind == "node" else f"{name}-end"


def write_plain(layout, folder, shapes=MappingProxyType({}), prohibited=()):
    """SUMO's plain files of nodes, edges and connections, with the shapes of crossings and the pairs of ways of which one gives way."""
    ends = {place_name(end): end for edge in layout.edges.values() for end in (edge.start, edge.end)}
    nodes = "".join(
        element(
            "node",
            id=name,
            x=layout.places[end][0],
            y=layout.places[end][1],
            type="traffic_light" if end[0] == "node" else "priority",
        )
        for name, end in ends.items()
    )
    edges = "".join(edge_row(name, edge, layout.has_sidewalk(edge)) for name, edge in layout.edges.items())
    ways = {
        (layout.edge_of[link["name"]], layout.edge_of[turn["exit"]], *lanes)
        for link in layout.network["link"]
        for turn in link.get("turn", [])
        for lanes in layout.lanes_to(link["name"], turn["exit"])
    }
    connections = "".join(
        element("connection", from_=way[0], to=way[1], fromLane=way[2], toLane=way[3]) for way in sorted(ways)
    )
    for walk, crossings in layout.crossings.items():
        node = layout.walks[walk]["to"]
        for over in crossings:
            shape = {"shape": shapes[node, over]} if (node, over) in shapes else {}
            connections += element("crossing", node=node, edges=" ".join(sorted(over)), **shape)
    connections += "".join(element("prohibition", prohibitor=to, prohibited=way) for way, to in prohibited)
    for suffix, name, inside in (("nod", "nodes", nodes), ("edg", "edges", edges), ("con", "connections", connections)):
        (folder / f"plain.{suffix}.xml").write_text(element(name, "\n" + inside))


def edge_row(name, edge, has_sidewalk):
    """SUMO's plain row of an edge, where people walk with a lane for them."""
    beside = element("lane", index=0, allow="pedestrian", width=SIDEWALK) if has_sidewalk else ""
    return element(
        "edge",
        beside,
        id=name,
        from_=place_name(edge.start),
        to=place_name(edge.end),
        numLanes=edge.lane_count(),
        speed=SPEED,
        length=edge.travel * SPEED,
        **({"disallow": "pedestrian"} if has_sidewalk else {}),
        **({"shape": " ".join(f"{x:.2f},{y:.2f}" for x, y in edge.points)} if len(edge.points) > 2 else {}),
    )


def crossing_shapes(layout, path):
    """The shapes of the crossings in SUMO's network, as long as one walks in `cross` seconds, by their nodes and edges."""
    root, shapes = read_root(path, "net"), {}
    offset = [float(part) for part in root.find("location").get("netOffset").split(",")]
    rows = [row for row in root.iter("edge") if row.get("function") == "crossing"]
    lanes = {(row.get("id")[1:].rpartition("_c")[0], frozenset(row.get("crossingEdges").split())): row.find("lane") for row in rows}
    for walk, crossings in layout.crossings.items():
        metres = max(0.5, layout.walks[walk]["cross"] - 0.5) * WALKING
        for at in [(layout.walks[walk]["to"], over) for over in crossings]:
            if at not in lanes:
                continue
            points = [tuple(map(float, point.split(",")[:2])) for point in lanes[at].get("shape").split()]
            (x, y), (to_x, to_y) = points[0], points[-1]
            across = math.radians(edges_at(layout, at[0])[min(at[1])] + 90)
            way = (to_x - x, to_y - y) if math.dist(points[0], points[-1]) > 1 else (math.sin(across), math.cos(across))
            times, middle = metres / math.hypot(*way) / 2, ((x + to_x) / 2 - offset[0], (y + to_y) / 2 - offset[1])
            ends = ((middle[0] + by * times * way[0], middle[1] + by * times * way[1]) for by in (-1, 1))
            shapes[at] = " ".join(f"{end_x:.3f},{end_y:.3f}" for end_x, end_y in ends)
    return shapes


def netconvert(folder, *words):
    run = subprocess.run(
        ["netconvert", "--no-turnarounds", "--output-file", str(folder / "net.net.xml"), *words], capture_output=True, text=True
    )
    if run.returncode:
        raise Fault(f"netconvert: {(run.stderr.strip().splitlines() or ['no word'])[-1]}")


def program(node, name, spans, kind="static"):
    """A signal program of SUMO, of spans: seconds, a state, and the least and greatest length that SUMO may give it."""
    phases = "".join(
        element("phase", duration=seconds, state=state, **({"minDur": bounds[0], "maxDur": bounds[1]} if bounds else {}))
        for seconds, state, bounds in spans
    )
    return element("tlLogic", "\n" + phases, id=node, type=kind, programID=name, offset=0)


def report_program(node, states):
    """A program that shows given states, one each second."""
    return program(node, "report", [(length, state, None) for length, state in spans(states)])


def ring(signals, node, kind="static"):
    """The ring of a node's phases as spans: fixed, or with bounds within which SUMO's controller of this kind moves."""
    phases = signals.layout.nodes[node]["phase"]
    seconds, begin, rows = ring_seconds(signals, node), 0, []
    for number in (*range(len(phases)), 0):
        rows.append((number, begin, begin + seconds[number]))
        begin = rows[-1][2] + phases[number]["yellow"] + phases[number]["clear"]
    for (number, start, end), after in itertools.pairwise(rows):
        bounds = (phases[number]["least"], phases[number]["greatest"]) if kind != "static" else None
        green = spans(signals.at(node, rows, second) for second in range(start, end))
        over = sum(length for length, _ in green[:-1])
        yield from ((length, state, None) for length, state in green[:-1])
        yield *green[-1], bounds and (max(1, bounds[0] - over), max(1, bounds[1] - over))
        change = spans(signals.at(node, rows, second) for second in range(end, after[1]))
        yield from ((length, state, None) for length, state in change)


def spans(states):
    """States of seconds as the lengths of those that are alike without a break, each with its state."""
    return [(len(list(group)), state) for state, group in itertools.groupby(states)]


def ring_seconds(signals, node):
    """The seconds of each green of a ring: a link's home is longer than any other phase in which as much of it need not give way."""
    phases, layout = signals.layout.nodes[node]["phase"], signals.layout
    seconds = [min(max(phase["least"], RING_GREEN), phase["greatest"]) for phase in phases]
    on = [{link for link, greens in layout.greens_of.items() if (node, number) in greens} for number in range(len(phases))]
    # A green after which nothing ends is shown through its change too.
    more = [(on[n] <= on[(n + 1) % len(on)]) * (phase["yellow"] + phase["clear"]) for n, phase in enumerate(phases)]
    for _ in phases:
        for link, (of, home) in layout.phase_of.items():
            if of == node:
                free = {number: signals.free_count(link, node, number) for at, number in layout.greens_of[link] if at == node}
                others = [seconds[number] + more[number] for number in free if number != home and free[number] >= free[home]]
                seconds[home] = max(seconds[home], min(phases[home]["greatest"], 1 + max(others, default=0)))
    return seconds


def rings(signals, kind):
    return "".join(program(node, kind, ring(signals, node, kind), kind) for node in signals.layout.nodes)


def report_programs(signals, greens):
    """Programs that show the greens of a report second by second."""
    seconds = range(signals.layout.seconds + 1)
    return "".join(
        report_program(node, (signals.at(node, greens[node], second) for second in seconds)) for node in signals.layout.nodes
    )


def at_once_type(layout):
    """SUMO's type of vehicles that stop and start at once, and from a stand after the greatest loss of the network's phases."""
    loss = max(phase["loss"] for node in layout.nodes.values() for phase in node["phase"])
    return element("vType", id="DEFAULT_VEHTYPE", startupDelay=loss, **AT_ONCE)


def write_routes(layout, arrivals, seed, path, at_once=False):
    """The vehicles and the people of a file of arrivals, in the order of time."""
    rows = [(second, vehicle_row(layout, number, second, way)) for number, (second, way) in enumerate(vehicles(layout, arrivals, seed))]
    on_foot = ((second, walk) for second, walk in walkers(layout, arrivals) if walk in layout.on_foot)
    rows += [(second, person_row(layout, f"p{number}", second, walk)) for number, (second, walk) in enumerate(on_foot)]
    inside = "".join(row for _, row in sorted(rows, key=lambda row: row[0]))
    path.write_text(element("routes", "\n" + (at_once_type(layout) if at_once else "") + inside))


def vehicle_row(layout, number, second, way):
    """A vehicle over these links. On an edge that is longer it begins so far from the end as its own link is long.

    One that leaves on an edge that leads to a node ends halfway at most, as it is not to stand in the queue there.
    """
    begin, end = (layout.edges[layout.edge_of[link]] for link in (way[0], way[-1]))
    more, metres = {}, {link: layout.links[link]["travel"] * SPEED for link in (way[0], way[-1])}
    if begin.travel * SPEED > metres[way[0]]:
        more["departPos"] = round(begin.travel * SPEED - metres[way[0]], 2)
    if end.end[0] == "node":
        more["arrivalPos"] = round(min(metres[way[-1]], end.travel * SPEED / 2), 2)
    route = element("route", edges=" ".join(layout.edge_of[link] for link in way))
    return element("vehicle", route, id=number, depart=second, departLane="best", departSpeed="max", **more)


def person_row(layout, name, second, walk):
    """Somebody who comes to a crossing and goes over it, from edge to edge."""
    start, end = layout.on_foot[walk]
    node = "node", layout.walks[walk]["to"]
    from_, to = (-CORNER if layout.edges[edge].end == node else CORNER for edge in (start, end))
    return element("person", element("walk", edges=f"{start} {end}", arrivalPos=to), id=name, depart=second, departPos=from_)


def who_gives_way(signals):
    """Pairs of ways from edge to edge of which the first is to give way, as the file says of their links, and SUMO's network does not.

    Of links that meet by the file, and of which no ways cross there, one way gives way to one of the other link: so they meet.
    """
    found, links = {}, signals.layout.links
    for node in signals.layout.nodes:
        moves = signals.moves_by_link(node)
        for one, other in itertools.permutations(moves, 2):
            yields, back = other in links[one].get("yields", []), one in links[other].get("yields", [])
            if yields or (not back and one < other and frozenset((one, other)) in signals.layout.declared):
                for pair in to_prohibit(signals.junctions, moves[one], moves[other], yields, yields and back):
                    pairs = [tuple(f"{edge_of(move.lane)}->{edge_of(move.exit_lane)}" for move in of) for of in pair]
                    found |= dict.fromkeys([of for of in pairs if of[::-1] not in found][:1])
    return list(found)


def to_prohibit(junctions, ways, others, yields, mutual):
    """Of two links the pairs of ways of which the first has yet to give way, where it yields by the file; else one so that they meet.

    Each is a list of pairs, of which the first is to be taken whose ways do not give way in the other order already.
    """
    pairs = list(itertools.product(ways, others))
    crossing = [pair for pair in pairs if junctions.cross(*pair)]
    if not crossing:
        return [sorted(pairs, key=lambda pair: [move.direction == "s" for move in pair])]
    giving = [pair for pair in crossing if junctions.gives_way(*pair)]
    back = [pair for pair in crossing if junctions.gives_way(*reversed(pair))]
    if not yields or (mutual and giving):
        return []
    if mutual:
        return [[pair for pair in crossing if pair not in back] + [pair for pair in pairs if pair not in crossing]]
    return [[pair] for pair in crossing if pair not in giving or pair in back]


def ways_on_foot(layout, path):
    """For each link on which people walk the edges from and to which they go over its crossing alone, where there are any."""
    streets, found = Streets(path), {}
    paths = streets.paths()
    for node in layout.nodes:
        for move in streets.junctions.crossings[node]:
            corners = [corner for corner in paths[edge_of(move.lane)] if corner.startswith(":")]
            sides = [[edge for edge in paths[corner] if edge in layout.edges] for corner in corners]
            ways = itertools.product(*sides) if len(sides) == 2 else ()
            walk = layout.walk_over(node, move.over)
            if walk:
                found |= {walk: way for way in itertools.islice((way for way in ways if way[0] != way[1]), 1)}
    return found


def convert(network, places, folder):
    """Writes DIR/net.net.xml, and answers what its signals show."""
    with nothing_left(folder):
        claim(folder)
        return converted(network, places, folder)


def converted(network, places, folder):
    """The same in a folder that is there."""
    layout = Layout(network, places)
    path = folder / "net.net.xml"
    plain = [
        word
        for suffix in ("node", "edge", "connection")
        for word in (f"--{suffix}-files", str(folder / f"plain.{suffix[:3]}.xml"))
    ]
    write_plain(layout, folder)
    netconvert(folder, *plain)
    signals = Signals(layout, path)
    for _, one, other in signals.undeclared_crossings():
        if one in layout.links and other in layout.links:
            layout.keep_apart(one, other)
    for one, other in signals.apart_by_sumo():
        layout.let_meet(one, other)
    if layout.kept:
        write_plain(layout, folder)
        netconvert(folder, *plain)
    prohibited = who_gives_way(Signals(layout, path))
    if layout.walks or prohibited:
        write_plain(layout, folder, crossing_shapes(layout, path), prohibited)
        netconvert(folder, *plain)
        layout.on_foot = ways_on_foot(layout, path)
    (folder / "ring.tll.xml").write_text(element("tlLogics", "\n" + rings(Signals(layout, path), "static")))
    netconvert(folder, *plain, "--tllogic-files", str(folder / "ring.tll.xml"))
    return Signals(layout, path)


def work() -> None:
    """Writes the files."""
    parser = Words(__doc__)
    for name in ("network", "places", "folder"):
        parser.add_argument(name, type=Path)
    parser.add_argument("--arrivals", type=Path)
    parser.add_argument("--seed", type=int, default=1)
    parser.add_argument("--at-once", action="store_true", help="vehicles stop and start at once")
    parser.add_argument("--report", type=Path)
    options = parser.parse_args()
    signals = convert(read_tables(options.network), read_places(options.places), options.folder)
    for walk in signals.layout.walks:
        if not signals.layout.crossings[walk]:
            print(f"{walk}: no road of which all give way to it, or are in conflict with it: it is no crossing", file=sys.stderr)
        elif walk not in signals.layout.on_foot:
            print(f"{walk}: no two roads between which people walk over it alone: nobody does", file=sys.stderr)
    for node, one, other in signals.undeclared_crossings():
        print(f"{node}: {one} and {other} cross, and are in no conflict", file=sys.stderr)
    if options.arrivals:
        path = options.folder / f"routes.{options.seed}.rou.xml"
        write_routes(signals.layout, options.arrivals, options.seed, path, options.at_once)
    if options.report:
        programs = report_programs(signals, read_greens(options.report))
        (options.folder / "report.add.xml").write_text(element("additional", "\n" + programs))


def main() -> None:
    """Runs the command."""
    end(work)


if __name__ == "__main__":
    main()
