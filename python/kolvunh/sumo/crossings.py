"""Over which edges the crossings of a network's links go on which people walk. Nothing here is proved.

A network file says of a crossing whom it meets: who is in conflict with it, or gives way to it. It goes over edges whose every link is
one of these. Where the file of places says a point of the roads that it goes over, these are the edges that come to the node near it.
"""

import math

BESIDE = 30  # degrees between roads that are one side of a node


def crossings_of(layout, walk):
    """The crossings of a link on which people walk, each a set of edges of one side of its node."""
    node = layout.walks[walk]["to"]
    fitting = {name for name in edges_at(layout, node) if users(layout, node, name) <= met(layout, walk)}
    points = [place for (kind, name), place in layout.places.items() if name == walk and kind.split()[0] == "walk"]
    if points:
        sides = [side(layout, node, nearest(layout, node, point)) for point in points]
        return [frozenset(over) for over in (fitting & edges for edges in sides) if over]
    found, left = [], met(layout, walk)
    sides = {frozenset(side(layout, node, name) & fitting) for name in fitting}
    while left:
        best = max(sorted(sides, key=sorted), key=lambda edges: len(left & all_users(layout, node, edges)), default=frozenset())
        if not left & all_users(layout, node, best):
            break
        found.append(best)
        left -= all_users(layout, node, best)
    return found


def heading(start, end):
    """The direction from a place to another, in degrees from the north to the right."""
    return math.degrees(math.atan2(end[0] - start[0], end[1] - start[1]))


def met(layout, walk):
    """The links that a crossing meets by the network file."""
    pairs = [pair for pair in layout.declared if walk in pair]
    return {link for pair in pairs for link in pair if link in layout.links}


def edges_at(layout, node):
    """The edges of a node, with the direction in which each leads away from it."""
    found = {}
    for name, edge in layout.edges.items():
        if edge.end == ("node", node):
            found[name] = (edge.heading(True) + 180) % 360
        elif edge.start == ("node", node):
            found[name] = edge.heading(False) % 360
    return found


def users(layout, node, name):
    """The links whose vehicles come to a node by an edge, or leave it by the edge."""
    exits = [link for link in layout.edges[name].lanes if layout.links[link].get("from") == node]
    into = [link for link, table in layout.links.items() if any(turn["exit"] in exits for turn in table.get("turn", []))]
    return {link for link in layout.edges[name].lanes if layout.links[link].get("to") == node} | set(into)


def all_users(layout, node, edges):
    """The links of several edges."""
    return {link for name in edges for link in users(layout, node, name)}


def apart(one, other):
    """The degrees between two directions."""
    return abs((one - other + 180) % 360 - 180)


def side(layout, node, name):
    """The edges that come to a node from the same side as one of them."""
    ways = edges_at(layout, node)
    return {other for other, way in ways.items() if apart(way, ways[name]) <= BESIDE}


def nearest(layout, node, point):
    """The edge of a node that leads most nearly to a point."""
    ways, wanted = edges_at(layout, node), heading(layout.places["node", node], point)
    return min(ways, key=lambda name: apart(ways[name], wanted))
