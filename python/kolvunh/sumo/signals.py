"""What SUMO's signals show of a network's nodes, and where SUMO has other links meet than the file. Nothing here is proved."""

import itertools
from bisect import bisect_right
from collections import defaultdict
from types import MappingProxyType

from .streets import Junctions, read_root


class Signals:
    """The states by which SUMO's signals show the phases of a network's nodes."""

    def __init__(self, layout, path):
        self.layout, self.junctions = layout, Junctions(read_root(path, "net"))
        self.links_of, self.walks = layout.links_of_lane(), {}
        for node in layout.nodes:
            crossings = {move: layout.walk_over(node, move.over) for move in self.junctions.crossings[node]}
            self.links_of |= {move.lane: [walk] for move, walk in crossings.items() if walk}
            self.walks[node] = {move.index: layout.walks[walk]["walk"] for move, walk in crossings.items() if walk}
        self.moves = {node: [*self.junctions.movements[node], *self.junctions.crossings[node]] for node in layout.nodes}
        self.red = {name: "r" * len(self.moves[name]) for name in layout.nodes}
        self.green = {
            name: [self._state(name, number) for number in range(len(node["phase"]))] for name, node in layout.nodes.items()
        }

    def links_by(self, move):
        """The links of a movement's lane, or of a crossing; their greens are the same."""
        return self.links_of.get(move.lane, [])

    def moves_by_link(self, node):
        """The movements of a node by their links, in the order of the first of each."""
        moves = defaultdict(list)
        for move in self.junctions.movements[node]:
            for link in self.links_by(move):
                moves[link].append(move)
        return moves

    def _state(self, node, phase):
        state = list(self.red[node])
        on = [move for move in self.moves[node] for link in self.links_by(move)[:1] if (node, phase) in self.layout.greens_of[link]]
        for move in on:
            state[move.index] = "g" if any(self.gives_way(move, other) for other in on) else "G"
        return "".join(state)

    def gives_way(self, move, other):
        """Whether a movement gives way to another, by SUMO's network or by the file; by the file alone where by SUMO's each does."""
        by_file = self._yields(move, other) and self.junctions.cross(move, other)
        each = self.junctions.gives_way(move, other) and self.junctions.gives_way(other, move)
        return by_file or (self.junctions.gives_way(move, other) and not (each and self._yields(other, move)))

    def _yields(self, move, other):
        """Whether a link of a movement gives way by the file to one of another movement."""
        yields = {to for link in self.links_by(move) for to in self.layout.links.get(link, {}).get("yields", [])}
        return bool(yields & set(self.links_by(other)))

    def tls(self, node):
        """The name of a node's signal in SUMO."""
        return node

    def free_count(self, link, node, phase):
        """How many of a link's movements are green in a phase and need not give way."""
        moves = [move for move in self.moves[node] if link in self.links_by(move)]
        return sum(self.green[node][phase][move.index] == "G" for move in moves)

    def at(self, node, rows, second):
        """What the signal of a node shows in a second under rows of greens (phase, from, to)."""
        return state_at(self.layout.nodes[node]["phase"], self.green[node], rows, second, self.walks[node])

    def apart_by_sumo(self):
        """Pairs of links that meet by the file, and whose lanes do not."""
        for node in self.layout.nodes:
            moves = self.moves_by_link(node)
            for one, other in itertools.combinations(moves, 2):
                if frozenset((one, other)) in self.layout.declared:
                    if not any(self.junctions.cross(*pair) for pair in itertools.product(moves[one], moves[other])):
                        yield one, other

    def undeclared_crossings(self):
        """Pairs of links whose lanes cross, and of which the network says neither a conflict nor who gives way, each with its node."""
        for node in self.layout.nodes:
            found = set()
            for one, other in itertools.combinations(self.moves[node], 2):
                if self.junctions.cross(one, other) and self.links_by(one) != self.links_by(other):
                    pairs = (frozenset(pair) for pair in itertools.product(self.links_by(one), self.links_by(other)))
                    found |= {tuple(sorted(pair)) for pair in pairs if len(pair) == 2 and pair not in self.layout.declared}
            yield from ((node, *pair) for pair in sorted(found))


def state_at(phases, greens, rows, second, walks=MappingProxyType({})):
    """The state in a second under rows (phase, from, to); phases are those of the node's plan, greens their states.

    In a green it is that of the phase, but for crossings, which are green in the first seconds alone: `walks` has their places in the
    state and these seconds. In a change what is green before and after stays green; what else was green shows yellow, then red.
    """
    place = bisect_right(rows, second, key=lambda row: row[1]) - 1
    if place < 0:
        return "r" * len(greens[0])
    phase, start, end = rows[place]
    if second < end:
        over = {at for at, seconds in walks.items() if second >= start + seconds}
        return "".join("r" if at in over else letter for at, letter in enumerate(greens[phase]))
    after = greens[rows[place + 1][0]] if place + 1 < len(rows) else "r" * len(greens[0])
    ending = "y" if second < end + phases[phase]["yellow"] else "r"
    return "".join(
        letter if letter not in "Gg" or (after[at] in "Gg" and at not in walks) else "r" if at in walks else ending
        for at, letter in enumerate(greens[phase])
    )
