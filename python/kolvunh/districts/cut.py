"""How a network is cut into districts: which rank has which node, and by it which links.

A link is of the district in which it ends; one that leaves the network is of the district of the node from which it comes.
"""

from dataclasses import dataclass

from ..faults import Fault
from ..networks import Link, Network
from ..records import Place, number_in, quote, rows_of, text_of

HEADER = ("node", "rank")


@dataclass(frozen=True)
class Cut:
    """The rank of each node, from 0."""

    ranks: dict[str, int]

    def rank_of(self, link: Link) -> int:
        """The rank of the district that has a link."""
        return self.ranks[link.end or link.start]

    def source_of(self, link: Link) -> int:
        """The rank of the district from which a link comes; its own where it comes from outside of the network."""
        return self.ranks[link.start or link.end]

    def crosses(self, link: Link) -> bool:
        """Whether a link leads from one district to another."""
        return self.source_of(link) != self.rank_of(link)


def blocks_of(network: Network, count: int) -> Cut:
    """The nodes in the order of the file, cut into so many blocks of which none has two nodes more than another."""
    return Cut({node.name: place * count // len(network.nodes) for place, node in enumerate(network.nodes)})


def read_cut(place: Place, network: Network, count: int) -> Cut:
    """The cut in a file with a row for each node of the network, in any order; ranks are below the count."""
    ranks: dict[str, int] = {}
    for row in rows_of(place, text_of(place), HEADER):
        node, rank = row.fields[0], number_in(place, row.line, "the rank", row.fields[1])
        if network.node_named(node) is None:
            raise Fault(f"{place}:{row.line}: node {quote(node)} is none of the network: is it a cut of another one?")
        if node in ranks:
            raise Fault(f"{place}:{row.line}: node {quote(node)} has a rank already")
        if rank >= count:
            raise Fault(f"{place}:{row.line}: the rank of node {quote(node)} is {rank}, and there are {count}, from 0 on")
        ranks[node] = rank
    left_out = next((node.name for node in network.nodes if node.name not in ranks), None)
    if left_out is not None:
        raise Fault(f"{place}: node {quote(left_out)} has no rank")
    return Cut(ranks)


def require_travel(network: Network, cut: Cut) -> None:
    """Raises a fault where a link between districts is shorter than a round: what enters it would reach its end in the same round."""
    for link in network.links:
        if cut.crosses(link) and link.travel < network.run.step:
            raise Fault(
                f"link {quote(link.name)} leads from district {cut.source_of(link)} to district {cut.rank_of(link)} in {link.travel} seconds, and a "
                f"round has {network.run.step}: a link between districts takes a round or longer, so both its ends have to be in one"
            )
