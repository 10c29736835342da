"""What the numbers of a controller's log stand for in a network: docs/FORMATS.md, "Map of a log"."""

from dataclasses import dataclass, field

from ..faults import Fault
from ..networks import Link, Network, Node
from ..records import Place, Record, number_in, quote, rows_of, text_of

HEADER = ("signal", "kind", "number", "name", "seconds")
KINDS = ("node", "phase", "overlap", "walk", "detector")
Channel = tuple[str, int]  # a signal and a number of it


@dataclass(frozen=True)
class Channels:
    """What the signals of a log and their numbers stand for. A detector is on a link, so many seconds after its begin. `is_whole` says that
    a number that is none of these is a fault, as where there is no map."""

    nodes: dict[str, str] = field(default_factory=dict)
    phases: dict[Channel, int] = field(default_factory=dict)
    overlaps: dict[Channel, str] = field(default_factory=dict)
    walks: dict[Channel, str] = field(default_factory=dict)
    detectors: dict[Channel, tuple[str, int]] = field(default_factory=dict)
    is_whole: bool = False


def shared_links(network: Network, node: Node) -> list[Link]:
    """The links that are green in several phases of a node, which a controller shows by overlaps."""
    return [link for link in network.links_to(node.name) if link.walk is None and len(network.greens_of[link.name]) > 1]


def crossings(network: Network, node: Node) -> list[Link]:
    """The crossings at a node."""
    return [link for link in network.links_to(node.name) if link.walk is not None]


def own_channels(network: Network) -> Channels:
    """Those of a log that `to-log` writes: signals, phases, overlaps, crossings and detectors are numbered from 1, in the order of the file."""
    found = Channels(is_whole=True)
    for place, node in enumerate(network.nodes, 1):
        signal = str(place)
        found.nodes[signal] = node.name
        found.phases.update({(signal, number + 1): number for number in range(len(node.phases))})
        for channels, links in ((found.overlaps, shared_links(network, node)), (found.walks, crossings(network, node))):
            channels.update({(signal, number): link.name for number, link in enumerate(links, 1)})
        for number, link in enumerate(network.links_to(node.name), 1):
            found.detectors[signal, number] = link.name, 0
    return found


def read_channels(place: Place, network: Network) -> Channels:
    """The channels in a file of records."""
    found = Channels()
    for row in rows_of(place, text_of(place), HEADER):
        signal, kind, number, name, seconds = row.fields
        if kind not in KINDS:
            raise Fault(f"{place}:{row.line}: the kind is {quote(kind)}, and has to be one of {', '.join(KINDS)}")
        if kind == "node":
            _require(network.node_named(name) is not None, place, row, f"the network has no node {quote(name)}")
            _require(signal not in found.nodes, place, row, f"signal {quote(signal)} is the one of a node above")
            found.nodes[signal] = name
            continue
        _require(signal in found.nodes, place, row, f"write a row `{signal},node,,NAME,` above, which says the node of this signal")
        channel = signal, number_in(place, row.line, "the number", number)
        after = number_in(place, row.line, "the seconds", seconds) if seconds else 0
        _add(found, network, (place, row), channel, (kind, name, after))
    return found


def _add(found: Channels, network: Network, at: tuple[Place, Record], channel: Channel, row: tuple[str, str, int]) -> None:
    """Adds what a row says of a number."""
    (kind, name, seconds), node = row, network.node_named(found.nodes[channel[0]])
    tables = {"phase": found.phases, "overlap": found.overlaps, "walk": found.walks, "detector": found.detectors}
    _require(channel not in tables[kind], *at, f"{kind} {channel[1]} of signal {quote(channel[0])} is in a row above")
    if kind == "phase":
        is_phase = name.isascii() and name.isdigit() and int(name) < len(node.phases)
        _require(is_phase, *at, f"{quote(name)} is no phase of node {quote(node.name)}: write one of 0 to {len(node.phases) - 1}")
        found.phases[channel] = int(name)
        return
    link = network.link_named(name)
    ends = link is not None and link.end == node.name
    _require(ends, *at, f"{quote(name)} is no link that ends at node {quote(node.name)}")
    _require((kind == "walk") <= (link.walk is not None), *at, f"link {quote(name)} has no `walk`, so it is no crossing")
    tables[kind][channel] = (name, seconds) if kind == "detector" else name


def _require(is_so: bool, place: Place, row: Record, words: str) -> None:
    if not is_so:
        raise Fault(f"{place}:{row.line}: {words}")

