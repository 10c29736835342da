"""Writes a report as a log of controllers' events: docs/FORMATS.md, "Event log".

    ./signal to-log NET REPORT [ARR] [--begin STAMP]

The greens of each node become begins of green, yellow and red clearance and the end of it; links that are green in several phases become
overlaps, crossings walks, and with ARR each vehicle that enters a link that leads to a node goes over a detector at its begin. Nothing here
is proved.
"""

import sys
from collections.abc import Iterable, Iterator, Sequence

from ..arrivals import VEHICLE, Arrival, read_arrivals, require_links
from ..commands import Words, end
from ..networks import Link, Network, Node, network_faults, read_network
from ..reports import Green, Records, read_report
from ..signs import lights_of
from .channels import Channels, own_channels
from .events import FIRST_DAY, Code, Event, Log, begin_of, log_text

SECOND = 10  # tenths


def phase_events(node: Node, signal: str, rows: Iterable[Green]) -> Iterator[Event]:
    """The events of the phases of a node, row after row."""
    for row in rows:
        phase = node.phases[row.phase]
        seconds = (row.begin, row.end, row.end + phase.yellow, row.end + phase.yellow + phase.clear)
        codes = (Code.GREEN, Code.YELLOW, Code.CLEAR, Code.CLEARED)
        yield from (Event(SECOND * second, signal, code, row.phase + 1) for second, code in zip(seconds, codes))


def overlap_events(network: Network, link: Link, channel: tuple[str, int], rows: Sequence[Green]) -> Iterator[Event]:
    """The events of a link that is green in several phases."""
    node, _ = network.phase_of[link.name]
    clear = {row.end: node.phases[row.phase].clear for row in rows if row.phase in network.greens_of[link.name]}
    codes = (Code.OVERLAP_GREEN, Code.OVERLAP_YELLOW, Code.OVERLAP_CLEAR, Code.OVERLAP_CLEARED)
    for light in lights_of(network, link, rows):
        seconds = (light.begin, light.end, light.clear, light.clear + clear[light.end])
        yield from (Event(SECOND * second, channel[0], code, channel[1]) for second, code in zip(seconds, codes))


def walk_events(network: Network, link: Link, channel: tuple[str, int], rows: Sequence[Green]) -> Iterator[Event]:
    """The events of a crossing."""
    for light in lights_of(network, link, rows):
        seconds = (light.begin, light.end, light.clear)
        codes = (Code.WALK, Code.CROSS, Code.CROSSED)
        yield from (Event(SECOND * second, channel[0], code, channel[1]) for second, code in zip(seconds, codes))


def detector_events(channel: tuple[str, int], arrivals: Iterable[Arrival]) -> Iterator[Event]:
    """A detector on and off for each whole vehicle of the arrivals at a link, in the order of time."""
    amount = 0
    for arrival in sorted(arrivals, key=lambda arrival: arrival.second):
        before, amount = amount // VEHICLE, amount + arrival.amount
        count = amount // VEHICLE - before
        for number in range(count):
            tenths = SECOND * arrival.second + SECOND * number // count
            yield from (Event(tenths, channel[0], code, channel[1]) for code in (Code.ON, Code.OFF))


def events_of(network: Network, report: Records, arrivals: Sequence[Arrival]) -> list[Event]:
    """The events of a report in the order of time, and of the nodes."""
    channels, greens = own_channels(network), report.greens_of()
    events: list[Event] = []
    for signal, name in channels.nodes.items():
        rows, node = greens.get(name, []), network.node_named(name)
        events += phase_events(node, signal, rows)
        for links, make in ((channels.overlaps, overlap_events), (channels.walks, walk_events)):
            for channel, link in links.items():
                events += make(network, network.link_named(link), channel, rows) if channel[0] == signal else ()
    for channel, (link, _) in channels.detectors.items():
        events += detector_events(channel, (arrival for arrival in arrivals if arrival.link == link))
    places = {signal: place for place, signal in enumerate(channels.nodes)}
    return sorted(events, key=lambda event: (event.tenths, places[event.signal]))


def parts_left(channels: Channels, arrivals: Iterable[Arrival]) -> int:
    """What of the arrivals is no whole vehicle on a link with a detector, in thousandths."""
    sums: dict[str, int] = {}
    for arrival in arrivals:
        sums[arrival.link] = sums.get(arrival.link, 0) + arrival.amount
    detected = {link for link, _ in channels.detectors.values()}
    return sum(amount % VEHICLE for link, amount in sums.items() if link in detected)


def answer(words: Sequence[str] | None = None) -> str:
    """What the command writes."""
    parser = Words(__doc__)
    parser.add_argument("network")
    parser.add_argument("report")
    parser.add_argument("arrivals", nargs="?", help="what enters the network; without it the log has no detectors")
    parser.add_argument("--begin", default=FIRST_DAY, metavar="STAMP", help=f"the time stamp of second 0 ({FIRST_DAY})")
    options = parser.parse_args(words)
    begin = begin_of(options.begin)
    with network_faults(options.network):
        network, report = read_network(options.network), read_report(options.report)
        report.require_network(network, options.report)
        arrivals = read_arrivals(options.arrivals) if options.arrivals else []
        require_links(network, options.arrivals or "", arrivals)
        left = parts_left(own_channels(network), arrivals)
        if left:
            print(f"to-log: {left / VEHICLE:g} of what arrives are parts of vehicles, which go over no detector", file=sys.stderr)
        return log_text(Log(begin, events_of(network, report, arrivals)))


def main() -> None:
    """Runs the command by the words that the process was called with."""
    end(lambda: print(answer(), end=""))


if __name__ == "__main__":
    main()
