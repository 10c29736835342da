"""Reads controllers' high-resolution events as a sheet for `audit`, and as arrivals: docs/FORMATS.md, "Event log".

    ./signal from-log NET LOG [ARR] [--arrivals FILE] [--map MAP] [--begin STAMP]

Writes the greens of the log, and what the links count under them where ARR arrives, as a report. With `--arrivals` the vehicles that went over
detectors are written to FILE, and count where there is no ARR. Greens out of bounds, yellows and red clearances that are too short, greens
that come too early, gaps and clocks that step are told on standard error, and the status is then 1. Nothing here is proved.
"""

import argparse
import sys
from collections import Counter, defaultdict
from collections.abc import Iterable, Sequence

from ..arrivals import VEHICLE, Arrival, arrivals_text, read_arrivals, require_links
from ..commands import Words, end
from ..faults import Fault
from ..files import write_file
from ..flows import flows_of_greens
from ..networks import Network, network_faults, read_network
from ..records import plural, quote
from ..reports import HEADER, Green
from .channels import Channel, Channels, own_channels, read_channels
from .events import Code, Event, Log, begin_of, read_log
from .rows import SECOND, Rows, Stage, tell_links, union
from .spells import STEPS, Findings, spells_of, tell_steps

PHASES = (Code.GREEN, Code.YELLOW, Code.CLEAR, Code.CLEARED)
OVERLAPS = (Code.OVERLAP_GREEN, Code.OVERLAP_YELLOW, Code.OVERLAP_CLEAR, Code.OVERLAP_CLEARED)
WALKS = (Code.WALK, Code.CROSS, Code.CROSSED)


def by_channel(events: Iterable[Event], codes: Sequence[Code]) -> dict[Channel, list[Event]]:
    """The events of these codes by signal and number."""
    found: dict[Channel, list[Event]] = defaultdict(list)
    for event in events:
        if event.code in codes:
            found[event.signal, event.parameter].append(event)
    return found


class Reading:
    """A log that is read by the channels of a network."""

    def __init__(self, network: Network, channels: Channels, log: Log, place: str) -> None:
        self.network, self.log, self.place = network, log, place
        self.channels, self.findings = channels, Findings()
        self.events = [event for event in log.events if event.signal in channels.nodes and event.tenths >= 0]
        self.by_signal: dict[str, list[Event]] = defaultdict(list)
        for event in self.events:
            self.by_signal[event.signal].append(event)
        self.require_signals()
        self.phases, self.links = by_channel(self.events, PHASES), by_channel(self.events, OVERLAPS)
        self.walks = by_channel(self.events, WALKS)
        self.require_phases()

    def require_signals(self) -> None:
        """Raises a fault where no event is of a signal that is known, or where without a map one is not."""
        strange = next((event for event in self.log.events if event.signal not in self.channels.nodes), None)
        if strange is not None and (self.channels.is_whole or not self.events):
            known = ", ".join(self.channels.nodes)
            words = f"signal {quote(strange.signal)} is none of {known}: say by --map which node each signal is"
            raise Fault(f"{self.place}:{strange.line}: {words}")
        if not self.events:
            raise Fault(f"{self.place}: no event is of second 0 or later: write --begin, the time stamp of second 0")

    def require_phases(self) -> None:
        """Raises a fault, or tells, where a phase is none of a signal's."""
        for channel, events in self.phases.items():
            if channel in self.channels.phases:
                continue
            signal, number = channel
            known = ", ".join(str(own) for of, own in self.channels.phases if of == signal) or "none"
            words = f"phase {number} is none of signal {quote(signal)}, which has {known}"
            if self.channels.is_whole:
                raise Fault(f"{self.place}:{events[0].line}: {words}: say by --map which phase of the network it is")
            self.findings.tell(signal, "phase", events[0].tenths, f"{words} by the map: {plural(len(events), 'event')} passed over")

    def rows(self) -> list[Green]:
        """The greens of all nodes, in the order of the network."""
        rows: list[Green] = []
        signals = {node: signal for signal, node in self.channels.nodes.items()}
        for node in self.network.nodes:
            if node.name in signals:
                rows += self.rows_of(node.name, signals[node.name])
        return rows

    def rows_of(self, name: str, signal: str) -> list[Green]:
        """The greens of a node."""
        node, own = self.network.node_named(name), self.by_signal[signal]
        if not own:
            self.findings.tell(signal, "none", 0, f"node {name}: the log has no event of it")
            return []
        most = SECOND * (self.network.run.look + max(phase.greatest + phase.yellow + phase.clear for phase in node.phases))
        tell_steps(signal, [*(own if own[0].tenths <= most else [Event(0, signal, 0, 0), *own])], most, self.findings)
        last = max(event.tenths for event in own)
        if SECOND * self.network.run.seconds - last > most:
            self.findings.tell(signal, "end", last, f"the log ends before the run, which goes up to second {self.network.run.seconds}")
        stages = self.stages_of(signal, len(node.phases))
        rows = Rows(node, signal, stages, last, self.findings).greens()
        for table, events, name_of in ((self.channels.overlaps, self.links, "overlap"), (self.channels.walks, self.walks, "walk")):
            for channel, link in table.items():
                if channel[0] == signal and channel in events:
                    spells = spells_of(name_of, channel, events[channel], self.findings)
                    tell_links(self.network, self.network.link_named(link), rows, spells, (signal, self.findings))
        return rows

    def stages_of(self, signal: str, count: int) -> list[Stage]:
        """The spells of the phases of a node, in the order of time."""
        stages: list[Stage] = []
        for phase in range(count):
            channels = [channel for channel, number in self.channels.phases.items() if channel[0] == signal and number == phase]
            spells = [spells_of("phase", channel, self.phases[channel], self.findings) for channel in channels if channel in self.phases]
            if spells:
                stages += [Stage(phase, spell) for spell in union(spells, signal, phase, self.findings)]
        return sorted(stages, key=lambda stage: stage.spell.begin)

    def arrivals(self) -> list[Arrival]:
        """What went over the detectors of links that enter the network."""
        amounts: Counter[tuple[int, int]] = Counter()
        places = {link.name: place for place, link in enumerate(self.network.links)}
        for event in self.events:
            link, after = self.channels.detectors.get((event.signal, event.parameter), ("", 0))
            if event.code != Code.ON or not link or self.network.link_named(link).start is not None:
                continue
            second = event.tenths // SECOND - after
            if 0 <= second < self.network.run.seconds:
                amounts[second, places[link]] += VEHICLE
            else:
                self.findings.tell(event.signal, "vehicle", event.tenths, f"a vehicle enters {link} in second {second}, outside of the run")
        names = [link.name for link in self.network.links]
        return [Arrival(second, names[place], amount) for (second, place), amount in sorted(amounts.items())]


def sheet_text(network: Network, arrivals: Iterable[Arrival], rows: Sequence[Green]) -> str:
    """The text of a report of these greens, with what the links count under them."""
    flows = flows_of_greens(network, arrivals, rows)
    entered = sum(flow.entered[-1] for flow in flows.values() if flow.link.start is None)
    left = sum(flow.left[-1] for flow in flows.values() if flow.link.end is None)
    lines = [",".join(HEADER), *(f"green,,{row.node},{row.phase},{row.begin},{row.end}," for row in rows)]
    lines += [f"link,,,{name},{flow.entered[-1]},{flow.left[-1]},{flow.delay}" for name, flow in flows.items()]
    lines.append(f"total,,,{entered},{left},{entered - left},{sum(flow.delay for flow in flows.values())}")
    return "\n".join(lines) + "\n"


def parser() -> Words:
    """What the command takes."""
    words = Words(__doc__)
    words.add_argument("network")
    words.add_argument("log")
    words.add_argument("arrivals", nargs="?", help="what enters the network; without it the vehicles of the detectors")
    words.add_argument("--arrivals", dest="write", metavar="FILE", help="where the vehicles of the detectors are written to")
    words.add_argument("--map", metavar="MAP", help="what the signals and numbers of the log are in the network")
    words.add_argument("--begin", metavar="STAMP", help="the time stamp of second 0 (the midnight before the first event)")
    return words


def read(options: argparse.Namespace) -> tuple[str, Reading]:
    """The sheet, and the reading of the log."""
    network = read_network(options.network)
    begin = begin_of(options.begin) if options.begin else None
    channels = read_channels(options.map, network) if options.map else own_channels(network)
    reading = Reading(network, channels, read_log(options.log, begin), options.log)
    rows = reading.rows()
    if options.write:
        arrivals = reading.arrivals()
        write_file(options.write, arrivals_text(arrivals))
    if options.arrivals:
        arrivals = read_arrivals(options.arrivals)
        require_links(network, options.arrivals, arrivals)
    return sheet_text(network, arrivals, rows), reading


def work(words: Sequence[str] | None = None) -> int:
    """Writes the sheet, and what is told; answers the status."""
    form = parser()
    options = form.parse_args(words)
    if not (options.arrivals or options.write):
        form.error("name the arrivals, or by --arrivals FILE where those of the detectors are written to")
    with network_faults(options.network):
        sheet, reading = read(options)
    print(sheet, end="")
    told = list(reading.findings.told())
    for signal, tenths, words_of in told:
        print(f"from-log: signal {signal}, {reading.log.stamp(tenths)}: {words_of}", file=sys.stderr)
    return 1 if reading.findings.are_faults else 0


def main() -> None:
    """Runs the command by the words that the process was called with."""
    end(work)


if __name__ == "__main__":
    main()
