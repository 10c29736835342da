"""Measures in SUMO what stop lines let through, and writes the network file with it.

    tools/sumo/calibrate.py NET.net.xml ROUTES DIR OUT.toml [--controller NAME] [--seeds N] [--scale TIMES]

DIR is the folder that from_sumo.py wrote of NET; OUT.toml is DIR/net.toml with what is measured in place of `sat`, `yield_sat` and
`loss`. The network runs under SUMO's `actuated` or `delay_based` control, or under its own program; its demand has to make queues, as
with --scale 1.5. `sat` counts who leaves in the seconds, from the sixth of a green on, in which a queue of more than two vehicles a
lane stands and the link need not give way; `yield_sat` those in which it has to, and one to which it does is green and has somebody
near. `loss` of a phase is what its first twelve seconds bring less than `sat`, after queues of more than four vehicles a lane. What is
seen in less than 40 seconds, or 5 greens, stays as it is. A line for each link and phase says what was and what is. Nothing here is
proved.
"""

import re
import subprocess
from argparse import Namespace
from collections import Counter, defaultdict
from pathlib import Path
from typing import Any

from ..commands import Words, end
from ..files import write_file
from ..records import text_of
from .loop import traci_of_sumo
from .measures import run_words
from .own import OwnSensors, OwnSignals
from .to_sumo import element

FROM, FIRST, NEAR, LONG, STANDS = 5, 12, 1, 4, 2  # seconds of a green, that tell the loss, to the stop line; vehicles a lane
LEAST_SECONDS, LEAST_GREENS, MOST_LOSS, LEAST_SAT, MOST_SAT = 40, 5, 10, 20, 5000
VEHICLE = 1000  # thousandths


class Count:
    """Of stop lines, by their lanes: who left in how many seconds, free or giving way; and in the first seconds of phases."""

    def __init__(self, signals: OwnSignals) -> None:
        self.layout, self.lanes = signals.layout, {link: tuple(lanes) for link, lanes in signals.lanes.items()}
        self.left: Counter[tuple[tuple[str, ...], bool]] = Counter()
        self.seconds: Counter[tuple[tuple[str, ...], bool]] = Counter()
        self.first: dict[tuple[tuple[str, ...], int], list[int]] = defaultdict(list)
        phases = [(node, n, phase) for node, of in signals.layout.nodes.items() for n, phase in enumerate(of["phase"])]
        self.home = {link: (node, n) for node, n, phase in phases for link in phase["links"]}
        self._indices = {link: self._places(signals, link) for link in self.home}
        self._since: dict[str, int] = {}
        self._early: dict[str, int] = {}
        self._tls = {link: signals.tls(node) for link, (node, _) in self.home.items()}
        self._before: dict[str, tuple[str, int]] = {}

    def _places(self, signals: OwnSignals, link: str) -> list[int]:
        moves = signals.junctions.movements[signals.tls(self.home[link][0])]
        return [move.index for move in moves if move.lane in self.lanes[link]]

    def look(self, now: int, where: dict[str, tuple[str, int]], queues: Counter[str], near: set[str], states: dict[str, str]) -> None:
        """Counts one second: who has left since the last one, from which queue; `near` are links with a queue or vehicles close by."""
        gone = Counter(link for vehicle, (link, place) in self._before.items() if where.get(vehicle, ("", -1))[1] != place)
        self._before = where
        by_line = Counter[tuple[str, ...]]()
        left = Counter[tuple[str, ...]]()
        for link, lanes in self.lanes.items():
            by_line[lanes] += queues[link]
            left[lanes] += gone[link]
        for link, places in self._indices.items():
            letters = {states[self._tls[link]][place] for place in places} or {"r"}
            if not letters <= {"G", "g"}:
                self._since.pop(link, None)
                self._early.pop(link, None)
            elif link not in self._since:
                self._since[link] = now
                if letters == {"G"} and by_line[self.lanes[link]] > LONG * len(self.lanes[link]):
                    self._early[link] = 0
        for link in self._leading():
            giving = self._gives_way(link, near) if "g" in {states[self._tls[link]][place] for place in self._indices[link]} else False
            self._count(link, now, left, by_line, giving)

    def _leading(self) -> list[str]:
        """Of the green links one for each stop line."""
        return list({self.lanes[link]: link for link in self._since}.values())

    def _gives_way(self, link: str, near: set[str]) -> bool | None:
        """Whether a link that may have to give way has to; None where nobody is near to whom it would, so that it is not known."""
        others = self.layout.links[link].get("yields", [])
        return True if any(other in self._since and other in near for other in others) else None if others else False

    def _count(self, link: str, now: int, left: Counter, queues: Counter, giving: bool | None) -> None:
        lanes, age = self.lanes[link], now - self._since[link]
        if age >= FROM and queues[lanes] > STANDS * len(lanes) and giving is not None:
            self.left[lanes, giving] += left[lanes]
            self.seconds[lanes, giving] += 1
        if link in self._early and age <= FIRST:
            self._early[link] += left[lanes] if age else 0
            if age == FIRST:
                self.first[lanes, self.home[link][1]].append(self._early[link])

    def rate(self, lanes: tuple[str, ...], giving: bool) -> float | None:
        """What a stop line lets through, in thousandths of a vehicle a second, where it was seen long enough."""
        seconds = self.seconds[lanes, giving]
        return VEHICLE * self.left[lanes, giving] / seconds if seconds >= LEAST_SECONDS else None

    def changes(self) -> dict[str, dict[str, int]]:
        """The new `sat` and `yield_sat` of links; the links of a stop line share it as before."""
        found: dict[str, dict[str, int]] = defaultdict(dict)
        for link in self.home:
            lanes, table = self.lanes[link], self.layout.links[link]
            whole = sum(self.layout.links[other]["sat"] for other in self.home if self.lanes[other] == lanes)
            free, giving = self.rate(lanes, False), self.rate(lanes, True)
            if free is not None and "walk" not in table:
                found[link]["sat"] = max(LEAST_SAT, min(MOST_SAT, round(free * table["sat"] / whole)))
            sat = found[link].get("sat", table["sat"])
            if "yields" in table:
                rate = table["yield_sat"] if giving is None else round(giving * table["sat"] / whole)
                found[link]["yield_sat"] = max(min(sat, LEAST_SAT), min(sat, rate))
        return {link: {key: new for key, new in keys.items() if new != self.layout.links[link][key]} for link, keys in found.items()}

    def losses(self) -> dict[tuple[str, int], int]:
        """The new `loss` of phases, in whole seconds: the mean over their stop lines."""
        found: dict[tuple[str, int], list[float]] = defaultdict(list)
        for lanes, phase in self.first:
            link = next(link for link in self.home if self.lanes[link] == lanes)
            rate, greens = self.rate(lanes, False), self.first[lanes, phase]
            if rate and len(greens) >= LEAST_GREENS:
                found[self.home[link]].append(FIRST - VEHICLE * sum(greens) / len(greens) / rate)
        least = {(node, n): phase["least"] for node, of in self.layout.nodes.items() for n, phase in enumerate(of["phase"])}
        return {at: max(0, min(MOST_LOSS, least[at] - 1, round(sum(seen) / len(seen)))) for at, seen in found.items()}


def measured(signals: OwnSignals, words: list[str], count: Count) -> None:
    """Runs SUMO by its words, and counts."""
    traci = traci_of_sumo()
    traci.start(words, stdout=subprocess.DEVNULL)
    try:
        eyes = OwnSensors(traci, signals)
        tls = {signals.tls(node) for node in signals.layout.nodes}
        for now in range(signals.layout.seconds):
            queues, coming = eyes.look(now)
            near = {*queues, *(link for link, second in coming if second <= now + NEAR)}
            states = {name: traci.trafficlight.getRedYellowGreenState(name) for name in tls}
            count.look(now, dict(eyes.where), queues, near, states)
            traci.simulationStep()
    finally:
        traci.close()


def rewritten(text: str, network: dict[str, Any], links: dict[str, dict[str, int]], losses: dict[tuple[str, int], int]) -> str:
    """The text of a network file, as from_sumo.py writes it, with these numbers in place of its own."""
    parts = re.split(r"(?=^\[\[(?:node|link|conflict|node\.phase)\]\]$)", text, flags=re.MULTILINE)
    node, phase = "", -1
    for place, part in enumerate(parts):
        name = re.search(r'^name = "(.*)"$', part, re.MULTILINE)
        if part.startswith("[[node]]") and name:
            node, phase = name[1], -1
        elif part.startswith("[[node.phase]]"):
            phase += 1
            if (node, phase) in losses:
                parts[place] = re.sub(r"^loss = \d+$", f"loss = {losses[node, phase]}", part, flags=re.MULTILINE)
        elif part.startswith("[[link]]") and name:
            for key, new in links.get(name[1], {}).items():
                parts[place] = re.sub(rf"^{key} = \d+$", f"{key} = {new}", parts[place], flags=re.MULTILINE)
    return "".join(parts)


def run_all(options: Namespace, signals: OwnSignals) -> Count:
    """Counts over all seeds."""
    count, more = Count(signals), []
    if options.controller != "program":
        more = [options.folder / f"{options.controller}.calibrate.xml"]
        more[0].write_text(element("additional", "\n" + signals.programs(options.controller)), encoding="utf-8")
    for seed in range(1, options.seeds + 1):
        files = options.network, Path(str(options.routes).replace("%", str(seed)))
        words = run_words(options.folder, "calibrate", seed, signals, more, files)
        measured(signals, [*words, "--scale", str(options.scale)], count)
    return count


def work() -> None:
    """Measures, and writes the file."""
    parser = Words(__doc__)
    for name in ("network", "routes", "folder", "out"):
        parser.add_argument(name, type=Path)
    parser.add_argument("--controller", choices=("actuated", "delay_based", "program"), default="actuated")
    parser.add_argument("--seeds", type=int, default=1)
    parser.add_argument("--scale", type=float, default=1.0, help="how many times the vehicles of ROUTES drive")
    options = parser.parse_args()
    signals = OwnSignals(options.network, options.folder)
    count = run_all(options, signals)
    links, losses = count.changes(), count.losses()
    for link, keys in links.items():
        for key, new in keys.items():
            print(f"{link}: {key} {signals.layout.links[link][key]} -> {new}")
    for (node, phase), loss in losses.items():
        print(f"{node}: phase {phase}: loss {signals.layout.nodes[node]['phase'][phase]['loss']} -> {loss}")
    text = text_of(options.folder / "net.toml")
    write_file(options.out, rewritten(text, signals.layout.network, links, losses))


def main() -> None:
    """Runs the command."""
    end(work)


if __name__ == "__main__":
    main()
