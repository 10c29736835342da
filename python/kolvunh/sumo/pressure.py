"""Max-pressure as a controller beside the program: it looks each second, and may show any phase next. Nothing here is proved.

The pressure of a phase is the sum over its links of `sat` times what a lane of the link has more than a lane of its exits, by their
shares; of those links that are green in it also and give way, of `yield_sat`. A link has its queue and what comes within 3 seconds. The
phase is changed after its least green where another one has more than nine times its pressure, and after its greatest green.
"""

from collections import Counter
from collections.abc import Mapping

from .layout import LANE_SAT

NEAR = 3  # seconds
TIMES = 9

Rows = dict[str, list[tuple[int, int, int]]]


class MaxPressure:
    """The greens of the nodes so far: rows of phase, from, to; the last one ends with its greatest green until it is changed."""

    def __init__(self, signals) -> None:
        self._nodes, self._links = signals.layout.nodes, signals.layout.links
        self.lines: Rows = {name: [(0, 0, node["phase"][0]["greatest"])] for name, node in self._nodes.items()}

    def act(self, now: int, queues: Counter[str], coming: Mapping[tuple[str, int], int]) -> Rows:
        """Changes phases in a second, and answers the greens."""
        here = Counter(queues)
        for (link, second), count in coming.items():
            if second - now <= NEAR:
                here[link] += count
        for name, node in self._nodes.items():
            phase, begin, _ = self.lines[name][-1]
            plan, age = node["phase"][phase], now - begin
            if age >= plan["least"]:
                pressures = [self._pressure(of, here) for of in node["phase"]]
                best = max((other for other in range(len(pressures)) if other != phase), key=lambda other: pressures[other])
                if age >= plan["greatest"] or pressures[best] > TIMES * pressures[phase]:
                    start = now + plan["yellow"] + plan["clear"]
                    self.lines[name][-1] = phase, begin, now
                    self.lines[name].append((best, start, start + node["phase"][best]["greatest"]))
        return self.lines

    def _pressure(self, phase, here: Counter[str]) -> float:
        """The pressure of a phase for the vehicles that are on the links."""
        total = 0.0
        for name in (*phase["links"], *phase.get("also", [])):
            link = self._links.get(name)
            if link is not None:
                onward = sum(turn["share"] * self._by_lane(turn["exit"], here) for turn in link.get("turn", [])) / 1000
                rate = link["yield_sat"] if "yields" in link and name not in phase["links"] else link["sat"]
                total += rate * max(0, self._by_lane(name, here) - onward)
        return total

    def _by_lane(self, link: str, here: Counter[str]) -> float:
        return here[link] / max(1, round(self._links[link]["sat"] / LANE_SAT))
