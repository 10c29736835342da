"""Writes a street of a junction file as plain files of SUMO, and has netconvert make a network of them: nodes, edges,
connections, programs.

    python3 -m tests.plain_street FILE.toml DIR
"""

import subprocess
import sys
from pathlib import Path

from kolvunh.street.draft import places_of_street, point_from
from kolvunh.street.greens import Signals
from kolvunh.street.junction_file import read_street
from kolvunh.street.legs import Path as Way
from kolvunh.street.plan import Approach, Crossing, Street

GREEN, SPEED = 20, 3.6


class PlainStreet:
    """A street as edges with a sidewalk where a crossing is; lanes are numbered from the left here, and from the right
    in SUMO."""

    def __init__(self, street: Street) -> None:
        self.street = street
        self.signals = {name: Signals(street, junction) for name, junction in street.junctions.items()}
        self.places = places_of_street(street)
        self.walked = {edge for name, signals in self.signals.items() for leg in signals.junction.crossings for edge in self.edges_of(name, leg)}
        self.indices = {name: dict(self._indices(signals)) for name, signals in self.signals.items()}

    def edge(self, name: str, leg: str) -> str:
        """The edge by which vehicles come."""
        return f"{name}_{leg}"

    def onward(self, name: str, leg: str) -> str:
        """The edge by which vehicles leave by a leg: that to the neighbour, or one that leads outside."""
        following = self.street.junctions[name].approaches[leg].next
        if following is None:
            return f"{name}_{leg}_out"
        back = next(other for other in self.street.junctions[following].approaches.values() if other.next == name)
        return self.edge(following, back.leg)

    def edges_of(self, name: str, leg: str) -> list[str]:
        """Both edges of a leg."""
        return [self.edge(name, leg), self.onward(name, leg)]

    def _indices(self, signals: Signals):
        yield from ((way, number) for number, way in enumerate([*signals.paths, *signals.junction.crossings.values()]))

    def nodes(self):
        """The nodes, and the outer ends of legs."""
        for name, junction in self.street.junctions.items():
            x, y = self.places[name]
            yield f'<node id="{name}" x="{x}" y="{y}" type="traffic_light" tl="{name}"/>'
            for leg, approach in junction.approaches.items():
                if approach.next is None:
                    x, y = point_from(self.places[name], leg, approach.distance)
                    yield f'<node id="{name}_{leg}_end" x="{x}" y="{y}"/>'

    def edges(self):
        """The edges with their lanes."""
        for name, signals in self.signals.items():
            for leg, approach in signals.junction.approaches.items():
                start = approach.next or f"{name}_{leg}_end"
                yield self.edge_text(
                    self.edge(name, leg), start, name, approach, [lane.is_bus for lane in reversed(approach.lanes)],
                )
                if approach.next is None:
                    yield self.edge_text(self.onward(name, leg), name, start, approach, [False] * signals.out(leg))

    def edge_text(self, edge: str, start: str, end: str, approach: Approach, buses: list[bool]) -> str:
        """An edge; its lanes are from the right."""
        kinds = ["pedestrian", *("bus" if bus else "" for bus in buses)] if edge in self.walked else [
            "bus" if bus else "" for bus in buses
        ]
        lanes = "".join(f'<lane index="{n}" allow="{kind}"/>' if kind else f'<lane index="{n}" disallow="pedestrian"/>' for n, kind in enumerate(kinds))
        return f'<edge id="{edge}" from="{start}" to="{end}" numLanes="{len(kinds)}" speed="{approach.speed / SPEED}">{lanes}</edge>'

    def lane(self, name: str, leg: str, number: int) -> int:
        """The number in SUMO of a lane by which vehicles come."""
        return len(self.street.junctions[name].approaches[leg].lanes) - 1 - number + (
            self.edge(name, leg) in self.walked
        )

    def target(self, name: str, way: Way) -> int:
        """The number in SUMO of the lane into which a way leads; no car leads into a bus lane."""
        signals, edge = self.signals[name], self.onward(name, way.leg)
        number = signals.out(way.leg) - 1 - way.target
        following = signals.junction.approaches[way.leg].next
        if following is not None and not signals.junction.approaches[way.approach].lanes[way.lane].is_bus:
            back = next(other for other in self.street.junctions[following].approaches.values() if other.next == name)
            number += back.lanes[len(back.lanes) - 1 - number].is_bus
        return number + (edge in self.walked)

    def connections(self, has_index: bool):
        """The ways of vehicles, and the crossings; with their places in the program's states for that file."""
        for name, signals in self.signals.items():
            for way, number in self.indices[name].items():
                index = f' tl="{name}" linkIndex="{number}"' if has_index else ""
                if isinstance(way, Way):
                    ends = f'from="{self.edge(name, way.approach)}" to="{self.onward(name, way.leg)}"'
                    lanes = f'fromLane="{self.lane(name, way.approach, way.lane)}" toLane="{self.target(name, way)}"'
                    yield f"<connection {ends} {lanes}{index}/>"
                elif not has_index:
                    yield f'<crossing node="{name}" edges="{" ".join(self.edges_of(name, way.leg))}" priority="1" linkIndex="{number}"/>'

    def programs(self):
        """Each stage as a green, a yellow and an all-red."""
        for name, signals in self.signals.items():
            yield f'<tlLogic id="{name}" type="static" programID="0" offset="0">'
            for number in range(len(signals.junction.stages)):
                state = "".join(self.letter(signals, number, way) for way in self.indices[name])
                yellow = "".join("r" if letter == "r" or isinstance(way, Crossing) else "y" for letter, way in zip(state, self.indices[name]))
                yield f'<phase duration="{GREEN}" state="{state}"/><phase duration="3" state="{yellow}"/><phase duration="2" state="{"r" * len(state)}"/>'
            yield "</tlLogic>"
        yield from self.connections(True)

    def letter(self, signals: Signals, stage: int, way: Way | Crossing) -> str:
        """What a way is shown."""
        return "r" if way not in signals.greens[stage] else "g" if signals.giving[stage].get(way) else "G"

    def routes(self):
        """A vehicle for each way and a person for each crossing."""
        yield '<vType id="bus" vClass="bus"/>'
        number = 0
        for name in self.signals:
            for way in self.indices[name]:
                number += 1
                if isinstance(way, Way):
                    yield f'<vehicle id="v{number}" depart="{number}"><route edges="{self.edge(name, way.approach)} {self.onward(name, way.leg)}"/></vehicle>'

    def write(self, folder: Path) -> Path:
        """Writes the plain files and the routes, and has the network made; answers where that is."""
        texts = {"nod": ("nodes", self.nodes()), "edg": ("edges", self.edges()), "con": ("connections", self.connections(False)),
                 "tll": ("tlLogics", self.programs()), "rou": ("routes", self.routes())}  # fmt: skip
        for kind, (root, lines) in texts.items():
            (folder / f"street.{kind}.xml").write_text(
                "\n".join([f"<{root}>", *lines, f"</{root}>", ""]), encoding="utf-8",
            )
        files = [f"--{word}-files={folder / f'street.{kind}.xml'}" for word, kind in (("node", "nod"), ("edge", "edg"), ("connection", "con"), ("tllogic", "tll"))]
        subprocess.run(
            ["netconvert", *files, "--no-turnarounds", "-o", folder / "street.net.xml"],
            check=True,
            capture_output=True,
        )
        return folder / "street.net.xml"


if __name__ == "__main__":
    Path(sys.argv[2]).mkdir(parents=True, exist_ok=True)
    PlainStreet(read_street(sys.argv[1])).write(Path(sys.argv[2]))
