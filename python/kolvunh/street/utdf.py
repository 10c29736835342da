"""Synchro's UTDF as a street, its counts and its fixed plan: docs/FORMATS.md, "UTDF". What can't be said is told,
junction by junction."""

import math
from collections import Counter
from collections.abc import Iterator
from dataclasses import dataclass, field, replace

from ..capacities import WALKING
from ..faults import Fault
from ..plans import PlanRow
from ..records import plural
from .count_file import Count
from .greens import Signals
from .junction_file import BOUNDS, RATES, RUN
from .legs import COMPASS, ORDER, Movement, exits_of
from .plan import Approach, Crossing, Green, Junction, Lane, Left, Stage, Street
from .rings import RingPhase, Rings, Times
from .servings import PEOPLE
from .utdf_file import LEGS, Cell, Utdf, words_of

SIGNAL, OUTSIDE, BEND = 0, 1, 2  # values of TYPE in [Nodes]; 3 is unsignalled, 4 a roundabout
FOOT, MILE = 0.3048, 1.609344
PHASES = ("phase1", "phase2", "phase3", "phase4")
MOST_BENDS = 50


@dataclass
class Signal:
    """A junction of a file, with the stages of its plan."""

    junction: Junction
    rings: Rings
    offset: int
    peds: dict[str, int] = field(default_factory=dict)


def number_of(movement: Movement) -> str:
    """The letter of a movement in the names of columns."""
    return "ltr"[ORDER.index(movement)]


class Reader:
    """Makes a street of a file. `told` is what can't be said."""

    def __init__(self, file: Utdf) -> None:
        self.file, self.told = file, list[str]()
        self.types = {node: int(file.number("nodes", node, "", "type")) for node in file.cells["nodes"]}
        is_metric = file.number("network", "", "metric", "data") == 1
        self.metre, self.speed = (1.0, 1.0) if is_metric else (FOOT, MILE)
        self.columns = {
            LEGS[column[:-1] if column[-1] == "b" else column]: column
            for column in ("nb", "sb", "eb", "wb", "ne", "nw", "se", "sw")
        }
        if SIGNAL not in self.types.values():
            file.fail(file.lines["nodes"], f"[Nodes]: no node has TYPE {SIGNAL}, a signal: write it")
        self.signals: dict[str, Signal] = {}
        for node, kind in self.types.items():
            if kind == SIGNAL:
                self._take(node)
            elif kind not in (OUTSIDE, BEND):
                self.tell(node, "it has no signal, and its neighbours lead outside")

    def tell(self, node: str, words: str) -> None:
        """Tells what of a junction can't be said."""
        self.told.append(f"junction {node}: {words}")

    def _take(self, node: str) -> None:
        """Reads a junction; where it can't be one of the network, that is told."""
        rings = Rings(list(self._phases(node)))
        for words in rings.told:
            self.tell(node, words)
        signal, reason = None, rings.lost
        if reason is None:
            signal = self._signal(node, rings)
            try:
                Signals(Street(str(self.file.place), {}, 1900, {}), signal.junction)
            except Fault as fault:
                reason = str(fault).split(f"junction {name_of(node)}, ", 1)[-1]
        if signal is not None and reason is None:
            self.signals[node] = signal
        else:
            self.tell(node, f"it is no junction of the network, and its neighbours lead outside: {reason}")

    def street(self) -> Street:
        """The street of the junctions that can be said; neighbours that can't are outside."""
        if not self.signals:
            raise Fault(f"{self.file.place}: none of its junctions can be said: {self.told[-1]}")
        junctions = {name_of(node): signal.junction for node, signal in self.signals.items()}
        for name, junction in junctions.items():
            joined = {leg: self._joined(name, approach, junctions) for leg, approach in junction.approaches.items()}
            junctions[name] = replace(junction, approaches=joined)
        sat = self.file.number("network", "", "defflow", "data", 1900)
        return Street(str(self.file.place), junctions, min(max(sat, 300), 3600), dict(RUN))

    def _joined(self, name: str, approach: Approach, junctions: dict[str, Junction]) -> Approach:
        """An approach without its neighbour where that leads here by no leg, or by two."""
        back = [
            other
            for other in (
                junctions[approach.next].approaches.values() if approach.next in junctions else ()
            ) if other.next == name
        ]
        twice = [other for other in junctions[name].approaches.values() if other.next == approach.next]
        return approach if len(back) == 1 == len(twice) else replace(approach, next=None)

    def _signal(self, node: str, rings: Rings) -> Signal:
        """A junction with the stages of its rings."""
        approaches = dict(self._approaches(node))
        green_of = self._greens(node, approaches, {phase.number for phase in rings.phases})
        crossings, peds = self._crossings(node, approaches, green_of)
        stages = [self._stage(node, stage, green_of, crossings) for stage in rings.stages]
        shown = {green.leg for stage in stages for green in stage.greens if green.is_walk}
        crossings = {leg: walk for leg, walk in crossings.items() if leg in shown}
        offset = self._offset(node, rings)
        return Signal(
            Junction(name_of(node), approaches, crossings, self._skips(stages), line=self.file.line("phases", node)),
            rings,
            offset,
            peds,
        )

    def _phases(self, node: str) -> Iterator[RingPhase]:
        """The phases that have a place in a ring and a split."""
        places = self.file.cells["phases"].get(node, {}).get("brp", {})
        if not places:
            self.file.fail(
                self.file.line("phases", node),
                f"junction {node}: [Phases] has no BRP of it: write barrier, ring and position of each phase, as 111",
            )
        cells = [
            cell.text
            for record in ("yellow", "allred") for cell in self.file.cells["phases"][node].get(record, {}).values()
        ]
        if any(not text.partition(".")[2].strip("0") == "" for text in cells):
            self.tell(node, "yellow and all-red are rounded up to whole seconds")
        lanes = self.file.cells["lanes"].get(node, {})
        used = {
            cell.text
            for prefix in ("", "perm") for record in PHASES for cell in lanes.get(prefix + record, {}).values()
        }
        for column, cell in places.items():
            if cell.text == "0" or not column[1:].isdigit():
                continue
            if not cell.text.isdigit() or len(cell.text) != 3:
                self.file.fail(
                    cell.line,
                    f"junction {node}{words_of(column)}: brp is {cell.text!r}: write barrier, ring and position of "
                    f"the phase, as 111",
                )
            times = (("yellow", 3.5), ("allred", 1.0), ("maxgreen", 0.0))
            yellow, red, green = (self._time(node, record, column, default) for record, default in times)
            if green and column[1:] not in used:
                self.tell(node, f"phase {column[1:]} is of no movement, and is left out")
            elif green:
                yield RingPhase(int(column[1:]), *map(int, cell.text), green + yellow + red, yellow, red)

    def _time(self, node: str, record: str, column: str, default: float = 0.0) -> float:
        return self.file.number("phases", node, record, column, default)

    def _approaches(self, node: str) -> Iterator[tuple[str, Approach]]:
        """The legs of a junction: those of [Links], and those to which a movement leads by its `Dest Node` alone."""
        found = {leg: self.file.cell("links", node, "upid", column) for leg, column in self.columns.items()}
        ups = {leg: cell for leg, cell in found.items() if cell}
        ends = ups | {to: cell for leg in ups for to, cell in self._ahead(node, leg, ups)}
        legs = list(ends)
        exits = {leg: exits_of(leg, legs) for leg in legs}
        lanes = {leg: self._lanes(node, leg, exits[leg]) for leg in legs}
        reached = {exits[leg][movement] for leg in legs for lane in lanes[leg] for movement in lane.movements}
        for leg in legs:
            speed = self.file.number("links", node, "speed", self.columns[leg], 30 / self.speed * MILE) * self.speed
            turns = {
                move: self._volume(node, leg, move)
                for move in Movement if any(move in lane.movements for lane in lanes[leg])
            }
            following, distance = self._neighbour(node, leg, ends[leg])
            left = self._left(node, leg, lanes[leg])
            parts = {move: float(volume) for move, volume in turns.items()} if any(turns.values()) else {}
            bounds = [bounded(speed, "speed"), bounded(distance, "distance")]
            grade = self.file.number("links", node, "grade", self.columns[leg], least=-20.0)
            yield leg, Approach(
                leg,
                lanes[leg],
                *bounds,
                following,
                left,
                parts,
                min(grade, 20.0),
                None if leg in reached else 0,
                self.file.line("lanes", node),
            )

    def _ahead(self, node: str, leg: str, ups: dict[str, Cell]) -> Iterator[tuple[str, Cell]]:
        """The legs by which an approach leaves and none comes: their nodes are a `Dest Node` alone."""
        known = {cell.text for cell in ups.values()}
        for move, turn in ((Movement.LEFT, 90), (Movement.THROUGH, 180), (Movement.RIGHT, 270)):
            cell = self.file.cell("lanes", node, "destnode", column_of(self.columns[leg], move))
            to = next(name for name, angle in COMPASS.items() if angle == (COMPASS[leg] + turn) % 360)
            if cell and cell.text != "0" and cell.text not in known and to not in ups:
                yield to, cell

    def _lanes(self, node: str, leg: str, exits: dict[Movement, str]) -> tuple[Lane, ...]:
        """The lanes of an approach from the left, of how many each movement has and which are shared (1 with the left,
        2 with the right, 3 both)."""
        counts = {move: int(self._lane_number(node, "lanes", leg, move)) for move in Movement}
        lanes: list[Lane] = []
        for move in Movement:
            shared = int(self._lane_number(node, "shared", leg, move))
            for number in range(counts[move]):
                own = {move}
                if shared & 1 and number == 0 and move is not Movement.LEFT:
                    own.add(
                        Movement.LEFT if not counts[Movement.LEFT] or move is Movement.THROUGH else Movement.THROUGH
                    )
                if shared & 2 and number == counts[move] - 1 and move is not Movement.RIGHT:
                    has_through = move is not Movement.THROUGH and counts[Movement.THROUGH]
                    own.add(Movement.THROUGH if has_through else Movement.RIGHT)
                storage = self._lane_number(node, "storage", leg, move) * self.metre
                bays = int(self._lane_number(node, "stlanes", leg, move, counts[move]))
                is_bay = storage >= 1 and (number < bays if move is Movement.LEFT else number >= counts[move] - bays)
                moves = tuple(one for one in Movement if one in own)
                lanes.append(self._lane(node, leg, moves, exits, storage if is_bay else None))
        for move in Movement:
            cell = self.file.cell("lanes", node, "volume", column_of(self.columns[leg], move))
            if cell and self._volume(node, leg, move) and not any(move in lane.movements for lane in lanes):
                self.file.fail(
                    cell.line,
                    f"junction {node}, approach {leg}, {move}: {cell.text} vehicles are there, and no lane: write "
                    f"Lanes, or Shared of the lane beside",
                )
        return tuple(lanes)

    def _lane(
        self, node: str, leg: str, moves: tuple[Movement, ...], exits: dict[Movement, str], bay: float | None,
    ) -> Lane:
        lost = next((move for move in moves if move not in exits), None)
        if lost is not None:
            cell = self.file.cell("lanes", node, "lanes", column_of(self.columns[leg], lost))
            line = cell.line if cell else self.file.line("lanes", node)
            self.file.fail(
                line,
                f"junction {node}, approach {leg}, {lost}: no leg is there: write its node as Up ID of [Links], or "
                f"Lanes 0",
            )
        return Lane(moves, False, bay)

    def _lane_number(self, node: str, record: str, leg: str, move: Movement, default: float = 0.0) -> float:
        return self.file.number("lanes", node, record, column_of(self.columns[leg], move), default)

    def _volume(self, node: str, leg: str, move: Movement) -> int:
        return math.floor(self._lane_number(node, "volume", leg, move) + 0.5)

    def _neighbour(self, node: str, leg: str, end: Cell) -> tuple[str | None, float]:
        """The signal from which an approach comes, or None, and how far that is; bends are passed."""
        column = self.columns[leg]
        distance, before, up = self.file.number("links", node, "distance", column), node, end.text
        if up not in self.types:
            self.file.fail(
                end.line,
                f"junction {node}, approach {leg}: its node is {up!r}, and [Nodes] has no such node: write its row "
                f"there",
            )
        for _ in range(MOST_BENDS):
            if self.types.get(up) != BEND:
                break
            ends = self.file.cells["links"].get(up, {}).get("upid", {})
            further = [(cell.text, end) for end, cell in ends.items() if cell.text != before]
            if len(further) != 1:
                break
            distance += self.file.number("links", up, "distance", further[0][1])
            up, before = further[0][0], up
        distance = distance * self.metre or math.dist(self.place(node), self.place(up))
        return name_of(up) if self.types.get(up) == SIGNAL and up != node else None, distance

    def place(self, node: str) -> tuple[float, float]:
        """Where a node is, in metres."""
        return tuple(
            self.file.number("nodes", node, "", axis, least=-1e9) * self.metre for axis in ("x", "y")
        )  # type: ignore[return-value]

    def _movement_phases(self, node: str, leg: str, move: Movement, prefix: str = "") -> list[int]:
        """The phases of a movement, protected or, by the prefix `perm`, permitted."""
        column = column_of(self.columns[leg], move)
        numbers = (int(self.file.number("lanes", node, prefix + record, column, least=-1)) for record in PHASES)
        return [number for number in numbers if number > 0]

    def _left(self, node: str, leg: str, lanes: tuple[Lane, ...]) -> Left:
        """How the left of an approach meets those who come towards it."""
        own, permitted = (self._movement_phases(node, leg, Movement.LEFT, prefix) for prefix in ("", "perm"))
        through = self._movement_phases(node, leg, Movement.THROUGH)
        if own and permitted:
            return Left.BOTH
        return Left.PROTECTED if own and not set(own) <= set(through) else Left.PERMISSIVE

    def _greens(self, node: str, approaches: dict[str, Approach], known: set[int]) -> dict[int, list[Green]]:
        """What is green in each phase; a right without phases of its own goes with those straight ahead, and a shared
        lane with them too."""
        found: dict[int, list[Green]] = {number: [] for number in known}
        for leg, approach in approaches.items():
            through = self._all_phases(node, leg, Movement.THROUGH, known)
            for move in Movement:
                if not any(move in lane.movements for lane in approach.lanes):
                    continue
                numbers = self._all_phases(node, leg, move, known)
                if not numbers and move is Movement.RIGHT and through:
                    numbers = through
                    if any(lane.movements == (move,) for lane in approach.lanes):
                        self.tell(
                            node, f"approach {leg}, right: it has no phase, and is green with those straight ahead",
                        )
                elif not numbers:
                    numbers = through or self._all_phases(node, leg, Movement.LEFT, known)
                for number in numbers:
                    found[number].append(Green(leg, move))
        return found

    def _all_phases(self, node: str, leg: str, move: Movement, known: set[int]) -> list[int]:
        numbers = [number for prefix in ("", "perm") for number in self._movement_phases(node, leg, move, prefix)]
        strange = next((number for number in numbers if number not in known), None)
        if strange is not None:
            line = next(
                cell.line
                for record in PHASES for prefix in ("", "perm") if (
                    cell := self.file.cell("lanes", node, prefix + record, column_of(self.columns[leg], move))
                )
            )
            self.file.fail(
                line,
                f"junction {node}, approach {leg}, {move}: phase {strange} has no BRP or no MaxGreen in [Phases]: "
                f"write both, or another phase",
            )
        return list(dict.fromkeys(numbers))

    def _crossings(self, node: str, approaches: dict[str, Approach], green_of: dict[int, list[Green]]) -> tuple[
        dict[str, Crossing], dict[str, int],
    ]:
        """Crossings of which people are counted beside a right turn: over the leg into which it leads, with the phase
        straight ahead."""
        found, peds, walks = dict[str, Crossing](), dict[str, int](), Counter[str]()
        for leg in approaches:
            to = exits_of(leg, list(approaches)).get(Movement.RIGHT)
            for number, greens in green_of.items():
                walk, flash = (self._time(node, record, f"d{number}") for record in ("walk", "dontwalk"))
                people = sum(
                    int(self._lane_number(node, "peds", leg, move)) for move in (Movement.THROUGH, Movement.RIGHT)
                )
                if not walk or not flash or not any(
                    green.leg == leg and green.movement is not Movement.LEFT for green in greens
                ):
                    continue
                if to is None or not people or to in found:
                    walks["walk"] += to not in found
                    continue
                low, high = RATES["length"]
                found[to] = Crossing(
                    to,
                    min(max(math.ceil(flash) * WALKING, low), high),
                    max(1, math.floor(walk + 0.5)),
                    self.file.line("phases", node),
                )
                peds[to] = people
                greens.append(Green(to, None, True))
        if walks and not found:
            self.tell(node, "its phases have a walk, and no Peds are there: it has no crossings")
        return found, peds

    def _stage(
        self, node: str, times: Times, green_of: dict[int, list[Green]], crossings: dict[str, Crossing]
    ) -> Stage:
        """A stage with its bounds: the least green of its phases, and as the greatest one the longest that they or the
        plan have."""
        line = self.file.line("phases", node)
        bounds = (("yellow", times.yellow, *BOUNDS["yellow"]), ("all-red", times.clear, *BOUNDS["all_red"]))
        for what, value, low, high in (*bounds, ("green", times.green, *BOUNDS["greatest"])):
            if not low <= value <= high:
                words = f"{what} is {value} s: write {low} to {high}"
                self.file.fail(line, f"junction {node}, phases {sorted(times.phases)}: {words}")
        columns = [f"d{number}" for number in sorted(times.phases)]
        greens = list(dict.fromkeys(green for number in sorted(times.phases) for green in green_of[number]))
        needs = {green: need_of(crossings[green.leg]) for green in greens if green.is_walk}
        for green, need in needs.items():
            if need > times.green:
                words = f"people need {need} s over {green.leg}, and the plan has {times.green} s: they have no green there"
                self.tell(node, f"phases {' and '.join(map(str, sorted(times.phases)))}: {words}")
                greens.remove(green)
        own = max(math.ceil(self._time(node, "mingreen", column, 5) - 0.01) for column in columns)
        least = max([1, min(own, times.green), *(need for green, need in needs.items() if green in greens)])
        longest = max(math.floor(self._time(node, "maxgreen", column)) for column in columns)
        greatest = min(BOUNDS["greatest"][1], max(times.green, least, longest))
        is_called = all(self._time(node, "recall", column, 1) == 0 for column in columns)
        return Stage(tuple(greens), least, greatest, times.yellow, times.clear, is_called, line)

    def _skips(self, stages: list[Stage]) -> tuple[Stage, ...]:
        """The stages, of which two at least are shown in each round of the ring."""
        for at in reversed(range(len(stages))):
            if sum(not stage.skip for stage in stages) < 2 and stages[at].skip:
                stages[at] = replace(stages[at], skip=False)
        return tuple(stages)

    def _offset(self, node: str, rings: Rings) -> int:
        """When the first stage begins in the clock of all junctions."""
        cycle = self.file.number("timeplans", node, "cyclelength", "data", rings.cycle)
        if abs(cycle - rings.cycle) > 0.5:
            self.tell(node, f"its cycle is {cycle:g} s, and its phases come to {rings.cycle}, which is taken")
        number = int(self.file.number("timeplans", node, "referencephase", "data"))
        way = int(self.file.number("timeplans", node, "referencedto", "data"))
        if way not in (0, 1, 2, 3):
            self.tell(node, f"its offset refers to point {way}, which is taken as the begin of yellow")
            way = 1
        point = rings.point([part for part in (number // 100, number % 100) if part], way)
        return math.floor(self.file.number("timeplans", node, "offset", "data", least=-1e6) - point + 0.5) % rings.cycle

    def rest(self) -> Iterator[str]:
        """What of the whole file is not said, with at how many junctions."""
        for record, words in (("allowrtor", "let vehicles turn right on red"), ("growth", "have a factor of growth")):
            usual = "0" if record == "allowrtor" else "1"
            count = sum(
                any(
                    float(cell.text) != float(usual)
                    for cell in self.file.cells["lanes"].get(node, {}).get(record, {}).values()
                )
                for node in self.signals
            )
            if count:
                yield f"{plural(count, 'junction')} {words}, which is not taken"

    def plan(self) -> Iterator[PlanRow]:
        """The fixed plan."""
        for node, signal in self.signals.items():
            for number, stage in enumerate(signal.rings.stages):
                yield PlanRow(name_of(node), number, stage.green, signal.offset)

    def counts(self) -> Iterator[Count]:
        """The volumes of an hour, and people on the crossings."""
        for node, signal in self.signals.items():
            line = self.file.line("lanes", node)
            for leg, approach in signal.junction.approaches.items():
                for move in Movement:
                    if any(move in lane.movements for lane in approach.lanes):
                        yield Count(line, name_of(node), leg, str(move), 0, 60, self._volume(node, leg, move))
            for leg in signal.junction.crossings:
                yield Count(line, name_of(node), leg, PEOPLE, 0, 60, signal.peds[leg])


def need_of(walk: Crossing) -> int:
    """The green that a crossing needs: to enter it, and to be over."""
    return walk.walk + math.ceil(walk.length / WALKING - 1e-9)


def bounded(value: float, key: str) -> float:
    """A value within the bounds of a junction file's key."""
    low, high = RATES[key]
    return min(max(value, low), high)


def column_of(column: str, move: Movement) -> str:
    """The column of a movement in [Lanes]: `nbl` of `nb`, `net` of `ne`."""
    return column + number_of(move)


def name_of(node: str) -> str:
    """The name of a node in the network."""
    return f"n{node.lower()}"
