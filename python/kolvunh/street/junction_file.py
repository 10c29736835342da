"""Reads a junction file: docs/FORMATS.md, "Junction file". Each fault is one line with the line of the file, the junction, the approach and the movement."""

import re
from collections.abc import Mapping
from typing import Any, NoReturn

from ..faults import Fault
from ..explain.networks import BOUNDS as BOUNDS_OF
from ..networks import read_tables
from ..records import Place, quote, text_of
from ..toml_lines import Path, TomlLines
from .legs import COMPASS, Movement, exits_of, opposite
from .plan import Approach, Crossing, Green, Junction, Lane, Left, Stage, Street

NAME = re.compile(r"[a-z0-9_]{1,11}")
RUN = {"step": 2, "look": 70, "gap": 1, "rounds": 900, "split": True, "age": 20, "hold": 4, "recall": 60, "act_step": 1}
RUN_KEYS = (*RUN, "rate")
RUN_BOUNDS = BOUNDS_OF["run"]
STREET_KEYS = ("speed", "sat", "distance", "nema")
JUNCTION_KEYS = ("name", "approach", "crossing", "stage", "width", "nema")
APPROACH_KEYS = ("lanes", "left", "next", "distance", "speed", "turns", "grade", "out")
STAGE_KEYS = ("green", "least", "greatest", "yellow", "all_red", "skip")
MOST_STAGES = 4
BOUNDS = {"least": (1, 120), "greatest": (1, 240), "yellow": (1, 10), "all_red": (0, 10), "walk": (1, 120)}
TIMES = ("least", "greatest", "yellow", "all_red")
RATES = {"speed": (5, 130), "distance": (5, 5000), "sat": (300, 3600), "grade": (-20, 20), "width": (3, 100), "length": (2, 60)}


class Reader:
    """A file that is read: its tables, and on which line each is."""

    def __init__(self, place: Place) -> None:
        self.place, self.tables = place, read_tables(place)
        self._lines = TomlLines(text_of(place))

    def line(self, path: Path) -> int:
        """The line of a table or a key."""
        return self._lines.line(path) or 1

    def fail(self, path: Path, where: str, words: str) -> NoReturn:
        """Refuses what is at a path."""
        raise Fault(f"{self.place}:{self.line(path)}: {where}: {words}")

    def table(self, value: Any, path: Path, where: str, keys: tuple[str, ...] | None = None) -> Mapping[str, Any]:
        """A table with no other keys than these."""
        if not isinstance(value, dict):
            self.fail(path, where, "it has to be a table, as { .. }")
        strange = next((key for key in value if keys is not None and key not in keys), None)
        if strange is not None:
            self.fail((*path, strange), where, f"there is no key {quote(strange)}: write one of {', '.join(keys or ())}")
        return value

    def number(self, table: Mapping[str, Any], key: str, path: Path, where: str, default: float | None = None) -> float | None:
        """A number of a table within its bounds, or the default."""
        value = table.get(key, default)
        if value is None:
            return None
        least, most = (BOUNDS | RATES)[key]
        is_number = isinstance(value, (int, float)) and not isinstance(value, bool)
        if not is_number or not least <= value <= most or key in BOUNDS and value != int(value):
            kind = "a whole number" if key in BOUNDS else "a number"
            self.fail((*path, key), where, f"{key} is {value!r}: write {kind} from {least} to {most}")
        return value


def read_street(place: Place) -> Street:
    """The street of a file."""
    file = Reader(place)
    top = file.table(file.tables, (), "the file", ("street", "run", "junction"))
    own = file.table(top.get("street", {}), ("street",), "street", STREET_KEYS)
    run = _run(file, top.get("run", {}))
    tables = top.get("junction")
    if not isinstance(tables, list) or not tables:
        file.fail((), "the file", "it has no junction: write [[junction]] and its name, approaches and stages")
    junctions: dict[str, Junction] = {}
    for number, table in enumerate(tables):
        junction = _junction(file, table, ("junction", number), own)
        if junction.name in junctions:
            file.fail(("junction", number, "name"), f"junction {junction.name}", "an earlier junction has this name: write another one")
        junctions[junction.name] = junction
    sat = file.number(own, "sat", ("street",), "street", 1800) or 1800
    street = Street(str(place), junctions, sat, run)
    _meet_neighbours(street)
    return street


def _run(file: Reader, value: Any) -> dict[str, int | bool]:
    """The keys of the run, each as a network file may have it."""
    table = file.table(value, ("run",), "run", RUN_KEYS)
    for key, found in table.items():
        if key == "split":
            if not isinstance(found, bool):
                file.fail(("run", key), "run", f"split is {found!r}: write true or false")
            continue
        least, most, _ = RUN_BOUNDS[key]
        if not isinstance(found, int) or isinstance(found, bool) or not least <= found <= most:
            file.fail(("run", key), "run", f"{key} is {found!r}: write a whole number from {least} to {most}")
    return RUN | dict(table)


def _junction(file: Reader, value: Any, path: Path, own: Mapping[str, Any]) -> Junction:
    name = value.get("name") if isinstance(value, dict) else None
    table = file.table(value, path, f"junction {name or path[1]}", JUNCTION_KEYS)
    if not isinstance(name, str) or not NAME.fullmatch(name):
        file.fail((*path, "name"), "junction", f"its name is {name!r}: write 1 to 11 of a to z, 0 to 9 and _ in quotes")
    where = f"junction {name}"
    legs = file.table(table.get("approach", {}), (*path, "approach"), where, tuple(COMPASS))
    if len(legs) < 3:
        file.fail(path, where, "it has fewer than three approaches: write [junction.approach] with north, east, south or west")
    approaches = {leg: _approach(file, legs[leg], (*path, "approach", leg), f"{where}, approach {leg}", own, list(legs)) for leg in legs}
    walks = file.table(table.get("crossing", {}), (*path, "crossing"), where, tuple(legs))
    crossings = {leg: _crossing(file, walks[leg], (*path, "crossing", leg), f"{where}, crossing {leg}") for leg in walks}
    stages = _stages(file, table, path, where, approaches, crossings, own)
    return Junction(name, approaches, crossings, stages, file.number(table, "width", path, where), file.line(path))


def _approach(file: Reader, value: Any, path: Path, where: str, own: Mapping[str, Any], legs: list[str]) -> Approach:
    leg = str(path[-1])
    table = file.table(value, path, where, APPROACH_KEYS)
    words = table.get("lanes", [])
    if not isinstance(words, list):
        file.fail((*path, "lanes"), where, 'lanes has to be a list of texts, from the left: write ["left bay 40", "through right"]')
    exits = exits_of(leg, legs)
    lanes = tuple(_lane(file, text, (*path, "lanes"), where, exits) for text in words)
    left = table.get("left", "permissive")
    if left not in tuple(Left):
        file.fail((*path, "left"), f"{where}, left", f"it is {left!r}: write protected, permissive or both")
    following = table.get("next")
    if following is not None and not isinstance(following, str):
        file.fail((*path, "next"), where, "next has to be the name of a junction in quotes")
    out = table.get("out")
    if out is not None and (not isinstance(out, int) or not 0 <= out <= 6):
        file.fail((*path, "out"), where, f"out is {out!r}: write how many lanes leave by this leg, 0 to 6")
    numbers = {key: file.number(table, key, path, where, own.get(key, usual)) for key, usual in (("speed", 50), ("distance", 200), ("grade", 0))}
    turns = _turns(file, table.get("turns", {}), (*path, "turns"), where, lanes)
    return Approach(leg, lanes, numbers["speed"] or 50, numbers["distance"] or 200, following, Left(left), turns, numbers["grade"] or 0, out, file.line(path))


def _lane(file: Reader, text: Any, path: Path, where: str, exits: Mapping[Movement, str]) -> Lane:
    words = text.split() if isinstance(text, str) else []
    bay = None
    if "bay" in words:
        at = words.index("bay")
        if at + 1 == len(words) or not re.fullmatch(r"\d{1,3}", words[at + 1]):
            file.fail(path, where, f"the bay of lane {quote(str(text))} has no length: write bay and its metres, as in \"left bay 40\"")
        bay = float(words[at + 1])
        del words[at : at + 2]
    is_bus = "bus" in words
    names = [word for word in words if word != "bus"] or (["through"] if is_bus else [])
    strange = next((name for name in names if name not in tuple(Movement)), None)
    if strange is not None or not names:
        file.fail(path, where, f"lane {quote(str(text))} has {strange!r}: write words out of left, through, right, bus, bay N")
    movements = tuple(move for move in Movement if move in names)
    lost = next((move for move in movements if move not in exits), None)
    if lost is not None:
        file.fail(path, f"{where}, {lost}", f"the junction has no leg there: leave {lost} out of lane {quote(str(text))}, or add its approach")
    return Lane(movements, is_bus, bay)


def _turns(file: Reader, value: Any, path: Path, where: str, lanes: tuple[Lane, ...]) -> dict[Movement, float]:
    """Parts of what comes by movements, in any unit."""
    table = file.table(value, path, where, tuple(Movement))
    for key, part in table.items():
        if not isinstance(part, (int, float)) or isinstance(part, bool) or part < 0:
            file.fail((*path, key), f"{where}, {key}", f"its part is {part!r}: write a number from 0 up")
        if not any(key in lane.movements for lane in lanes if not lane.is_bus):
            file.fail((*path, key), f"{where}, {key}", "no lane has this movement: add it to a lane, or leave its part out")
    return {Movement(key): float(part) for key, part in table.items()}


def _crossing(file: Reader, value: Any, path: Path, where: str) -> Crossing:
    table = file.table(value, path, where, ("length", "walk"))
    length = file.number(table, "length", path, where)
    if length is None:
        file.fail(path, where, "it has no length: write length = and its metres")
    return Crossing(str(path[-1]), length, int(file.number(table, "walk", path, where, 7) or 7), file.line(path))


def _stages(file: Reader, table: Mapping[str, Any], path: Path, where: str, approaches: Mapping[str, Approach], crossings: Mapping[str, Crossing], own: Mapping[str, Any]) -> tuple[Stage, ...]:
    rows = table.get("stage")
    if not isinstance(rows, list) or len(rows) < 2:
        file.fail((*path, "stage"), where, "it has fewer than two stages: write stage = [{ green = [..] }, ..], or green = [2, 6] by NEMA's phases")
    if len(rows) > MOST_STAGES:
        file.fail((*path, "stage"), where, f"it has {len(rows)} stages, and one ring has at most {MOST_STAGES}; two rings can't be said: put stages together")
    nema = table.get("nema", own.get("nema"))
    if nema is not None and nema not in approaches:
        file.fail((*path, "nema"), where, f"nema is {nema!r}: write the approach that has phase 2, one of {', '.join(approaches)}")
    found = []
    for number, row in enumerate(rows):
        at, here = (*path, "stage", number), f"{where}, stage {number + 1}"
        stage = file.table(row, at, here, STAGE_KEYS)
        greens = stage.get("green")
        if not isinstance(greens, list) or not greens:
            file.fail(at, here, 'it has no green: write green = ["west", "east left"] or [2, 6]')
        known = tuple(_green(file, word, (*at, "green"), here, nema, approaches, crossings) for word in greens)
        times = {key: file.number(stage, key, at, here) for key in TIMES}
        if not isinstance(stage.get("skip", False), bool):
            file.fail((*at, "skip"), here, "skip has to be true or false")
        found.append(Stage(known, *(None if times[key] is None else int(times[key] or 0) for key in TIMES), stage.get("skip", False), file.line(at)))
    if sum(not stage.skip for stage in found) < 2:
        file.fail((*path, "stage"), where, "fewer than two of its stages have no skip: leave skip out of two of them")
    return tuple(found)


def nema_of(number: int, two: str) -> tuple[str, Movement | None]:
    """The approach of a NEMA phase, and its left where the number is odd: 2, 4, 6 and 8 are clockwise, and 5, 7, 1 and 3 the lefts of these."""
    through = {2: 2, 4: 4, 6: 6, 8: 8, 5: 2, 7: 4, 1: 6, 3: 8}[number]
    names = list(COMPASS)
    leg = names[(names.index(two) + through - 2) % len(names)]
    return leg, Movement.LEFT if number % 2 else None


def _green(file: Reader, word: Any, path: Path, where: str, nema: str | None, approaches: Mapping[str, Approach], crossings: Mapping[str, Crossing]) -> Green:
    if isinstance(word, int) and not isinstance(word, bool):
        if nema is None:
            file.fail(path, where, f'phase {word} needs the approach of phase 2: write nema = "west" (or another approach) in the junction or in [street]')
        if word not in range(1, 9):
            file.fail(path, where, f"phase {word} is none of NEMA's: write 1 to 8")
        leg, movement = nema_of(word, nema)
        text = f"phase {word}, {leg}"
    else:
        parts = word.split() if isinstance(word, str) else []
        if len(parts) == 2 and parts[0] == "crossing":
            if parts[1] not in crossings:
                file.fail(path, where, f"there is no {word}: write {parts[1]} = {{ length = .. }} into [junction.crossing]")
            return Green(parts[1], None, True)
        if not 1 <= len(parts) <= 2 or len(parts) == 2 and parts[1] not in tuple(Movement):
            file.fail(path, where, f'{word!r} is no green: write an approach, as "west", one with a movement, as "west left", or "crossing west"')
        leg, movement, text = parts[0], Movement(parts[1]) if len(parts) == 2 else None, str(word)
    lanes = approaches[leg].lanes if leg in approaches else ()
    if not lanes:
        file.fail(path, where, f"{text}: the junction has no approach {leg} with lanes: write one of {', '.join(a.leg for a in approaches.values() if a.lanes)}")
    if movement and not any(movement in lane.movements for lane in lanes):
        file.fail(path, f"{where}, approach {leg}, {movement}", f"{text} is green, and no lane has it: add {movement} to a lane, or take it out of the stage")
    return Green(leg, movement)


def _meet_neighbours(street: Street) -> None:
    """Refuses approaches that name a neighbour which has none in return."""
    for junction in street.junctions.values():
        for approach in junction.approaches.values():
            if approach.next is None:
                continue
            where = f"{street.place}:{approach.line}: junction {junction.name}, approach {approach.leg}"
            other = street.junctions.get(approach.next)
            if other is None or other is junction:
                raise Fault(f"{where}: next is {quote(approach.next)}, which is no other junction: write one of {', '.join(street.junctions)}")
            back = [further for further in other.approaches.values() if further.next == junction.name]
            if len(back) != 1:
                raise Fault(f'{where}: junction {other.name} has {len(back) or "no"} approach with next = "{junction.name}": write it into one, as its {opposite(approach.leg)}')
            if back[0].distance != approach.distance:
                raise Fault(f"{where}: it is {approach.distance:g} m from {other.name}, and {other.name} says {back[0].distance:g}: write one distance")
