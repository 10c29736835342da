"""Reads turning counts: docs/FORMATS.md, "Turning counts". Rows of one movement each, of one approach, or of one
junction, told by the header."""

import re
from collections.abc import Iterator, Mapping
from dataclasses import dataclass, field
from itertools import pairwise
from typing import NoReturn

from ..faults import Fault
from ..records import Place, Record, quote, records_at, text_of
from .legs import COMPASS, SHORT, Movement, opposite
from .servings import BUS, PEOPLE

COLUMNS = {
    "junction": ("junction", "intersection", "intersectionid", "intid", "node", "site"),
    "approach": ("approach", "leg", "direction"),
    "movement": ("movement", "turn"),
    "begin": ("begin", "time", "start", "starttime", "begintime", "intervalstart"),
    "minutes": ("minutes", "interval", "duration"),
    "vehicles": ("vehicles", "count", "volume"),
    "": ("date", "day", "weekday"),
}
WORDS = {
    Movement.LEFT: ("left", "leftturn", "lt", "l"),
    Movement.THROUGH: ("through", "thru", "straight", "th", "t"),
    Movement.RIGHT: ("right", "rightturn", "rt", "r"),
    "u-turn": ("uturn", "u"),
    PEOPLE: ("people", "peds", "ped", "pedestrians"),
}
MOVES = {word: movement for movement, words in WORDS.items() for word in words}
BOUNDS = {letters: opposite(leg) for leg, letters in SHORT.items()} | {word: opposite(word) for word in COMPASS}
FORM = "junction,approach,movement,begin,minutes,vehicles, or begin,junction,NBL,NBT,NBR,SBL .."
TIME = re.compile(r"(?:\S+[ T])?(\d{1,2}):?(\d\d)(?::00(?:\.0+)?)?(?: ?([AaPp])[Mm])?")
TITLE = re.compile(r"(\d+)[ -]*min", re.IGNORECASE)
MOST, DAY = 20_000, 1440


@dataclass(frozen=True, slots=True)
class Count:
    """How many came by a movement in an interval; times are minutes of the day, and `line` is that of the file."""

    line: int
    junction: str
    approach: str
    movement: str
    begin: int
    minutes: int
    vehicles: int

    @property
    def key(self) -> tuple[str, str, str]:
        """What was counted."""
        return self.junction, self.approach, self.movement

    @property
    def where(self) -> str:
        """For messages."""
        return f"junction {self.junction}, approach {self.approach}, {self.movement}"


@dataclass
class CountFile:
    """The columns of a file: for each its kind, and of columns of movements which one they count."""

    place: Place
    header: Record
    minutes: int | None
    kinds: dict[str, int] = field(default_factory=dict)
    moves: dict[int, tuple[str | None, str]] = field(default_factory=dict)

    def fail(self, line: int, words: str) -> NoReturn:
        """Refuses a line."""
        raise Fault(f"{self.place}:{line}: {words}")


def plain(cell: str) -> str:
    """The letters of a cell."""
    return re.sub(r"[^a-z0-9]", "", cell.lower())


def approach_of(cell: str) -> str | None:
    """The approach of a word: `west`, or by where its vehicles go, `EB` or `eastbound`."""
    word = cell.strip().lower()
    return word if word in COMPASS else BOUNDS.get(
        re.sub(r"(bound|b)$", "", plain(word)) if word not in SHORT.values() else ""
    )


def movement_of(cell: str) -> str | None:
    """The movement of a word, as `left`, `thru` or `bus right`."""
    word = plain(cell)
    bus = word.startswith("bus") and word not in MOVES
    movement = MOVES.get(word[3:] if bus else word)
    return movement if not bus or movement is None else BUS + movement if movement in tuple(Movement) else None


def move_of(cell: str) -> tuple[str | None, str] | None:
    """What a column counts: a movement of the row's approach, or as `NBL` and `Eastbound Thru` with its approach."""
    own = movement_of(cell)
    if own is not None:
        return None, own
    found = re.fullmatch(r"(north|south|east|west|ne|nw|se|sw|n|s|e|w)(?:bound|b)?(bus)?(.+)", plain(cell))
    movement = movement_of((found[2] or "") + found[3]) if found else None
    return (BOUNDS[found[1]], movement) if found and movement else None


def clock(minute: int) -> str:
    """A minute of the day as `07:15`."""
    return f"{minute // 60:02}:{minute % 60:02}"


def read_counts(place: Place, names: Mapping[str, str]) -> list[Count]:
    """The counts of a file; `names` has the junctions of the network for those of the file that are called
    otherwise."""
    rows = records_at(place, text_of(place))
    file = _header(place, rows)
    found: list[Count] = []
    for row in rows:
        if len(row.fields) != len(file.header.fields):
            file.fail(
                row.line,
                f"the row has {len(row.fields)} fields, and the header has {len(file.header.fields)}: write a number "
                f"in each, 0 for none",
            )
        found += _counts(file, row, names)
    if not found:
        file.fail(file.header.line, "there are no counts after the header")
    found = _with_minutes(file, found)
    _require_whole(file, found)
    return found


def _header(place: Place, rows: Iterator[Record]) -> CountFile:
    """The header of a file, after titles; one may say how long intervals are."""
    minutes = None
    for row in rows:
        words = [plain(cell) for cell in row.fields]
        kinds = {kind: at for kind, known in COLUMNS.items() for at, word in enumerate(words) if word in known}
        if "begin" not in kinds:
            title = TITLE.search(" ".join(row.fields))
            minutes = int(title[1]) if title else minutes
            continue
        file = CountFile(place, row, minutes, kinds)
        _columns(file, words)
        return file
    raise Fault(f"{place}: it has no header with a column begin: write {FORM}")


def _columns(file: CountFile, words: list[str]) -> None:
    """Reads what is left of the header, and requires one of the three forms."""
    known = {word for each in COLUMNS.values() for word in each}
    for at, cell in enumerate(file.header.fields):
        move = move_of(cell)
        if words[at] in known or "total" in words[at]:
            if words.count(words[at]) > 1:
                file.fail(file.header.line, f"two columns are {quote(cell)}: leave one out")
        elif move is None:
            file.fail(file.header.line, f"column {quote(cell)} is none of a count: write {FORM}")
        elif move in file.moves.values():
            file.fail(file.header.line, f"two columns count {quote(cell)}: leave one out")
        else:
            file.moves[at] = move
    kinds = set(file.kinds)
    if not file.moves and not {"movement", "approach", "vehicles"} <= kinds or any(
        leg is None for leg, _ in file.moves.values()
    ) and "approach" not in kinds:
        file.fail(file.header.line, f"the header {quote(','.join(file.header.fields))} lacks columns: write {FORM}")


def _counts(file: CountFile, row: Record, names: Mapping[str, str]) -> Iterator[Count]:
    """The counts of a row."""
    cells = {kind: " ".join(row.fields[at].split()) for kind, at in file.kinds.items()}
    junction = names.get(cells.get("junction", ""), cells.get("junction", ""))
    where = f"junction {junction}"
    begin = _minute(file, row, cells["begin"], where)
    minutes = _number(
        file, row, cells["minutes"], f"{where}: minutes", 1, DAY,
    ) if "minutes" in cells else file.minutes or 0
    own = cells.get("approach")
    leg = None if own is None else approach_of(own)
    if own is not None and leg is None:
        file.fail(
            row.line,
            f"{where}: approach is {quote(own)}: write north, east, south or west, from where vehicles come, or NB, "
            f"EB, SB or WB",
        )
    if not file.moves:
        movement = _movement(file, row, cells["movement"], f"{where}, approach {leg}")
        vehicles = _number(file, row, cells["vehicles"], f"{where}, approach {leg}, {movement}: vehicles", 0, MOST)
        yield Count(row.line, junction, str(leg), movement, begin, minutes, vehicles)
    for at, (approach, movement) in file.moves.items():
        text = row.fields[at].strip() or "0"
        vehicles = _number(file, row, text, f"{where}, approach {approach or leg}, {movement}: vehicles", 0, MOST)
        yield Count(row.line, junction, str(approach or leg), movement, begin, minutes, vehicles)


def _movement(file: CountFile, row: Record, cell: str, where: str) -> str:
    movement = movement_of(cell)
    if movement is None:
        file.fail(
            row.line,
            f"{where}: movement is {quote(cell)}: write left, through, right, people, or bus and one of the first "
            f"three",
        )
    return movement


def _minute(file: CountFile, row: Record, cell: str, where: str) -> int:
    found = TIME.fullmatch(cell)
    hour, minute, half = (int(found[1]), int(found[2]), found[3]) if found else (99, 0, None)
    if half is not None:
        hour = 99 if not 1 <= hour <= 12 else hour % 12 + (12 if half in "Pp" else 0)
    if hour > 23 or minute > 59:
        file.fail(
            row.line, f"{where}: begin is {quote(cell)}: write a time of the day as 07:15, a date may stand before it",
        )
    return 60 * hour + minute


def _number(file: CountFile, row: Record, cell: str, what: str, least: int, most: int) -> int:
    if not re.fullmatch(r"[0-9]{1,9}(\.0+)?", cell) or not least <= int(float(cell)) <= most:
        file.fail(row.line, f"{what} is {quote(cell)}: write a whole number from {least} to {most}")
    return int(float(cell))


def _with_minutes(file: CountFile, counts: list[Count]) -> list[Count]:
    """Counts with the length of their intervals; where the file says none, it is the least time between two begins."""
    if counts[0].minutes:
        return counts
    begins = sorted({count.begin for count in counts})
    if len(begins) == 1:
        file.fail(
            counts[0].line, "all rows have one begin, and nothing says for how long was counted: add a column minutes",
        )
    minutes = min(later - begin for begin, later in pairwise(begins))
    return [Count(count.line, *count.key, count.begin, minutes, count.vehicles) for count in counts]


def _require_whole(file: CountFile, counts: list[Count]) -> None:
    """Refuses a movement that is counted twice, or not from the first begin to the last end."""
    first, last = min(count.begin for count in counts), max(count.begin + count.minutes for count in counts)
    movements: dict[tuple[str, str, str], list[Count]] = {}
    for count in counts:
        movements.setdefault(count.key, []).append(count)
    for own in movements.values():
        own.sort(key=lambda count: count.begin)
        at = first
        for count in own:
            if count.begin < at:
                file.fail(count.line, f"{count.where}: {clock(count.begin)} is counted twice: leave one row out")
            if count.begin > at:
                file.fail(
                    count.line,
                    f"{count.where}: no row counts {clock(at)} to {clock(count.begin)}: add one, with 0 where nobody "
                    f"came",
                )
            at = count.begin + count.minutes
        if at < last:
            file.fail(
                own[-1].line,
                f"{own[-1].where}: no row counts {clock(at)} to {clock(last)}: add one, with 0 where nobody came",
            )
