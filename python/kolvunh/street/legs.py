"""The legs of a junction by compass, and who crosses whom. Right-hand traffic; angles are degrees from the north, clockwise."""

from dataclasses import dataclass
from enum import StrEnum

COMPASS = {name: 45 * n for n, name in enumerate(("north", "northeast", "east", "southeast", "south", "southwest", "west", "northwest"))}
SHORT = dict(zip(COMPASS, ("n", "ne", "e", "se", "s", "sw", "w", "nw")))
HALF = 10  # degrees from the middle of a leg to the middle of its lanes in either direction


class Movement(StrEnum):
    """Where vehicles go that come to a junction, from the left to the right."""

    LEFT = "left"
    THROUGH = "through"
    RIGHT = "right"


ORDER = tuple(Movement)


@dataclass(frozen=True, slots=True)
class Path:
    """The way of a lane's movement over a junction: from a leg by the lane with this number, from the left, to a lane of another leg."""

    approach: str
    lane: int
    movement: Movement
    leg: str
    target: int

    @property
    def words(self) -> str:
        """For messages."""
        return f"{self.approach} {self.movement}"


def opposite(leg: str) -> str:
    """The leg on the other side."""
    return next(name for name, angle in COMPASS.items() if angle == (COMPASS[leg] + 180) % 360)


def bound(leg: str) -> str:
    """The direction of those who come from a leg: `eb` from the west."""
    return SHORT[opposite(leg)] + "b"


def turn_of(approach: str, leg: str) -> int:
    """By how many degrees those who come from a leg turn into another one; to the right is above 0."""
    return (COMPASS[leg] - COMPASS[approach]) % 360 - 180


def exits_of(approach: str, legs: list[str]) -> dict[Movement, str]:
    """The leg of each movement: that which is nearest to straight ahead within 45 degrees, and the nearest one on either side of it."""
    turns = sorted((abs(turn_of(approach, leg)), turn_of(approach, leg), leg) for leg in legs if leg != approach)
    found: dict[Movement, str] = {}
    for size, turn, leg in turns:
        if size <= 45 and Movement.THROUGH not in found:
            found[Movement.THROUGH] = leg
        else:
            found.setdefault(Movement.RIGHT if turn > 0 else Movement.LEFT, leg)
    return found


def _ends(path: Path) -> tuple[int, int]:
    """Where a path enters and leaves the circle around the junction: from the right of its own leg to the right of the other one."""
    return (COMPASS[path.approach] - HALF) % 360, (COMPASS[path.leg] + HALF) % 360


def cross(one: Path, other: Path) -> bool:
    """Whether two paths cross, or lead into one leg: there only one that turns right may keep to a lane of its own. Those of one leg cross
    where the left one goes farther to the right."""
    if one.approach == other.approach:
        left, right = sorted((one, other), key=lambda path: path.lane)
        return left.lane != right.lane and ORDER.index(left.movement) > ORDER.index(right.movement)
    if one.leg == other.leg:
        return one.target == other.target or Movement.RIGHT not in (one.movement, other.movement)
    begin, end = _ends(one)
    span = (end - begin) % 360
    return ((_ends(other)[0] - begin) % 360 < span) != ((_ends(other)[1] - begin) % 360 < span)


def gives_way(one: Path, other: Path) -> bool:
    """Whether the first path gives way to the second one where both are green and cross: a left to those who come towards it, and whoever
    turns to those who go on beside him."""
    if one.approach == other.approach:
        return one.movement != Movement.THROUGH and other.movement == Movement.THROUGH
    faces = abs(turn_of(one.approach, other.approach)) <= 45
    return faces and one.movement == Movement.LEFT and other.movement != Movement.LEFT
