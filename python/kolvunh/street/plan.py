"""A junction file as data: docs/FORMATS.md, "Junction file". Lengths are in metres, speeds in km/h, times in seconds."""

from dataclasses import dataclass, field
from enum import StrEnum

from .legs import Movement


class Left(StrEnum):
    """How a left turn meets those who come towards it."""

    PROTECTED = "protected"
    PERMISSIVE = "permissive"
    BOTH = "both"


@dataclass(frozen=True)
class Lane:
    """A lane of an approach: who may use it, and its length where it is a bay."""

    movements: tuple[Movement, ...]
    is_bus: bool = False
    bay: float | None = None

    @property
    def words(self) -> str:
        """As the file says it."""
        return " ".join([*(["bus"] if self.is_bus else []), *self.movements])


@dataclass(frozen=True)
class Approach:
    """A leg of a junction: its lanes from the left to the right, and the junction from which it comes. `out` is how many lanes leave by it."""

    leg: str
    lanes: tuple[Lane, ...]
    speed: float
    distance: float
    next: str | None = None
    left: Left = Left.PERMISSIVE
    turns: dict[Movement, float] = field(default_factory=dict)
    grade: float = 0.0
    out: int | None = None
    line: int = 0


@dataclass(frozen=True)
class Crossing:
    """A crossing over a leg: its length, and for how many seconds it may be entered."""

    leg: str
    length: float
    walk: int
    line: int = 0


@dataclass(frozen=True)
class Green:
    """What a stage says is green: an approach, a movement of it, or a crossing (`is_walk`)."""

    leg: str
    movement: Movement | None = None
    is_walk: bool = False


@dataclass(frozen=True)
class Stage:
    """A green of the ring; times that the file leaves out are None."""

    greens: tuple[Green, ...]
    least: int | None = None
    greatest: int | None = None
    yellow: int | None = None
    all_red: int | None = None
    skip: bool = False
    line: int = 0


@dataclass(frozen=True)
class Junction:
    """A junction with a signal."""

    name: str
    approaches: dict[str, Approach]
    crossings: dict[str, Crossing]
    stages: tuple[Stage, ...]
    width: float | None = None
    line: int = 0


@dataclass(frozen=True)
class Street:
    """The junctions of a file, what a lane lets through in vehicles an hour, and the keys of the run."""

    place: str
    junctions: dict[str, Junction]
    sat: float
    run: dict[str, int | bool]
