"""What a row of measures is, and how levels of service, percentiles and lengths are taken: docs/FORMATS.md, "Measures"."""

import math
import statistics
from collections.abc import Sequence
from dataclasses import dataclass

# Highway Capacity Manual, signalized junctions: seconds a vehicle, at most
LEVELS = ((10, "A"), (20, "B"), (35, "C"), (55, "D"), (80, "E"))


def level_of(delay: float | None, ratio: float | None = None) -> str | None:
    """The level of service of a delay in seconds a vehicle; F where more comes than can leave, as a ratio above 1 says."""
    if delay is None:
        return None
    return "F" if ratio is not None and ratio > 1 else next((level for most, level in LEVELS if delay <= most), "F")


def percentile(values: Sequence[float], part: int) -> float:
    """The least of the values that at least so many hundredths of them do not exceed."""
    return sorted(values)[max(0, math.ceil(part * len(values) / 100) - 1)] if values else 0


def quotient(amount: float, of: float) -> float | None:
    """The quotient, or None where it has none."""
    return amount / of if of else None


@dataclass(frozen=True)
class Lengths:
    """How many spans there are, and how long: mean, least and greatest in seconds, None where there is none."""

    count: int
    mean: float | None
    least: int | None
    most: int | None

    @classmethod
    def of(cls, seconds: Sequence[int]) -> "Lengths":
        """Those of spans that last so many seconds."""
        return cls(len(seconds), statistics.mean(seconds), min(seconds), max(seconds)) if seconds else cls(0, None, None, None)


@dataclass(frozen=True)
class Measures:
    """The measures of a part of a network from second `begin` up to second `end`: docs/FORMATS.md, "Measures".

    Vehicles, queues and stops are in vehicles, times in seconds, shares from 0 to 1; who walks counts in `persons` and `person_delay` alone. None
    stands where a measure has no meaning: a mean of no vehicles, plans of a link.
    """

    kind: str
    name: str
    begin: int
    end: int
    vehicles: float
    left: float
    delay: float
    delay_each: float | None
    level: str | None
    trip_delay: float | None
    stopped: float
    queue_50: float
    queue_95: float
    queue_most: float
    greens: int
    failures: int
    on_green: float | None
    platoon_ratio: float | None
    green_mean: float | None
    green_least: int | None
    green_most: int | None
    cycle_mean: float | None
    cycle_least: int | None
    cycle_most: int | None
    dark: int
    plans: int | None
    none: int | None
    capacity: float
    v_c: float | None
    persons: float
    person_delay: float
    person_delay_each: float | None
    lane_95: float | None = None
    lane_most: float | None = None
    metres_95: float | None = None
    metres_most: float | None = None
    full: float | None = None
