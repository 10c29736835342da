"""Yellow and all-red by the formula of the Institute of Transportation Engineers (ITE), in whole seconds, rounded up.

    yellow = t + v / (2 a + 2 g G)        t 1 s, a 3.05 m/s2, g 9.81 m/s2, G the grade, v the speed of the approach
    all-red = (W + L) / v                 W the width of the junction, L 6.1 m, a vehicle
"""

import math

from .plan import Approach, Junction

REACTION, BRAKING, GRAVITY, VEHICLE = 1.0, 3.05, 9.81, 6.1
LANE, SETBACK = 3.25, 5.0  # metres: a lane's width; from a stop line to the first lane that it crosses, on either side


def yellow_of(speed: float, grade: float = 0.0) -> int:
    """The yellow for those who come at this speed in km/h, on a road that rises by so many per cent."""
    return max(3, min(10, math.ceil(REACTION + speed / 3.6 / (2 * BRAKING + 2 * GRAVITY * grade / 100) - 1e-9)))


def all_red_of(speed: float, width: float) -> int:
    """The all-red for those who come at this speed over a junction of this width in metres."""
    return min(10, math.ceil((width + VEHICLE) / (speed / 3.6) - 1e-9))


def width_of(junction: Junction, approach: Approach, outs: dict[str, int]) -> float:
    """From the stop line to the far side: what the file says, or the lanes of the widest other road, and the setbacks."""
    if junction.width is not None:
        return junction.width
    roads = [len(other.lanes) + outs[other.leg] for other in junction.approaches.values() if other is not approach]
    return LANE * max(roads) + 2 * SETBACK
