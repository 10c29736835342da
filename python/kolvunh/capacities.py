"""What stop lines let through where a file does not say it, in thousandths of a vehicle a second: what the imports and `street` share."""

STRAIGHT_SAT, TURNING = 500, 0.9  # by a lane straight ahead, 1800 vehicles an hour; a turning lane's part of it
GIVING_SAT, WALK_SAT = 100, 2000  # by a lane of vehicles that give way; of people on foot
VEHICLE = 7.5  # metres of a standing vehicle with its gap
WALK, WALKING = 5, 1.2  # seconds in which a crossing may be entered; metres a second on foot


def giving_sat(sat: int, lane: float, part: float) -> int:
    """What a link lets through while it gives way, of which this part of the vehicles has to: the others wait behind them. A lane of
    it lets `lane` through else."""
    return max(1, min(sat, round(sat / (part * lane / GIVING_SAT + 1 - part))))
