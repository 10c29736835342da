"""Files such as CityFlow's generator makes of a grid: a light phase for the change, eight phases, and right turns that are free.

    python3 -m tests.cityflow_grid COLUMNS ROWS DIR [VEHICLES]
"""

import json
import random
import sys
from pathlib import Path
from typing import Any

SIDES = [(1, 0), (0, 1), (-1, 0), (0, -1)]  # east, north, west, south: the directions of roads
LENGTH, WIDTH, LANES = 300, 4, 3  # metres; lanes from the left: to the left, straight on, to the right
TURNS = {"turn_left": (0, 1), "go_straight": (1, 0), "turn_right": (2, 3)}  # the lane, and by how many quarters a way turns to the left


def name_of(x: int, y: int) -> str:
    """The name of an intersection."""
    return f"intersection_{x}_{y}"


def road_of(x: int, y: int, side: int) -> str:
    """The name of the road that leads from an intersection in a direction."""
    return f"road_{x}_{y}_{side}"


def lane_point(x: int, y: int, side: int, lane: int, comes: bool) -> dict[str, float]:
    """Where a lane comes to an intersection, or begins at it: to the right of the road's middle."""
    dx, dy = SIDES[side]
    along, beside = -15 if comes else 15, WIDTH * (lane + 0.5)
    return {"x": x * LENGTH + along * dx + beside * dy, "y": y * LENGTH + along * dy - beside * dx}


def way(x: int, y: int, side: int, kind: str) -> dict[str, Any]:
    """The way of those who come to an intersection in a direction and turn."""
    lane, quarters = TURNS[kind]
    onward = (side + quarters) % 4
    back_x, back_y = x - SIDES[side][0], y - SIDES[side][1]
    start = lane_point(x, y, side, lane, True)
    lanes = [
        {"startLaneIndex": lane, "endLaneIndex": to, "points": [start, lane_point(x, y, onward, to, False)]} for to in range(LANES)
    ]
    ends = {"startRoad": road_of(back_x, back_y, side), "endRoad": road_of(x, y, onward)}
    return {"type": kind, **ends, "direction": side, "laneLinks": lanes}


def light_phases(ways: list[dict[str, Any]]) -> list[dict[str, Any]]:
    """The change, straight and left of either street, and each side alone; the right turns are free in all."""
    free = [n for n, way_ in enumerate(ways) if way_["type"] == "turn_right"]

    def phase(sides: tuple[int, ...], *kinds: str) -> dict[str, Any]:
        of = [n for n, way_ in enumerate(ways) if way_["direction"] in sides and way_["type"] in kinds]
        return {"time": 30, "availableRoadLinks": sorted(of + free)}

    both = [phase(sides, kind) for kind in ("go_straight", "turn_left") for sides in ((0, 2), (1, 3))]
    alone = [phase((side,), "go_straight", "turn_left") for side in range(4)]
    return [{"time": 5, "availableRoadLinks": free}, *both, *alone]


def roadnet(columns: int, rows: int) -> dict[str, Any]:
    """A grid of intersections with an outer ring of virtual ones."""
    inner = {(x, y) for x in range(1, columns + 1) for y in range(1, rows + 1)}
    outer = {(x + dx, y + dy) for x, y in inner for dx, dy in SIDES} - inner
    intersections, roads = [], []
    for x, y in sorted(inner | outer):
        ways = [way(x, y, side, kind) for side in range(4) for kind in TURNS] if (x, y) in inner else []
        phases = light_phases(ways) if ways else []
        light = {"roadLinkIndices": list(range(len(ways))), "lightphases": phases}
        place = {"id": name_of(x, y), "point": {"x": x * LENGTH, "y": y * LENGTH}, "width": 15}
        intersections.append({**place, "roads": [], "roadLinks": ways, "trafficLight": light, "virtual": (x, y) in outer})
        for side, (dx, dy) in enumerate(SIDES):
            if (x + dx, y + dy) in inner | outer and inner & {(x, y), (x + dx, y + dy)}:
                points = [{"x": at * LENGTH, "y": up * LENGTH} for at, up in ((x, y), (x + dx, y + dy))]
                ends = {"startIntersection": name_of(x, y), "endIntersection": name_of(x + dx, y + dy)}
                roads.append({"id": road_of(x, y, side), "points": points, "lanes": [{"width": 4, "maxSpeed": 11.11}] * LANES, **ends})
    return {"intersections": intersections, "roads": roads}


def flow(columns: int, rows: int, vehicles: int, seed: int = 1) -> list[dict[str, Any]]:
    """Vehicles one by one from the outside, their turns drawn, within ten minutes."""
    draw, found = random.Random(seed), []
    entries = [(0, y, 0) for y in range(1, rows + 1)] + [(columns + 1, y, 2) for y in range(1, rows + 1)]
    entries += [(x, 0, 1) for x in range(1, columns + 1)] + [(x, rows + 1, 3) for x in range(1, columns + 1)]
    car = {"length": 5.0, "width": 2.0, "maxPosAcc": 2.0, "maxNegAcc": 4.5, "minGap": 2.5, "maxSpeed": 11.11, "headwayTime": 1.5}
    for number in range(vehicles):
        x, y, side = draw.choice(entries)
        route = [road_of(x, y, side)]
        while 1 <= x + SIDES[side][0] <= columns and 1 <= y + SIDES[side][1] <= rows:
            x, y = x + SIDES[side][0], y + SIDES[side][1]
            side = (side + draw.choices([0, 1, 3], [6, 1, 3])[0]) % 4
            route.append(road_of(x, y, side))
        start = 600 * number // vehicles
        found.append({"vehicle": car, "route": route, "interval": 1.0, "startTime": start, "endTime": start})
    return found


def write_grid(columns: int, rows: int, folder: Path, vehicles: int) -> tuple[Path, Path]:
    """Writes both files of a grid."""
    folder.mkdir(parents=True, exist_ok=True)
    paths = folder / f"roadnet_{columns}_{rows}.json", folder / f"flow_{columns}_{rows}.json"
    paths[0].write_text(json.dumps(roadnet(columns, rows)), encoding="utf-8")
    paths[1].write_text(json.dumps(flow(columns, rows, vehicles)), encoding="utf-8")
    return paths


if __name__ == "__main__":
    write_grid(int(sys.argv[1]), int(sys.argv[2]), Path(sys.argv[3]), int(sys.argv[4]) if len(sys.argv) > 4 else 1200)
