"""What is green in each stage of a junction, who gives way there, and the lanes that are one link. Faults name junction, approach, movement."""

from collections import defaultdict
from dataclasses import dataclass
from itertools import combinations

from ..faults import Fault
from .legs import Movement, Path, cross, exits_of, gives_way
from .plan import Approach, Crossing, Junction, Lane, Left, Stage, Street


@dataclass
class Group:
    """The lanes of an approach that are green in the same stages and give way in the same ones; or a crossing, without paths."""

    name: str
    approach: str
    lanes: tuple[int, ...]
    paths: tuple[Path, ...]
    greens: frozenset[int]
    giving: frozenset[int]
    is_bus: bool = False
    walk: Crossing | None = None
    home: int = 0


class Signals:
    """The greens of a junction: `groups` are its links to come, with whom each gives way to and crosses."""

    def __init__(self, street: Street, junction: Junction) -> None:
        self.street, self.junction = street, junction
        self.exits = {leg: exits_of(leg, [name for name in junction.approaches if self._leaves(name)]) for leg in junction.approaches}
        self.paths = [path for approach in junction.approaches.values() for path in self._paths(approach)]
        self.greens = [self._greens(stage) for stage in junction.stages]
        self.giving = [self._giving(number) for number in range(len(junction.stages))]
        self.groups = [*self._groups(), *self._walks()]
        for group in self.groups:
            group.home = self._home(group)

    def _leaves(self, leg: str) -> bool:
        return self.junction.approaches[leg].out != 0

    def fail(self, line: int, where: str, words: str) -> Fault:
        """A fault at a line of the file."""
        return Fault(f"{self.street.place}:{line}: junction {self.junction.name}, {where}: {words}")

    def out(self, leg: str) -> int:
        """How many lanes leave by a leg: what the file says, or as many as one movement into it has."""
        said = self.junction.approaches[leg].out
        return said if said is not None else max([1, *(len(lanes) for (_, _, to), lanes in self._by_movement().items() if to == leg)])

    def _by_movement(self) -> dict[tuple[str, Movement, str], list[int]]:
        """The lanes of each movement of each approach, with the leg to which it leads."""
        found: dict[tuple[str, Movement, str], list[int]] = defaultdict(list)
        for approach in self.junction.approaches.values():
            for number, lane in enumerate(approach.lanes):
                for movement in lane.movements:
                    leg = self.exits[approach.leg].get(movement)
                    if leg is None:
                        raise self.fail(approach.line, f"approach {approach.leg}, {movement}", f"no leg that vehicles leave by is there: leave it out of lane \"{lane.words}\"")
                    found[approach.leg, movement, leg].append(number)
        return found

    def _paths(self, approach: Approach) -> list[Path]:
        """The paths of an approach: a left leads to the left lanes of its leg, the others to the right ones; lanes beyond share the last one."""
        found = []
        for (leg, movement, to), lanes in self._by_movement().items():
            if leg == approach.leg:
                most = self.out(to)
                for place, lane in enumerate(lanes):
                    target = min(place, most - 1) if movement == Movement.LEFT else max(0, most - len(lanes) + place)
                    found.append(Path(leg, lane, movement, to, target))
        return found

    def _greens(self, stage: Stage) -> set[Path | Crossing]:
        """What is green in a stage; the left of an approach that is protected is green only where it is named itself."""
        found: set[Path | Crossing] = set()
        for green in stage.greens:
            if green.is_walk:
                found.add(self.junction.crossings[green.leg])
                continue
            left = self.junction.approaches[green.leg].left
            own = [path for path in self.paths if path.approach == green.leg]
            if green.movement:
                found |= {path for path in own if path.movement == green.movement}
            else:
                found |= {path for path in own if path.movement != Movement.LEFT or left != Left.PROTECTED}
        return found

    def meet(self, one: Path | Crossing, other: Path | Crossing) -> bool:
        """Whether two cross; people meet who comes by the leg that they cross, or leaves by it."""
        if isinstance(one, Path) and isinstance(other, Path):
            return cross(one, other)
        if isinstance(one, Crossing) and isinstance(other, Crossing):
            return False
        path, walk = (one, other) if isinstance(one, Path) else (other, one)
        return isinstance(path, Path) and isinstance(walk, Crossing) and walk.leg in (path.approach, path.leg)

    def yields_to(self, one: Path | Crossing, other: Path | Crossing) -> bool:
        """Whether the first gives way to the second where both are green."""
        if isinstance(one, Crossing) or not self.meet(one, other):
            return False
        if isinstance(other, Crossing):
            return one.movement != Movement.THROUGH and other.leg == one.leg
        left = self.junction.approaches[one.approach].left
        return gives_way(one, other) and (one.approach == other.approach or left != Left.PROTECTED)

    def _giving(self, number: int) -> dict[Path, set[Path | Crossing]]:
        """Who gives way to whom in a stage; two that cross, of which none does, are refused."""
        found: dict[Path, set[Path | Crossing]] = defaultdict(set)
        order = sorted(self.greens[number], key=lambda one: (isinstance(one, Crossing), str(one)))
        for one, other in combinations(order, 2):
            if not self.meet(one, other):
                continue
            gives = [(a, b) for a, b in ((one, other), (other, one)) if self.yields_to(a, b)]
            if not gives:
                raise self._clash(number, one, other)
            for a, b in gives:
                if isinstance(a, Path):
                    found[a].add(b)
        return found

    def _clash(self, number: int, one: Path | Crossing, other: Path | Crossing) -> Fault:
        words = [path.words if isinstance(path, Path) else f"crossing {path.leg}" for path in (one, other)]
        lefts = [path for path in (one, other) if isinstance(path, Path) and path.movement == Movement.LEFT]
        help = f'put them into two stages{", or write left = permissive or both" if lefts and self._faces(one, other) else ""}'
        leg = one.approach if isinstance(one, Path) else one.leg
        return self.fail(self.junction.stages[number].line, f"stage {number + 1}, approach {leg}", f"{words[0]} and {words[1]} cross, are green together, and none gives way: {help}")

    def _faces(self, one: Path | Crossing, other: Path | Crossing) -> bool:
        return isinstance(one, Path) and isinstance(other, Path) and (gives_way(one, other) or gives_way(other, one))

    def _groups(self) -> list[Group]:
        """The lanes of each approach by their greens and by where they give way."""
        found: dict[tuple[object, ...], list[int]] = defaultdict(list)
        for approach in self.junction.approaches.values():
            for number, lane in enumerate(approach.lanes):
                greens, giving = self._of_lane(approach, number, lane)
                found[approach.leg, lane.is_bus, greens, giving].append(number)
        groups = []
        for (leg, is_bus, greens, giving), lanes in found.items():
            paths = tuple(path for path in self.paths if path.approach == leg and path.lane in lanes)
            groups.append(Group("", str(leg), tuple(lanes), paths, frozenset(greens), frozenset(giving), bool(is_bus)))  # type: ignore[call-overload]
        return groups

    def _of_lane(self, approach: Approach, number: int, lane: Lane) -> tuple[frozenset[int], frozenset[int]]:
        """The stages in which a lane is green, and those in which it gives way. One with movements of different greens is refused."""
        own = [path for path in self.paths if path.approach == approach.leg and path.lane == number]
        whole = set()
        for stage, greens in enumerate(self.greens):
            green = [path for path in own if path in greens]
            if green and len(green) < len(own):
                red = next(path for path in own if path not in greens)
                words = f'lane "{lane.words}" is green in stage {stage + 1}, and its {red.movement} is not: give the {red.movement} a lane of its own'
                more = ', or write left = "permissive"' if red.movement == Movement.LEFT else ""
                raise self.fail(approach.line, f"approach {approach.leg}, {red.movement}", words + more)
            if green:
                whole.add(stage)
        if not whole:
            word = f"{approach.leg} {own[0].movement}" if own else approach.leg
            raise self.fail(approach.line, f"approach {approach.leg}, {own[0].movement if own else 'all'}", f'lane "{lane.words}" is green in no stage: add "{word}" to one')
        self._require_left(approach, own, whole)
        giving = {stage for stage in whole if any(self.giving[stage].get(path) for path in own)}
        return frozenset(whole), frozenset(giving)

    def _require_left(self, approach: Approach, own: list[Path], whole: set[int]) -> None:
        """Refuses a left that is to be protected and has no green in which nobody comes towards it."""
        if approach.left == Left.BOTH:
            for path in own:
                if path.movement == Movement.LEFT and all(self._meets_facing(stage, path) for stage in whole):
                    words = f'it is both protected and permissive, and in no stage it is green alone: add "{approach.leg} left" to one'
                    raise self.fail(approach.line, f"approach {approach.leg}, left", words)

    def _meets_facing(self, stage: int, path: Path) -> bool:
        return any(isinstance(other, Path) for other in self.giving[stage].get(path, ()))

    def _walks(self) -> list[Group]:
        groups = []
        for walk in self.junction.crossings.values():
            greens = frozenset(number for number, greens in enumerate(self.greens) if walk in greens)
            if not greens:
                raise self.fail(walk.line, f"crossing {walk.leg}", f'it is green in no stage: add "crossing {walk.leg}" to the green of one')
            groups.append(Group("", walk.leg, (), (), greens, frozenset(), False, walk))
        return groups

    def _home(self, group: Group) -> int:
        """The stage in which a group gives way least, and of several the longest one."""
        def rank(stage: int) -> tuple[int, int, int]:
            giving = sum(bool(self.giving[stage].get(path)) for path in group.paths)
            return -giving, self.junction.stages[stage].greatest or 0, -stage
        return max(group.greens, key=rank)

    def members(self, group: Group) -> tuple[Path | Crossing, ...]:
        """The paths of a group, or its crossing."""
        return (group.walk,) if group.walk else group.paths

    def crosses(self, one: Group, other: Group) -> bool:
        """Whether two groups cross somewhere."""
        return any(self.meet(a, b) for a in self.members(one) for b in self.members(other))

    def yields(self, one: Group, other: Group) -> bool:
        """Whether the first group gives way to the second in a stage in which both are green."""
        return any(b in self.giving[stage].get(a, ()) for stage in one.greens & other.greens for a in one.paths for b in self.members(other))
