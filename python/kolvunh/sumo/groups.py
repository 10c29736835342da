"""A signal as a node of a network file: its greens as phases, and its lanes as groups with one home each. Nothing here is proved.

A group is the lanes of an edge that are green in the same phases and give way in the same ones, or a crossing of people on foot. Its
home is the phase in which most of its movements need not give way; of several such one in which vehicles are green, and the longest.
"""

import math
from collections import defaultdict
from collections.abc import Iterable, Iterator, Mapping, Sequence
from typing import NamedTuple, Protocol

from .streets import Movement, edge_of

SHORT = 5  # seconds: a green that is shorter is part of a change
MOST_PHASES, MOST_GROUPS, MOST_YELLOW = 4, 16, 10
CLEARING, LEAVING = 3, 2  # seconds of all-red after a phase in which somebody gives way: his next green may be left out; he has none
VEHICLE = 7.5  # metres of a standing vehicle with its gap
INSIDE, FOLLOWING = 2, 2  # vehicles that wait within a junction, for which these seconds are enough; seconds for each further one
WALK = 5  # seconds in which a crossing may be entered
WALKING = 1.2  # metres a second

Walks = Mapping[int, int]  # the places of crossings in a signal's state, and for how many seconds they may be entered


def place_of(lane: str) -> int:
    """The place of a lane on its edge, from the right."""
    return int(lane.rpartition("_")[2])


class Relations(Protocol):
    """Who crosses whom at a junction, and who gives way where both are green."""

    def cross(self, one: Movement, other: Movement) -> bool:
        """Whether two movements cross or merge."""

    def gives_way(self, one: Movement, other: Movement) -> bool:
        """Whether the first gives way."""


class Phase(NamedTuple):
    """A green of a signal: its state, its seconds, and those of the yellow and the all-red after it."""

    state: str
    seconds: float
    yellow: int
    clear: int


class Loss(NamedTuple):
    """What a file can't say of a signal, or why it is no node: of which kind it is, and what is done in its place."""

    kind: str
    words: str


class Group:
    """Lanes with the same greens: the phases in which they are green, and those in which they give way; `cross` seconds on foot."""

    def __init__(self, edge: str, greens: frozenset[int], giving: frozenset[int], cross: int | None = None) -> None:
        self.edge, self.greens, self.giving, self.cross = edge, greens, giving, cross
        self.lanes: list[str] = []
        self.moves: list[Movement] = []
        self.home, self.shown = 0, greens


class Node:
    """A signal: its phases, those that a node of the file has (`used`) and leaves out at times (`marked`), its groups, its losses."""

    def __init__(
        self,
        name: str,
        moves: Sequence[Movement],
        states: Sequence[tuple[float, str]],
        relations: Relations,
        crossings: Mapping[Movement, float] | None = None,
    ) -> None:
        self.name, self.moves, self.relations = name, list(moves), relations
        self.crossings = dict(crossings or {})
        self.losses: list[Loss] = []
        self.phases = self._phases(states)
        self.groups = self._groups()
        self.used, self.marked = self._choose()

    def _phases(self, states: Sequence[tuple[float, str]]) -> list[Phase]:
        """The states that are greens, each with the yellow and the clear time after it; one that is there twice is one phase."""
        green = [bool(set(state) & set("Gg")) and not set(state) & set("yYu") for _, state in states]
        for place, (seconds, state) in enumerate(states):
            if green[place] and seconds < SHORT and not self._is_end_of_walk(states, place):
                green[place] = False
                if any(letter in "Gg" and before not in "Gg" for letter, before in zip(state, states[place - 1][1])):
                    self._lose("short green", f"the green {state} is shorter than {SHORT} s: it is a part of the change before it")
        first = next((place for place, is_green in enumerate(green) if is_green), None)
        found: list[Phase] = []
        for step in range(len(states) if first is not None else 0):
            place = ((first or 0) + step) % len(states)
            seconds, state = states[place]
            if green[place] and self._is_end_of_walk(states, place) and found:
                found[-1] = found[-1]._replace(seconds=found[-1].seconds + seconds)
            elif green[place]:
                found.append(Phase(state, seconds, 0, 0))
            elif set(state) & set("yYu"):
                found[-1] = found[-1]._replace(yellow=found[-1].yellow + int(seconds))
            else:
                found[-1] = found[-1]._replace(clear=found[-1].clear + int(seconds))
        bounded = [
            phase._replace(yellow=max(1, min(MOST_YELLOW, phase.yellow or 3)), clear=min(MOST_YELLOW, phase.clear)) for phase in found
        ]
        return list({phase.state: phase for phase in reversed(bounded)}.values())[::-1]

    def _lose(self, kind: str, words: str) -> None:
        self.losses.append(Loss(kind, words))

    def _is_end_of_walk(self, states: Sequence[tuple[float, str]], place: int) -> bool:
        """Whether a state is the one before it but for crossings that have ended."""
        now, before = states[place][1], states[place - 1][1]
        walks = {move.index for move in self.crossings}
        pairs = [(n, a, b) for n, (a, b) in enumerate(zip(before, now)) if a != b]
        return bool(pairs) and all(n in walks and a in "Gg" and b == "r" for n, a, b in pairs)

    def letter(self, phase: int, move: Movement) -> str:
        """What a movement is shown in a phase."""
        return self.phases[phase].state[move.index : move.index + 1]

    def is_green(self, phase: int, move: Movement) -> bool:
        """Whether a movement is green in a phase."""
        return self.letter(phase, move) in ("G", "g")

    def gives_way_to(self, phase: int, move: Movement) -> Iterator[Movement]:
        """Those to which a movement gives way in a phase."""
        if self.letter(phase, move) == "g":
            for other in (*self.moves, *self.crossings):
                if self.is_green(phase, other) and self.relations.cross(move, other) and self.relations.gives_way(move, other):
                    yield other

    def _groups(self) -> list[Group]:
        """The lanes of each edge by their greens and by where they give way, and each crossing."""
        lanes: dict[str, list[Movement]] = defaultdict(list)
        for move in self.moves:
            lanes[move.lane].append(move)
        groups: dict[tuple[str, frozenset[int], frozenset[int]], Group] = {}
        for lane in sorted(lanes, key=lambda lane: (edge_of(lane), place_of(lane))):
            greens = self._greens_of(lane, lanes[lane])
            if greens:
                giving = frozenset(
                    phase
                    for phase in greens
                    if any(edge_of(other.lane) != edge_of(lane) for move in lanes[lane] for other in self.gives_way_to(phase, move))
                )
                key = edge_of(lane), greens, giving
                group = groups.setdefault(key, Group(*key))
                group.lanes.append(lane)
                group.moves += lanes[lane]
        return [*groups.values(), *self._walks(len(groups))]

    def _greens_of(self, lane: str, moves: Sequence[Movement]) -> frozenset[int]:
        """The phases in which a whole lane is green; of one that never is, the phase in which most of it is."""
        count = [sum(self.is_green(phase, move) for move in moves) for phase in range(len(self.phases))]
        whole = frozenset(phase for phase, green in enumerate(count) if green == len(moves))
        part = {phase for phase, green in enumerate(count) if 0 < green < len(moves)}
        if part:
            words = f"lane {lane} has movements with different greens: the green of only some of them is not counted, and is shown"
            self._lose("lane partly green", words)
        if not whole and part:
            return frozenset([max(part, key=lambda phase: (count[phase], self.phases[phase].seconds))])
        if not whole:
            self._lose("lane never green", f"lane {lane} is never green: it is no link")
        return whole

    def _walks(self, lanes: int) -> Iterator[Group]:
        """The crossings, each a group; where that makes too many, those with the same greens are one."""
        merged: dict[object, Group] = {}
        for move, length in self.crossings.items():
            greens = frozenset(phase for phase in range(len(self.phases)) if self.is_green(phase, move))
            if greens:
                key = move.lane if lanes + len(self.crossings) <= MOST_GROUPS else greens
                cross = min(120, math.ceil(length / WALKING))
                group = merged.setdefault(key, Group(move.lane, greens, frozenset(), cross))
                group.lanes.append(move.lane)
                group.moves.append(move)
                group.cross = max(cross, group.cross or 0)
            else:
                self._lose("crossing never green", f"crossing {move.lane} is never green: it is no link")
        return iter(merged.values())

    def walks_alike(self) -> list[Group]:
        """Its groups, where crossings with the same greens are one."""
        merged: dict[object, Group] = {}
        for number, group in enumerate(self.groups):
            key = group.shown if group.cross is not None else number
            if key in merged:
                merged[key].lanes += group.lanes
                merged[key].moves += group.moves
                merged[key].cross = max(merged[key].cross or 0, group.cross or 0)
                merged[key].home = self._home(merged[key], self.used) or 0
            else:
                merged[key] = group
        return list(merged.values())

    def _home(self, group: Group, phases: Iterable[int]) -> int | None:
        """The phase of these in which a group has its home."""
        free = {phase: sum(self.letter(phase, move) == "G" for move in group.moves) for phase in phases if phase in group.greens}
        driven = {phase for phase in free if any(self.is_green(phase, move) for move in self.moves)}
        return max(free, key=lambda phase: (free[phase], phase in driven, self.phases[phase].seconds), default=None)

    def _choose(self) -> tuple[list[int], set[int]]:
        """The phases that are used, and of these the marked ones; gives each group its home, and has one group of those alike in them."""
        kept = list(range(len(self.phases)))
        while True:
            self.groups = list(self._alike(set(kept)))
            homes = [self._home(group, kept) for group in self.groups]
            used = [phase for phase in kept if phase in homes]
            spare = [
                phase
                for phase in used
                if all(group.greens & set(used) - {phase} for group, home in zip(self.groups, homes) if home == phase)
            ]
            if len(used) > MOST_PHASES and spare:
                gone = min(spare, key=lambda phase: self.phases[phase].seconds)
                words = f"the green {self.phases[gone].state} is left out: a node has {MOST_PHASES} phases, and all are green elsewhere"
                self._lose("phase left out", words)
                used.remove(gone)
            elif len(used) == 1 < len(kept):
                used = sorted([*used, *(phase for phase in kept if phase not in used)][:MOST_PHASES])
                self._lose("phase without lanes", "in all but one phase nothing has its home: such a phase is kept all the same")
                self._tell_left_out(set(kept) - set(used))
                break
            elif used == kept:
                break
            self._tell_left_out({phase for phase in kept if phase not in homes})
            kept = used
        for group, home in zip(self.groups, homes):
            group.home, group.shown = home or 0, frozenset(group.greens & set(used))
        return used, self._marked(used)

    def _tell_left_out(self, phases: Iterable[int]) -> None:
        for phase in phases:
            self._lose("phase left out", f"the green {self.phases[phase].state} is left out: nothing has its home in it")

    def _alike(self, kept: set[int]) -> Iterator[Group]:
        """The groups, of which those of an edge that are green in the same phases of these, and give way in the same ones, are one."""
        merged: dict[object, Group] = {}
        for number, group in enumerate(self.groups):
            greens, giving = group.greens & kept, group.giving & kept
            key = (group.edge, greens, giving) if group.cross is None else number
            if key in merged:
                merged[key].lanes = sorted(merged[key].lanes + group.lanes, key=place_of)
                merged[key].moves += group.moves
            else:
                merged[key] = group
                group.greens, group.giving = frozenset(greens), frozenset(giving)
        return iter(merged.values())

    def _marked(self, used: Sequence[int]) -> set[int]:
        """The phases whose every group is green in another one that is always shown: they are shown where they are wanted alone."""
        marked: set[int] = set()
        for phase in reversed(used):
            rest = {other for other in used if other not in marked and other != phase}
            if len(rest) >= 2 and all(group.shown & rest for group in self.groups if group.home == phase):
                marked.add(phase)
        return marked

    def drop(self, phases: Iterable[int]) -> None:
        """Leaves these phases out, in which no vehicle has its home."""
        self.used = [phase for phase in self.used if phase not in set(phases)]
        for group in self.groups:
            group.shown = frozenset(group.greens & set(self.used))
        self.marked = self._marked(self.used)

    def yields(self, group: Group, other: Group) -> bool:
        """Whether a group gives way to another in some phase."""
        return any(
            to in other.moves for phase in group.shown & other.shown for move in group.moves for to in self.gives_way_to(phase, move)
        )

    def crosses(self, group: Group, other: Group) -> bool:
        """Whether movements of two groups cross or merge."""
        return any(self.relations.cross(one, two) for one in group.moves for two in other.moves)

    def clear_after(self, phase: int) -> int:
        """The seconds of all-red after a phase: who gives way may stand in the junction when it ends, and have no phase to follow."""
        follow = self._followers(phase)
        giving = [group for group in self.groups if phase in group.shown & group.giving and not follow <= group.shown]
        own = any(follow & group.shown for group in giving)
        ways = [move for group in giving for move in group.moves if self.letter(phase, move) == "g"]
        waiting = max((1 + int(move.room // VEHICLE) for move in ways), default=0)
        least = (CLEARING if own else LEAVING) + FOLLOWING * max(0, waiting - INSIDE) if giving else 0
        return max(self.phases[phase].clear, min(MOST_YELLOW, least))

    def _followers(self, phase: int) -> set[int]:
        """The phases that may come next after one: those up the ring, to the first that is always shown."""
        place, found = self.used.index(phase), set[int]()
        for following in (*self.used[place + 1 :], *self.used[:place]):
            found.add(following)
            if following not in self.marked:
                break
        return found

    def least_of(self, phase: int) -> int:
        """The least green of a phase, in seconds: people on foot have to be over in it."""
        return max([SHORT, *(WALK + group.cross for group in self.groups if group.cross is not None and phase in group.shown)])

    def reasons(self) -> list[Loss]:
        """Why the signal is no node."""
        found = []
        if len(self.used) < 2:
            found.append(Loss("one phase", f"it has {len(self.used) or 'no'} phase with lanes, and a node has 2 at least"))
        if len(self.used) > MOST_PHASES:
            words = f"it has {len(self.used)} phases for which no other stands, and a node has {MOST_PHASES} at most"
            found.append(Loss("more than 4 phases", words))
        if len(self.groups) > MOST_GROUPS:
            words = f"it has {len(self.groups)} groups of lanes, and a node has {MOST_GROUPS} at most"
            found.append(Loss("more than 16 groups", words))
        return found

    def is_plain(self) -> bool:
        """Whether a file of version 2 says it wholly."""
        return not self.losses and all(len(group.shown) == 1 and group.cross is None and not group.giving for group in self.groups)

    @property
    def walks(self) -> Walks:
        """The crossings' places in the state, and the seconds in which they may be entered."""
        return {move.index: WALK for move in self.crossings}
