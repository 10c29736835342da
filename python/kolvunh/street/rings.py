"""The phases of rings and barriers as the stages of one ring, with their seconds in a cycle.

A stage is what is green together. It begins where a phase of a ring begins, and ends with the yellow and all-red of
those that end with it. What is too short for a green, or beyond four stages, goes into the stage after it, and is told.
"""

import math
from collections.abc import Iterator, Sequence
from dataclasses import dataclass, field

from .junction_file import MOST_STAGES


@dataclass(frozen=True)
class RingPhase:
    """A phase of a controller: its place, and its split with the yellow and all-red in it."""

    number: int
    barrier: int
    ring: int
    position: int
    split: float
    yellow: float
    red: float


@dataclass
class Times:
    """A stage: the phases that are green in it, its begin in the cycle, and its seconds."""

    phases: frozenset[int]
    begin: int
    green: int = 0
    yellow: int = 0
    clear: int = 0


@dataclass
class Rings:
    """The stages of a controller's plan; `lost` is why there are none."""

    phases: Sequence[RingPhase]
    stages: list[Times] = field(default_factory=list)
    cycle: int = 0
    told: list[str] = field(default_factory=list)
    lost: str | None = None

    def __post_init__(self) -> None:
        begins = dict(self._begins())
        self.cycle = math.floor(max((begin + split for begin, split in begins.values()), default=0) + 0.5)
        for begin in sorted({round(begin, 1) for begin, _ in begins.values()}):
            own = frozenset(number for number, (at, split) in begins.items() if at - 0.05 < begin < at + split - 0.05)
            self.stages.append(Times(own, math.floor(begin + 0.5)))
        self._time()
        while self.lost is None and (short := self._short()) is not None:
            self._drop(short)

    def _begins(self) -> Iterator[tuple[int, tuple[float, float]]]:
        """When each phase begins, and its split; the last one of a ring lasts to the barrier."""
        begin = 0.0
        for barrier in sorted({phase.barrier for phase in self.phases}):
            rings: dict[int, list[RingPhase]] = {}
            for phase in sorted(self.phases, key=lambda phase: phase.position):
                if phase.barrier == barrier:
                    rings.setdefault(phase.ring, []).append(phase)
            whole = max(sum(phase.split for phase in own) for own in rings.values())
            for own in rings.values():
                at = begin
                for phase in own:
                    rest = begin + whole - at if phase is own[-1] else phase.split
                    if rest - phase.split > 0.05:
                        self.told.append(
                            f"phase {phase.number} lasts {rest:g} s in place of {phase.split:g}, until the other ring "
                            f"is at the barrier"
                        )
                    yield phase.number, (at, rest)
                    at += phase.split
            begin += whole

    def _time(self) -> None:
        """Computes the seconds of the stages from their begins."""
        times = {phase.number: phase for phase in self.phases}
        count = len(self.stages)
        for at, stage in enumerate(self.stages):
            after = self.stages[(at + 1) % count]
            ends = [times[number] for number in stage.phases - after.phases]
            stage.yellow = max((math.ceil(phase.yellow - 0.01) for phase in ends), default=0)
            stage.clear = max((math.ceil(phase.red - 0.01) for phase in ends), default=0)
            length = (after.begin - stage.begin) % self.cycle or self.cycle
            stage.green = length - stage.yellow - stage.clear

    def _short(self) -> int | None:
        """A stage that can't stay: the shortest one, where it has no green or there are too many."""
        if len(self.stages) < 2:
            self.lost = "its plan has fewer than two stages"
            return None
        order = sorted(range(len(self.stages)), key=lambda at: self.stages[at].green)
        if self.stages[order[0]].green >= 1 and len(self.stages) <= MOST_STAGES:
            return None
        need = [at for at in order if self.stages[at].green < 1] or order
        found = next((at for at in need if self._is_spare(at)), None)
        if found is None:
            words = sorted(self.stages[order[0]].phases)
            self.lost = f"it has {len(self.stages)} stages, and {MOST_STAGES} can be said"
            if self.stages[order[0]].green < 1:
                self.lost = f"the green of phases {words} is no longer than their yellow and all-red"
        return found

    def _is_spare(self, at: int) -> bool:
        """Whether each phase of a stage is green in another one too."""
        others = frozenset[int]().union(*(stage.phases for place, stage in enumerate(self.stages) if place != at))
        return self.stages[at].phases <= others

    def _drop(self, at: int) -> None:
        """Takes a stage out; its seconds go to the one after it, or to the one before where they have more in
        common."""
        stage, after = self.stages[at], self.stages[(at + 1) % len(self.stages)]
        if stage.phases & after.phases or not stage.phases & self.stages[at - 1].phases:
            after.begin = stage.begin
        why = "it is too short for a green"
        if stage.green > 0:
            why = f"it has {stage.green} s, and {MOST_STAGES} stages are the most"
        self.told.append(f"phases {' and '.join(map(str, sorted(stage.phases)))} have no stage of their own: {why}")
        del self.stages[at]
        first = self.stages[0].begin
        for each in self.stages:
            each.begin = (each.begin - first) % self.cycle
        self.stages.sort(key=lambda each: each.begin)
        self._time()

    def point(self, phases: Sequence[int], way: int) -> int:
        """The second of the cycle to which an offset refers: the last of these phases to turn green (0), the first to
        turn yellow (1) or red (2),
        or the first to turn green (3)."""
        begins, ends = [], []
        for at, stage in enumerate(self.stages):
            before, after = self.stages[at - 1], self.stages[(at + 1) % len(self.stages)]
            begins += [stage.begin for number in phases if number in stage.phases - before.phases]
            end = stage.begin + stage.green + (stage.yellow if way == 2 else 0)
            ends += [end for number in phases if number in stage.phases - after.phases]
        if way in (0, 3):
            return (max if way == 0 else min)(begins, default=0)
        return min(ends, default=0)
