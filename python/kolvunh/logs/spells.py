"""What the events of a controller's log show: spells of green with the yellow and the red clearance after them, walks, and gaps.

Times are in tenths of a second from the begin of the run. Nothing is made up: what the log does not have is None, and is told.
"""

from collections.abc import Iterable, Iterator
from dataclasses import dataclass, field

from .channels import Channel
from .events import Code, Event

MOST_TOLD = 5  # of one kind at one signal
NOTES = frozenset({"begin", "open", "phase", "vehicle"})  # kinds that say how a log was read, and nothing that is wrong in it


@dataclass
class Spell:
    """A green from `begin` up to `end`, with how long the yellow and the red clearance after it were shown."""

    begin: int
    end: int | None = None
    yellow: int | None = None
    clear: int | None = None


@dataclass
class Findings:
    """What is told of a log: lines by signal and kind, of which the first few are written."""

    lines: dict[tuple[str, str], list[tuple[int, str]]] = field(default_factory=dict)

    def tell(self, signal: str, kind: str, tenths: int, words: str) -> None:
        """Adds a line."""
        self.lines.setdefault((signal, kind), []).append((tenths, words))

    @property
    def are_faults(self) -> bool:
        """Whether a line says that something is wrong."""
        return any(kind not in NOTES for _, kind in self.lines)

    def told(self) -> Iterator[tuple[str, int, str]]:
        """Signal, moment and words of what is written, and how many more there are of a kind."""
        for (signal, kind), lines in self.lines.items():
            yield from ((signal, tenths, words) for tenths, words in lines[:MOST_TOLD])
            if len(lines) > MOST_TOLD:
                yield signal, lines[MOST_TOLD][0], f"and {len(lines) - MOST_TOLD} more of this kind ({kind})"


class Spells:
    """The spells of one number of a signal, from the events of its green, yellow, red clearance and the end of that."""

    def __init__(self, channel: Channel, name: str, findings: Findings) -> None:
        self.channel, self.name, self.findings = channel, name, findings
        self.found: list[Spell] = []
        self.began = False  # whether the end of a green was told that began before the log
        self.changed: int | None = None  # when the yellow or the red clearance that is on began
        self.is_clear = False

    def tell(self, kind: str, tenths: int, words: str) -> None:
        """Tells something of this number."""
        self.findings.tell(self.channel[0], kind, tenths, f"{self.name} {self.channel[1]}: {words}")

    def green(self, tenths: int) -> None:
        """A begin of green."""
        if self.found and self.found[-1].end is None:
            self.tell("no end", tenths, "its green begins, and the green before it has no end in the log")
        self.found.append(Spell(tenths))
        self.changed, self.is_clear = None, False

    def end(self, tenths: int) -> Spell | None:
        """Ends the green that is on, where there is one."""
        spell = self.found[-1] if self.found else None
        if spell is None or spell.end is not None:
            kind, words = ("begin", "the log begins in its green, which is no row") if spell is None else ("no begin", "its green has no begin in the log")
            if spell is not None or not self.began:
                self.tell(kind, tenths, words)
            self.began = True
            return None
        spell.end = tenths
        return spell

    def yellow(self, tenths: int) -> None:
        """A begin of yellow."""
        if self.end(tenths):
            self.changed, self.is_clear = tenths, False

    def clear(self, tenths: int) -> None:
        """A begin of red clearance."""
        if self.changed is None or self.is_clear:
            spell = self.end(tenths)
            if spell is None:
                return
            spell.yellow = 0
        else:
            self.found[-1].yellow = tenths - self.changed
        self.changed, self.is_clear = tenths, True

    def cleared(self, tenths: int) -> None:
        """An end of red clearance."""
        if self.changed is None:
            self.yellow(tenths)
        if self.changed is not None:
            shown = tenths - self.changed
            if self.is_clear:
                self.found[-1].clear = shown
            else:
                self.found[-1].yellow, self.found[-1].clear = shown, 0
        self.changed, self.is_clear = None, False


STEPS = {
    Code.GREEN: Spells.green, Code.YELLOW: Spells.yellow, Code.CLEAR: Spells.clear, Code.CLEARED: Spells.cleared,
    Code.OVERLAP_GREEN: Spells.green, Code.OVERLAP_YELLOW: Spells.yellow, Code.OVERLAP_CLEAR: Spells.clear,
    Code.OVERLAP_CLEARED: Spells.cleared,
    Code.WALK: Spells.green, Code.CROSS: Spells.yellow, Code.CROSSED: Spells.clear,
}  # fmt: skip


def spells_of(name: str, channel: Channel, events: Iterable[Event], findings: Findings) -> list[Spell]:
    """The spells of one number of a signal, from the events of it in the order of the file."""
    spells = Spells(channel, name, findings)
    for event in events:
        STEPS[Code(event.code)](spells, event.tenths)
    return spells.found


def tell_steps(signal: str, events: Iterable[Event], most: int, findings: Findings) -> None:
    """Tells where the clock of a signal steps back, and where it has no event for longer than `most` tenths."""
    before: Event | None = None
    for event in events:
        if before is not None and event.tenths < before.tenths:
            words = f"the clock steps back by {(before.tenths - event.tenths) / 10:g} s, in line {event.line}"
            findings.tell(signal, "clock", event.tenths, words)
        elif before is not None and event.tenths - before.tenths > most:
            words = f"no event for {(event.tenths - before.tenths) / 10:g} s: a gap, or a clock that steps on, in line {event.line}"
            findings.tell(signal, "gap", before.tenths, words)
        before = event
