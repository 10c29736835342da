"""The rows of a sheet from the spells of a log: docs/FORMATS.md, "Sheet of a log".

Rows are in whole seconds, and so rounded that `audit` finds what the stamps show: what is too short by a tenth is so in the sheet by a second.
"""

from collections.abc import Sequence
from dataclasses import dataclass

from ..networks import Link, Network, Node, Phase
from ..reports import Green
from ..signs import lights_of
from .spells import Findings, Spell

SECOND = 10  # tenths
APART = 10  # tenths by which controllers' phases of one phase may begin or end apart


@dataclass
class Stage:
    """A spell of a phase of a node."""

    phase: int
    spell: Spell


def union(spells: Sequence[list[Spell]], signal: str, number: int, findings: Findings) -> list[Spell]:
    """The spells of a phase that several numbers of a controller show: from the first begin to the last end."""
    ordered = sorted((spell for each in spells for spell in each), key=lambda spell: spell.begin) if len(spells) > 1 else spells[0]
    found: list[Spell] = []
    for spell in ordered:
        last = found[-1] if found and len(spells) > 1 else None
        if last is None or last.end is None or spell.end is None or spell.begin >= last.end:
            found.append(spell)
            continue
        if spell.begin - last.begin > APART or abs(spell.end - last.end) > APART:
            words = f"the controller's phases of phase {number} are not green together: {seconds(last)} and {seconds(spell)}"
            findings.tell(signal, "rings", spell.begin, words)
        late = spell if spell.end >= last.end else last
        found[-1] = Spell(last.begin, late.end, late.yellow, late.clear)
    return found


def seconds(spell: Spell) -> str:
    """From and up to which second of the run a spell goes."""
    return f"{spell.begin / SECOND:g} to {spell.end / SECOND:g}" if spell.end is not None else f"from {spell.begin / SECOND:g}"


class Rows:
    """The rows of one node from its stages in the order of time, and what is told of them."""

    def __init__(self, node: Node, signal: str, stages: Sequence[Stage], last: int, findings: Findings) -> None:
        self.node, self.signal, self.stages, self.last, self.findings = node, signal, stages, last, findings

    def tell(self, kind: str, stage: Stage, words: str) -> None:
        """Tells something of a stage."""
        self.findings.tell(self.signal, kind, stage.spell.begin, f"phase {stage.phase} of node {self.node.name}: {words}")

    def greens(self) -> list[Green]:
        """The rows."""
        after = [*self.stages[1:], None]
        return [self.row(stage, later) for stage, later in zip(self.stages, after)]

    def row(self, stage: Stage, later: Stage | None) -> Green:
        """The row of a stage; `later` is the one after it."""
        begin, end = stage.spell.begin // SECOND, self.end_of(stage, later)
        change = self.change_of(stage, later)
        if change is not None and later is not None:
            end = max(end, later.spell.begin // SECOND - change)
        return Green(self.node.name, stage.phase, begin, end)

    def end_of(self, stage: Stage, later: Stage | None) -> int:
        """The second in which a green ends, rounded so that its length is lawful only where that of the log is."""
        spell, phase = stage.spell, self.node.phases[stage.phase]
        begin = spell.begin // SECOND
        if spell.end is None:
            return self.open_end(stage, later)
        length, whole = spell.end - spell.begin, spell.end // SECOND - begin
        if length < SECOND * phase.least:
            self.tell("short", stage, f"green for {length / SECOND:g} s, and least is {phase.least}")
            return begin + min(whole, phase.least - 1)
        if length > SECOND * phase.greatest:
            self.tell("long", stage, f"green for {length / SECOND:g} s, and greatest is {phase.greatest}")
            return begin + max(whole, phase.greatest + 1)
        return begin + min(max(whole, phase.least), phase.greatest)

    def open_end(self, stage: Stage, later: Stage | None) -> int:
        """Where a green ends that has no end in the log: where the next one begins, or with the log."""
        begin = stage.spell.begin // SECOND
        if later is not None:
            self.tell("no end", stage, "its green has no end in the log; in the sheet it lasts until the next green begins")
            return later.spell.begin // SECOND
        self.tell("open", stage, "the log ends in its green; in the sheet it lasts as long, and for its least green")
        return max(self.last // SECOND, begin + self.node.phases[stage.phase].least)

    def change_of(self, stage: Stage, later: Stage | None) -> int | None:
        """How many seconds of yellow and red clearance count where less of one was shown than the network has; None where all was."""
        spell, phase = stage.spell, self.node.phases[stage.phase]
        if spell.end is None or (later is None and spell.clear is None):
            return None
        short = [part for part in self.parts_of(spell, phase) if part[1] < SECOND * part[2]]
        for name, shown, wanted in short:
            what = f"{name} for {shown / SECOND:g} s" if shown else f"no {name}"
            self.tell(name, stage, f"{what} after its green up to second {spell.end / SECOND:g}, and {wanted} s are to be there")
        early = later is not None and later.spell.begin - spell.end < SECOND * (phase.yellow + phase.clear)
        if early:
            self.tell("conflict", stage, self.early_words(stage, later))
        if not short and not early:
            return None
        counted = sum(min(shown, SECOND * wanted) for _, shown, wanted in self.parts_of(spell, phase))
        return min(counted // SECOND, phase.yellow + phase.clear - 1)

    def parts_of(self, spell: Spell, phase: Phase) -> list[tuple[str, int, int]]:
        """Yellow and red clearance: the name, how many tenths were shown, and how many seconds are to be."""
        return [("yellow", spell.yellow or 0, phase.yellow), ("red clearance", spell.clear or 0, phase.clear)]

    def early_words(self, stage: Stage, later: Stage) -> str:
        """What is said of a green that begins too early after this one."""
        phase, between = self.node.phases[stage.phase], (later.spell.begin - stage.spell.end) / SECOND
        when = f"{between:g} s after its end" if between >= 0 else f"{-between:g} s before its end"
        return f"phase {later.phase} becomes green {when}, and {phase.yellow + phase.clear} s are to be between"


def is_same(spell: Spell, begin: int, end: int | None) -> bool:
    """Whether a spell is one from this second up to that one, but for tenths."""
    return end is not None and abs(spell.begin - SECOND * begin) < SECOND and abs(spell.end - SECOND * end) < SECOND


def tell_links(network: Network, link: Link, rows: Sequence[Green], spells: Sequence[Spell], say: tuple[str, Findings]) -> None:
    """Tells where an overlap or a crossing of a log is green in other seconds than the phases of the log make it."""
    signal, findings = say
    if any(before.end > after.begin for before, after in zip(rows, rows[1:])):
        return  # the rows say no more what the signal shows
    lights, shown = lights_of(network, link, rows), [spell for spell in spells if spell.end is not None]
    ends = {light.begin: light.end for light in lights}
    seen: set[int] = set()
    for spell in shown:
        begin = next((at for at in (spell.begin // SECOND, spell.begin // SECOND + 1) if is_same(spell, at, ends.get(at))), None)
        if begin is None:
            words = f"link {link.name} is green in seconds {seconds(spell)}, which the phases do not make it"
            findings.tell(signal, "links", spell.begin, words)
        else:
            seen.add(begin)
    for light in lights:
        if shown and light.begin not in seen and SECOND * light.begin >= spells[0].begin:
            words = f"link {link.name} is not green from second {light.begin} to {light.end}, as the phases make it"
            findings.tell(signal, "links", SECOND * light.begin, words)
    for spell in spells if link.walk is not None else ():
        if spell.end is not None and spell.yellow is not None and spell.yellow < SECOND * link.cross:
            words = f"crossing {link.name} has {spell.yellow / SECOND:g} s to be over after its walk, and cross is {link.cross}"
            findings.tell(signal, "cross", spell.begin, words)
