"""A street as a network, with the links of its movements, what bays hold, and places. What was computed is in `told`."""

import math
from collections import defaultdict
from dataclasses import dataclass, field, replace
from itertools import combinations

from ..capacities import STRAIGHT_SAT, TURNING, WALK_SAT, WALKING, giving_sat
from ..faults import Fault
from ..networks import GREAT, Conflict, Link, Network, Node, Phase, Run, Turn
from .change_times import all_red_of, width_of, yellow_of
from .greens import Group, Signals
from .legs import COMPASS, SHORT, Movement, bound
from .plan import Approach, Street
from .servings import BUS, PEOPLE, Serving

USUAL = {Movement.LEFT: 10.0, Movement.THROUGH: 80.0, Movement.RIGHT: 10.0}
LEAST, GREATEST, LOSS, SPARE = 5, 50, 2, 60
MOST_TRAVEL, MOST_LINKS, LEAVING = 120, 16, 10
BUS_WEIGHT, BUS_PART = 5, 0.9  # a bus counts as so many vehicles; a bus lane lets so much of a lane through


@dataclass
class Draft:
    """A network, what serves its movements, the metres of each link's lanes, where nodes are, and what was computed."""

    network: Network
    servings: list[Serving]
    lanes: dict[str, tuple[float, ...]]
    places: dict[str, tuple[float, float]]
    told: list[str] = field(default_factory=list)


class Drafter:
    """Makes the network of a street."""

    def __init__(self, street: Street) -> None:
        self.street, self.told = street, list[str]()
        self.signals = {name: Signals(street, junction) for name, junction in street.junctions.items()}
        for name, signals in self.signals.items():
            name_groups(name, signals)
        self.servings = [row for name in self.signals for row in self._servings(name)]
        self._serving = defaultdict(list)
        for row in self.servings:
            self._serving[row.junction, row.approach, row.movement].append(row)

    def draft(self) -> Draft:
        """The network and what is beside it."""
        nodes = tuple(self._node(name, signals) for name, signals in self.signals.items())
        links = [link for name in self.signals for link in self._links(name)]
        links += [link for name in self.signals for link in self._exits(name, links)]
        conflicts = tuple(Conflict(a.name, b.name) for signals in self.signals.values() for a, b in conflicts_of(signals))
        run = Run(**self.street.run)  # type: ignore[arg-type]
        network = Network(run, nodes, tuple(links), conflicts, 3)
        self._require_sizes(network)
        return Draft(network, [self._led_on(row) for row in self.servings], self._lanes(), places_of_street(self.street), self.told)

    def _require_sizes(self, network: Network) -> None:
        for what, count, most in (("junctions", len(network.nodes), GREAT.nodes), ("links", len(network.links), GREAT.links)):
            if count > most:
                raise Fault(f"{self.street.place}: the network has {count} {what}, and may have {most}: leave junctions out")

    def _servings(self, name: str) -> list[Serving]:
        """Which link serves a movement: buses by the movement `bus`, people by `people`."""
        signals, found = self.signals[name], []
        for group in signals.groups:
            if group.walk:
                found.append(Serving(name, group.approach, PEOPLE, group.name, 1.0, group.approach, onward=(f"{name}_over",)))
            counts: dict[tuple[str, str], int] = defaultdict(int)
            for path in group.paths:
                counts[path.movement, path.leg] += 1
            for (movement, leg), count in counts.items():
                same = [path for other in signals.groups if other.is_bus == group.is_bus for path in other.paths]
                whole = sum(path.approach == group.approach and path.movement == movement for path in same)
                words = f"{BUS}{movement}" if group.is_bus else str(movement)
                gives = movement in giving_moves(signals, group)
                found.append(Serving(name, group.approach, words, group.name, count / whole, leg, gives, len(group.lanes)))
        return found

    def _led_on(self, row: Serving) -> Serving:
        """A row with the links by which its vehicles go on."""
        return row if row.onward else replace(row, onward=tuple(self.onward(row.junction, row.leg, row.movement.startswith(BUS))))

    def _node(self, name: str, signals: Signals) -> Node:
        junction = signals.junction
        changes = [self._change(signals, number) for number in range(len(junction.stages))]
        leasts = [self._least(signals, number) for number in range(len(junction.stages))]
        greatests = [stage.greatest or max(GREATEST, least) for stage, least in zip(junction.stages, leasts)]
        for number, (least, greatest) in enumerate(zip(leasts, greatests)):
            if greatest < least:
                raise signals.fail(junction.stages[number].line, f"stage {number + 1}", f"greatest is {greatest}, below the least green of {least}: write {least} or more")
        whole = sum(greatests) + sum(map(sum, changes)) + SPARE
        phases = []
        for number, stage in enumerate(junction.stages):
            links = tuple(group.name for group in signals.groups if group.home == number)
            also = tuple(group.name for group in signals.groups if number in group.greens and group.home != number)
            phases.append(Phase(leasts[number], greatests[number], *changes[number], LOSS, min(3600, whole), links, stage.skip, also))
        if len(signals.groups) > MOST_LINKS:
            raise signals.fail(junction.line, "all approaches", f"it has {len(signals.groups)} links, and a node has at most {MOST_LINKS}: give lanes the same greens")
        return Node(name, tuple(phases))

    def _least(self, signals: Signals, number: int) -> int:
        """The least green: what the file says, and time for people to be over; more than the file says is told."""
        stage = signals.junction.stages[number]
        needs = [(group, group.walk.walk + seconds_over(group)) for group in signals.groups if group.walk and number in group.greens]
        over = max((need for _, need in needs), default=0)
        if stage.least is not None and stage.least < over:
            walk = max(needs, key=lambda pair: pair[1])[0]
            raise signals.fail(stage.line, f"stage {number + 1}, crossing {walk.approach}", f"its least green is {stage.least}, and people need {over} seconds: write least = {over}")
        if over > 120:
            raise signals.fail(stage.line, f"stage {number + 1}", f"people need {over} seconds, and a least green is 120 at most: part the crossing")
        return stage.least or max(LEAST, over)

    def _change(self, signals: Signals, number: int) -> tuple[int, int]:
        """Yellow and all-red of a stage, for the approach that needs most."""
        junction, stage = signals.junction, signals.junction.stages[number]
        outs = {leg: signals.out(leg) if junction.approaches[leg].out != 0 else 0 for leg in junction.approaches}
        moving = [junction.approaches[group.approach] for group in signals.groups if number in group.greens and not group.walk]
        if not moving:
            return stage.yellow or 3, stage.all_red or 0
        yellow = max(yellow_of(approach.speed, approach.grade) for approach in moving)
        widths = {approach.leg: width_of(junction, approach, outs) for approach in moving}
        clear = max(all_red_of(approach.speed, widths[approach.leg]) for approach in moving)
        if stage.yellow is None or stage.all_red is None:
            given = [f"{word} {value} s" for word, value, said in (("yellow", yellow, stage.yellow), ("all-red", clear, stage.all_red)) if said is None]
            speed = max(approach.speed for approach in moving)
            self.told.append(f"junction {junction.name}, stage {number + 1}: {', '.join(given)}, by ITE's formula for {speed:g} km/h and {max(widths.values()):g} m")
        return stage.yellow or yellow, clear if stage.all_red is None else stage.all_red

    def _links(self, name: str) -> list[Link]:
        signals = self.signals[name]
        found = []
        for group in signals.groups:
            if group.walk:
                turns = (Turn(f"{name}_over", 1000),)
                found.append(Link(group.name, 1, WALK_SAT, None, name, turns, walk=group.walk.walk, cross=seconds_over(group)))
                continue
            approach = signals.junction.approaches[group.approach]
            sat = self._sat(approach, group)
            others = tuple(other.name for other in signals.groups if other is not group and signals.yields(group, other))
            lane = sat / len(group.lanes)
            given = giving_sat(sat, lane, self._giving_part(signals, group)) if others else None
            travel = seconds_along(approach)
            weight = BUS_WEIGHT if group.is_bus else 1
            found.append(Link(group.name, travel, sat, approach.next, name, self._turns(name, group), weight, others, given))
        return found

    def _sat(self, approach: Approach, group: Group) -> int:
        """What the lanes let through; one with no through has a turning lane's part."""
        sats = []
        for number in group.lanes:
            lane = approach.lanes[number]
            part = 1 if Movement.THROUGH in lane.movements else TURNING
            sats.append(self.street.sat / 3.6 * part * (BUS_PART if lane.is_bus else 1))
        return max(1, min(5000, round(sum(sats))))

    def parts(self, name: str, leg: str) -> dict[Movement, float]:
        """The part of each movement in what comes by an approach, in a car: what the file says, or the usual ones."""
        approach = self.street.junctions[name].approaches[leg]
        present = [move for move in Movement if any(move in lane.movements for lane in approach.lanes if not lane.is_bus)]
        said = {move: approach.turns.get(move, 0.0) if approach.turns else USUAL[move] for move in present}
        whole = sum(said.values())
        return {move: part / whole if whole else 1 / len(said) for move, part in said.items()}

    def _moves_of(self, name: str, group: Group) -> dict[tuple[str, str], float]:
        """What of a group's vehicles makes each movement into each leg; the parts add up to 1."""
        rows = [row for row in self.servings if row.link == group.name]
        parts = self.parts(name, group.approach) if not group.is_bus else {}
        found = {(row.movement, row.leg): (row.part * parts[Movement(row.movement)] if parts else row.part) for row in rows}
        whole = sum(found.values())
        return {key: part / whole if whole else 1 / len(found) for key, part in found.items()}

    def _giving_part(self, signals: Signals, group: Group) -> float:
        """The part of a group's vehicles that has to give way in some stage."""
        giving = giving_moves(signals, group)
        moves = self._moves_of(signals.junction.name, group)
        return sum(part for (movement, _), part in moves.items() if movement.removeprefix(BUS) in giving)

    def _turns(self, name: str, group: Group) -> tuple[Turn, ...]:
        """Where a group's vehicles go on, in thousandths."""
        exits: dict[str, float] = defaultdict(float)
        for (_, leg), part in self._moves_of(name, group).items():
            for link, share in self.onward(name, leg, group.is_bus).items():
                exits[link] += part * share
        return turns_of(exits)

    def onward(self, name: str, leg: str, is_bus: bool) -> dict[str, float]:
        """By which links those go on who leave by a leg: buses by the bus lane of the next junction, where it has one."""
        junction = self.street.junctions[name]
        following = junction.approaches[leg].next
        if following is None:
            return {exit_name(name, leg): 1.0}
        back = next(other for other in self.street.junctions[following].approaches.values() if other.next == name)
        rows = [row for row in self.servings if (row.junction, row.approach) == (following, back.leg) and row.movement != PEOPLE]
        buses = [row for row in rows if row.movement.startswith(BUS)]
        if is_bus and buses:
            return {row.link: 1 / len(buses) for row in buses}
        parts = self.parts(following, back.leg)
        found: dict[str, float] = defaultdict(float)
        for row in rows:
            if row not in buses:
                found[row.link] += row.part * parts[Movement(row.movement)]
        if not found:
            raise self.signals[following].fail(back.line, f"approach {back.leg}", f"vehicles come from {name}, and it has no lanes: write lanes = [..]")
        return found

    def _exits(self, name: str, links: list[Link]) -> list[Link]:
        """The links by which vehicles and people leave."""
        used = {turn.exit for link in links for turn in link.turns}
        approaches = self.street.junctions[name].approaches
        found = [Link(exit_name(name, leg), LEAVING, 5000, name) for leg in approaches if exit_name(name, leg) in used]
        return found + ([Link(f"{name}_over", 1, WALK_SAT, name)] if f"{name}_over" in used else [])

    def _lanes(self) -> dict[str, tuple[float, ...]]:
        """The metres of each lane of the links for vehicles."""
        found = {}
        for signals in self.signals.values():
            for group in signals.groups:
                if not group.walk:
                    approach = signals.junction.approaches[group.approach]
                    found[group.name] = tuple(approach.lanes[number].bay or approach.distance for number in group.lanes)
        return found


def name_groups(name: str, signals: Signals) -> None:
    """Gives each group the name of its link: `oak_eb` where it goes through, `oak_ebl` where it only turns left, `oak_ebb` of buses."""
    taken: set[str] = set()
    for group in sorted(signals.groups, key=lambda group: -sum(path.movement == Movement.THROUGH for path in group.paths)):
        if group.walk:
            group.name = f"{name}_p{SHORT[group.approach]}"
            continue
        letters = "".join(move[0] for move in Movement if any(path.movement == move for path in group.paths))
        base = f"{name}_{bound(group.approach)}" + ("b" if group.is_bus else "")
        plain = base if "t" in letters else base + letters
        full = base + (letters if plain in taken else "")
        group.name = plain if plain not in taken else full if full not in taken else f"{base}{len(taken)}"
        taken.add(group.name)
        if len(group.name) > 16:
            raise signals.fail(signals.junction.line, f"approach {group.approach}", f"the link {group.name} would have more than 16 letters: take a shorter name for the junction")


def giving_moves(signals: Signals, group: Group) -> set[str]:
    """The movements of a group that give way in some stage."""
    return {str(path.movement) for stage in group.giving for path in group.paths if signals.giving[stage].get(path)}


def conflicts_of(signals: Signals) -> list[tuple[Group, Group]]:
    """The pairs of groups that cross and are never green together."""
    return [(a, b) for a, b in combinations(signals.groups, 2) if not a.greens & b.greens and signals.crosses(a, b)]


def exit_name(name: str, leg: str) -> str:
    """The link by which vehicles leave by a leg."""
    return f"{name}_{SHORT[leg]}"


def seconds_over(group: Group) -> int:
    """How long people need over a crossing."""
    return math.ceil(group.walk.length / WALKING - 1e-9) if group.walk else 0


def seconds_along(approach: Approach) -> int:
    """How long vehicles need along an approach."""
    return max(1, min(MOST_TRAVEL, round(approach.distance / (approach.speed / 3.6))))


def turns_of(parts: dict[str, float]) -> tuple[Turn, ...]:
    """Parts as shares of 1000; what rounding leaves goes to those with the greatest rest, and a part of nothing is left out where another is."""
    whole = sum(parts.values())
    exact = {exit: 1000 * part / whole if whole else 1000 / len(parts) for exit, part in parts.items()}
    shares = {exit: int(share) for exit, share in exact.items()}
    for exit in sorted(exact, key=lambda exit: shares[exit] - exact[exit])[: 1000 - sum(shares.values())]:
        shares[exit] += 1
    return tuple(Turn(exit, share) for exit, share in shares.items())


def places_of_street(street: Street) -> dict[str, tuple[float, float]]:
    """Where junctions are in metres, by compass and distance from the first one; those that no road joins to it are to its south."""
    found: dict[str, tuple[float, float]] = {}
    for name in street.junctions:
        if name not in found:
            found[name] = (0.0, -1000.0 * len(found))
            ahead = [name]
            while ahead:
                ahead += _neighbours(street, ahead.pop(0), found)
    return found


def _neighbours(street: Street, name: str, found: dict[str, tuple[float, float]]) -> list[str]:
    """Places the neighbours of a junction that have no place yet."""
    junction, new = street.junctions[name], []
    for approach in junction.approaches.values():
        if approach.next is not None and approach.next not in found:
            found[approach.next] = point_from(found[name], approach.leg, approach.distance)
            new.append(approach.next)
    return new


def point_from(place: tuple[float, float], leg: str, distance: float) -> tuple[float, float]:
    """The point on a leg at this distance; y is to the north."""
    angle = math.radians(COMPASS[leg])
    return place[0] + distance * math.sin(angle), place[1] + distance * math.cos(angle)


