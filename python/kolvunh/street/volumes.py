"""Turning counts as what enters a network and how it turns. Totals at entries are those of the counts; inner
approaches are scaled to what
their neighbours send, and what that changes is told."""

import random
from collections import Counter, defaultdict
from collections.abc import Callable, Iterator, Sequence
from dataclasses import dataclass, field, replace

from ..arrivals import VEHICLE, Arrival
from ..capacities import giving_sat
from ..faults import Fault
from ..networks import MOST_SECONDS, Link, Network, Run, limits_of
from ..records import Place
from .count_file import Count, clock
from .draft import turns_of
from .servings import PEOPLE, Serving

MOST_PASSES = 1000
Group = tuple[str, str, str]  # junction, approach, and of what it is: vehicles, buses, people


@dataclass
class Demand:
    """A network with counted turning shares, what enters it, and what was changed."""

    network: Network
    arrivals: list[Arrival]
    told: list[str] = field(default_factory=list)


class Volumes:
    """The counts of a file over the movements of a network."""

    def __init__(self, network: Network, servings: Sequence[Serving], place: Place, counts: Sequence[Count]) -> None:
        self.network, self.place, self.told = network, place, list[str]()
        self.rows: dict[tuple[str, str, str], list[Serving]] = defaultdict(list)
        self.groups: dict[Group, list[Serving]] = defaultdict(list)
        self.group_of: dict[str, Group] = {}
        for row in servings:
            self.rows[row.junction, row.approach, row.movement].append(row)
            self.groups[row.junction, row.approach, row.kind].append(row)
            self.group_of[row.link] = row.junction, row.approach, row.kind
        self.counts = self._known(counts)
        self.begin = min(count.begin for count in self.counts)
        self.seconds = 60 * (max(count.begin + count.minutes for count in self.counts) - self.begin)
        self.counted = {key[:3] for key in ((*count.key[:2], self._kind(count)) for count in self.counts)}
        self._require_all()

    def _kind(self, count: Count) -> str:
        return self.rows[count.key][0].kind

    def _known(self, counts: Sequence[Count]) -> list[Count]:
        """The counts of movements that the network has; others may only be 0. Those who turn back count as to the
        left."""
        found, back = list[Count](), Counter[tuple[str, str]]()
        junctions = list(dict.fromkeys(key[0] for key in self.rows))
        for count in counts:
            name = count.junction or (junctions[0] if len(junctions) == 1 else "")
            name = name if name in junctions or f"n{name}" not in junctions else f"n{name}"
            if name not in junctions:
                words = (
                    f"the network has no junction {name!r}: write one of {', '.join(junctions)}, or say --name "
                    f"{name or 'OTHER'}={junctions[0]}"
                )
                raise Fault(f"{self.place}:{count.line}: {count.where}: {words}")
            count = replace(count, junction=name)
            if count.movement == "u-turn" and count.vehicles:
                back[name, count.approach] += count.vehicles
                count = replace(count, movement="left")
            if count.key in self.rows:
                found.append(count)
            elif count.vehicles:
                known = [move for (junction, leg, move) in self.rows if (junction, leg) == (name, count.approach)]
                words = f"the approach has {', '.join(known)}" if known else "the junction has no such approach"
                raise Fault(
                    f"{self.place}:{count.line}: {count.where}: {count.vehicles} are counted, and {words}: "
                    f"write 0, or give a lane the movement in the junction file"
                )
        for (name, leg), many in back.items():
            self.told.append(f"junction {name}, approach {leg}: {many} turn back, and are counted to the left")
        if not found:
            raise Fault(f"{self.place}: it counts no movement of the network")
        return found

    def _require_all(self) -> None:
        """Refuses vehicles of entries that are not counted; what else is not is told."""
        keys = {count.key for count in self.counts}
        for (name, leg, kind), rows in self.groups.items():
            where = f"junction {name}, approach {leg}"
            missing = next((row.movement for row in rows if (name, leg, row.movement) not in keys), None)
            is_entry = any(self._link(row).start is None for row in rows)
            if missing is None:
                continue
            if kind == "vehicles" and (is_entry or (name, leg, kind) in self.counted):
                line = next((count.line for count in self.counts if count.key[:2] == (name, leg)), 1)
                raise Fault(
                    f"{self.place}:{line}: {where}, {missing}: it is not counted: add its rows, with 0 where nobody "
                    f"goes there"
                )
            if (name, leg, kind) not in self.counted and (is_entry or kind == "vehicles"):
                self.told.append(
                    f"{where}: {kind} are not counted, and {'none come' if is_entry else 'turn as before'}"
                )

    def _link(self, row: Serving) -> Link:
        link = self.network.link_named(row.link)
        if link is None:
            raise Fault(f"{self.place}: the network has no link {row.link}")
        return link

    def demand(self, seed: int | None) -> Demand:
        """The network and what enters it: evenly, or by Poisson from a number."""
        network = self._with_turns()
        self._tell_scales(network)
        return Demand(network, sorted(self._arrivals(seed), key=lambda arrival: arrival.second), self.told)

    def by_link(self) -> dict[str, float]:
        """What was counted, link by link."""
        found: dict[str, float] = defaultdict(float)
        for count in self.counts:
            for row in self.rows[count.key]:
                found[row.link] += count.vehicles * row.part
        return found

    def _with_turns(self) -> Network:
        """The network with the counted shares, the rates of those who give way by them, and a run as long as the
        counts."""
        volumes, counted = self.by_link(), Counter[tuple[str, str, str]]()
        for count in self.counts:
            counted[count.key] += count.vehicles
        turns: dict[str, dict[str, float]] = {
            link.name: dict.fromkeys((turn.exit for turn in link.turns), 0.0) for link in self.network.links
        }
        giving: dict[str, float] = defaultdict(float)
        for key, rows in self.rows.items():
            for row in rows:
                for exit, part in self._onward(row, volumes).items():
                    turns[row.link][exit] = turns[row.link].get(exit, 0.0) + counted[key] * row.part * part
                giving[row.link] += counted[key] * row.part * row.gives
        lanes = {row.link: row.lanes for rows in self.rows.values() for row in rows}
        links = tuple(
            self._link_with(
                link, turns[link.name], giving[link.name] / volumes[link.name], lanes[link.name],
            ) if volumes.get(link.name) else link
            for link in self.network.links
        )
        return replace(self.network, links=links, run=self._run())

    def _link_with(self, link: Link, turns: dict[str, float], giving: float, lanes: int) -> Link:
        rate = giving_sat(link.sat, link.sat / lanes, giving) if link.yields else None
        return replace(link, turns=turns_of(turns), yield_sat=rate)

    def _run(self) -> Run:
        run, limits = self.network.run, limits_of(self.network.version)
        rounds = -(-self.seconds // run.step)
        if rounds > limits.rounds or self.seconds > MOST_SECONDS:
            most = min(limits.rounds * run.step, MOST_SECONDS) // 60
            last = clock(self.begin + most)
            raise Fault(
                f"{self.place}: it counts {self.seconds // 60} minutes, and a run has at most {most}: say --from "
                f"{clock(self.begin)} --to {last}, or other times"
            )
        return replace(run, rounds=rounds)

    def _onward(self, row: Serving, volumes: dict[str, float]) -> dict[str, float]:
        """By which links the vehicles of a row go on: as it was counted there, else as the network has it, else
        alike."""
        was = {turn.exit: float(turn.share) for turn in self._link(row).turns}
        for parts in (
            {exit: volumes.get(exit, 0.0) for exit in row.onward}, {exit: was.get(exit, 0.0) for exit in row.onward},
        ):
            whole = sum(parts.values())
            if whole:
                return {exit: part / whole for exit, part in parts.items()}
        return {exit: 1 / len(row.onward) for exit in row.onward}

    def _tell_scales(self, network: Network) -> None:
        """Tells the approaches between junctions of which the counts were changed by more than half a vehicle."""
        volumes, flows = self.by_link(), self._flows(network)
        for name, leg, kind in self.groups:
            links = {row.link: self._link(row) for row in self.groups[name, leg, kind]}
            if kind == PEOPLE or (name, leg, kind) not in self.counted or any(
                link.start is None for link in links.values()
            ):
                continue
            counted, sent = sum(volumes[link] for link in links), sum(flows[link] for link in links)
            if abs(counted - sent) >= 0.5:
                start = next(iter(links.values())).start
                scale = f", so its counts are scaled by {sent / counted:.2f}" if counted else ""
                self.told.append(
                    f"junction {name}, approach {leg}: {counted:.0f} {kind} are counted, and {start} sends "
                    f"{sent:.0f}{scale}"
                )

    def _flows(self, network: Network) -> dict[str, float]:
        """What comes to each link in all, from the entries on."""
        volumes = self.by_link()
        entering = {link.name: volumes.get(link.name, 0.0) if link.start is None else 0.0 for link in network.links}
        flows = dict(entering)
        for _ in range(MOST_PASSES):
            further = dict(entering)
            for link in network.links:
                for turn in link.turns:
                    further[turn.exit] += flows[link.name] * turn.share / 1000
            done = max(abs(further[name] - flows[name]) for name in flows) < 0.01
            flows = further
            if done:
                break
        return flows

    def _arrivals(self, seed: int | None) -> Iterator[Arrival]:
        """What enters, link by link and interval by interval; the vehicles of an interval are spread evenly, or drawn
        within it."""
        amounts: dict[tuple[int, str], int] = Counter()
        for link, intervals in self._entering().items():
            draw = None if seed is None else random.Random(f"{seed} {link}").random
            for (begin, minutes), many in sorted(intervals.items()):
                for second in seconds_of(60 * (begin - self.begin), 60 * minutes, many, draw):
                    amounts[second, link] += VEHICLE
        return (Arrival(second, link, amount) for (second, link), amount in amounts.items())

    def _entering(self) -> dict[str, Counter[tuple[int, int]]]:
        """For each link from outside how many enter in each interval, from a minute on for so many: each goes to the
        link of its movement that
        lacks most."""
        found: dict[str, Counter[tuple[int, int]]] = {}
        given: Counter[tuple[str, str]] = Counter()
        for count in sorted(self.counts, key=lambda count: (count.key, count.begin)):
            rows = self.rows[count.key]
            if any(self._link(row).start is not None for row in rows):
                continue
            whole = sum(given[row.link, row.movement] for row in rows)
            for number in range(whole + 1, whole + count.vehicles + 1):
                row = max(rows, key=lambda row: row.part * number - given[row.link, row.movement])
                given[row.link, row.movement] += 1
                found.setdefault(row.link, Counter())[count.begin, count.minutes] += 1
        return found


def seconds_of(begin: int, seconds: int, many: int, draw: Callable[[], float] | None) -> list[int]:
    """The seconds in which so many vehicles come: evenly, or as a Poisson process brings them that is known to bring
    so many."""
    parts = [(number + 0.5) / many for number in range(many)] if draw is None else sorted(draw() for _ in range(many))
    return [begin + int(part * seconds) for part in parts]
