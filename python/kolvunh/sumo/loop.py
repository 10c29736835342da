"""Lets the program decide for SUMO's signals: senses SUMO's vehicles in each round, asks `serve`, shows the greens.

    tools/sumo/loop.py NET PLACES ARR DIR [--seed N] [--hours H] [--early] [--program WORDS]

PLACES is that of to_sumo.py, or `-`. A vehicle joins the queue of its entry link in the first second in which it is slower than
5 m/s there, and is in it until it leaves the link; who waits before a crossing is in the queue of its link. Any other vehicle is
coming, and reaches the end of its link as fast as it can speed up. With --early links end a second before their stop lines, where no driver
stops any more, at nodes where nobody gives way: on a green link whoever drives past that place is counted no longer. `serve` is sent what is
sensed in each round; what was told before is sent in the first one, and where seconds are counted from a later one, and else `serve` has it.
Signals are set second by second. Afterwards what SUMO showed is compared with the greens that the program answered: the exit status is 1 where
they differ. DIR/greens.csv has these greens as a report has them. With --hours it runs for so long in place of the network's rounds, and the
vehicles of ARR come again each time that these are over. Nothing here is proved.
"""

import contextlib
import csv
import io
import re
import subprocess
import sys
from bisect import bisect_right
from collections import Counter, defaultdict
from functools import partial
from pathlib import Path
from types import MappingProxyType, ModuleType

from ..arrivals import Arrival, arrivals_text, read_arrivals
from ..commands import Words, end
from ..faults import Fault
from ..networks import SMALL_SECONDS, read_tables
from ..programs import built_program_words, split_words
from ..serving import Refused, Serving
from .layout import SPEED, SUMO_HOME, read_places
from .measures import differences, outcome, run_words
from .streets import edge_of
from .to_sumo import convert, write_routes

sys.path.append(f"{SUMO_HOME}/tools")
SLOW = 5  # metres a second, below which a vehicle joins the queue
ACCELERATION = 2.6  # metres a second in a second, by which a vehicle speeds up: SUMO's own where a file says no other
EARLY = 1  # seconds before the stop line at which a driver passes a signal that turns yellow
VEHICLE = 1000  # thousandths of a vehicle
KEPT = 10_800  # seconds of the clock that are kept: what a queue may have stood for and counts
HOUR = 3600  # seconds


class Origin:
    """The second that the states of a loop count from. It moves before a round that would begin too late for a state."""

    def __init__(self, step):
        self._step, self.second = step, 0

    def move(self, now, told):
        """Moves by whole rounds, so that what is left of the clock is at least what counts of how long a queue has stood.

        It answers the records that were told before, as a state of this round tells them.
        """
        if now - self.second < SMALL_SECONDS:
            return told
        rounds = (now - self.second - KEPT) // self._step
        self.second += rounds * self._step
        return csv_text(self._moved(record, rounds) for record in csv.reader(io.StringIO(told)))

    def _moved(self, record, rounds):
        """A record that was told, where second 0 is so many rounds later: a version counts rounds, a green and a row of a forecast seconds."""
        kind, name, x, y, z = record
        seconds = rounds * self._step
        if kind == "green":
            return kind, name, x, int(y) - seconds, int(z) - seconds
        if kind in ("version", "row"):
            return kind, name, int(x) - (rounds if kind == "version" else seconds), y, z
        return record


class Loop:
    """The nodes' timelines, counted from second 0, the records that were told last, and the queues that have stood so far.

    It asks with what is sensed, which begins with the header, and what was told: the one after the other they are the state of a round.
    """

    def __init__(self, signals, ask):
        self.ask, self._step = ask, signals.layout.network["run"]["step"]
        self.origin = Origin(self._step)
        self.lines = {name: [(0, 0, node["phase"][0]["least"])] for name, node in signals.layout.nodes.items()}
        self.told = csv_text(("green", name, *row) for name, line in self.lines.items() for row in line)
        self.stood = Counter()

    def act(self, now, queues, coming):
        """Decides where a round begins, and answers the timelines. It is called once in each second, in their order."""
        self.see(now, queues)
        if now % self._step == 0:
            self.decide(now, queues, coming)
        return self.lines

    def see(self, now, queues):
        """Counts for how many of the seconds before this one, back without a break, each queue was there at their end."""
        self.stood = Counter({link: min(now, self.stood[link] + 1) for link in queues})

    def sensed(self, now, queues, coming):
        """What is sensed as a round begins, as the header and the first records of its state."""
        clock = now - self.origin.second
        rows = [("kind", "name", "x", "y", "z"), ("now", "", clock, "", "")]
        rows += [("queue", link, VEHICLE * queue, min(self.stood[link], clock), "") for link, queue in queues.items()]
        rows += [
            ("coming", link, second - self.origin.second, VEHICLE * count, "") for (link, second), count in sorted(coming.items())
        ]
        return csv_text(rows)

    def decide(self, now, queues, coming):
        """Asks the program for a round; its greens go on where the rows that began before them end."""
        answered = defaultdict(list)
        self.told = self.origin.move(now, self.told)
        answer = self.ask(self.sensed(now, queues, coming), self.told)
        self.told = answer.partition("\n")[2]
        for row in csv.DictReader(io.StringIO(answer)):
            if row["kind"] == "green":
                answered[row["name"]].append((int(row["x"]), *(int(row[end]) + self.origin.second for end in "yz")))
        for node, line in answered.items():
            while self.lines[node] and self.lines[node][-1][1] >= line[0][1]:
                self.lines[node].pop()
            self.lines[node] += line


def csv_text(rows):
    text = io.StringIO()
    csv.writer(text, lineterminator="\n").writerows(rows)
    return text.getvalue()


@contextlib.contextmanager
def asker(program, network, state):
    """Asks a process of `serve` by the program's words on a network file; a state that is refused is left in a file, whole.

    What was told is sent along with what is sensed only where it is not what the process told last.
    """
    with Serving(program, network) as serving:

        def ask(sensed, told):
            try:
                return serving.decide_next(sensed) if told == serving.told else serving.decide(sensed + told)
            except Refused as fault:
                state.write_text(sensed + told)
                raise Fault(f"{state}: {fault}") from fault

        yield ask


def seconds_to_end(way, speed):
    """The whole seconds that a vehicle of this speed takes for this way, in metres, where nothing holds it up."""
    return int(way / SPEED + max(SPEED - speed, 0) ** 2 / (2 * ACCELERATION * SPEED))


class Sensors:
    """SUMO's vehicles on the entry links, and people who wait before crossings; who is within a junction begins the link it comes to.

    At nodes where nobody gives way links end so many seconds before their stop lines as `early` says.
    """

    _early = MappingProxyType({})

    def __init__(self, traci, signals, early=0):
        self._queued, self._routes = set(), {}
        free = {node for node, states in signals.green.items() if early and not any("g" in state for state in states)}
        self._early = {link: early for link, (node, _) in signals.layout.phase_of.items() if node in free}
        self._traci, self._layout, self._links_of = traci, signals.layout, signals.layout.links_of_lane()
        self._walks = {edge_of(lane): links[0] for lane, links in signals.links_of.items() if links[0] in signals.layout.walks}
        self._after = signals.junctions.after
        self._length = {lane: traci.lane.getLength(lane) for lane in self._links_of}

    def vehicles(self):
        """Each vehicle on an entry link, with the link, its speed and its way to the stop line."""
        constants = self._traci.constants
        values = constants.VAR_LANE_ID, constants.VAR_SPEED, constants.VAR_LANEPOSITION, constants.VAR_ROUTE_INDEX
        for vehicle in self._traci.simulation.getDepartedIDList():
            self._traci.vehicle.subscribe(vehicle, values)
            self._routes[vehicle] = self._traci.vehicle.getRoute(vehicle)
        for vehicle, found in self._traci.vehicle.getAllSubscriptionResults().items():
            lane, speed, place, index = (found[value] for value in values)
            if lane in self._after:
                lane, speed, place, index = self._after[lane], SPEED, 0, index + 1
            if index + 1 < len(self._routes[vehicle]) and lane in self._links_of:
                yield vehicle, self._link(lane, index), speed, self._length[lane] - place

    def _link(self, lane, index):
        """The link of a vehicle by its lane; of those that share it, by whether it enters the network on this edge."""
        links = self._links_of[lane]
        return next((link for link in links if ("from" in self._layout.links[link]) == (index > 0)), links[0])

    def people(self):
        """The link of each one who waits before a crossing."""
        for person in self._traci.person.getIDList() if self._walks else ():
            crossing = self._traci.person.getNextEdge(person)
            if crossing in self._walks and re.match(r":.*_w\d+$", self._traci.person.getRoadID(person)):
                yield self._walks[crossing]

    def look(self, now, lines=MappingProxyType({})):
        """The vehicles in each queue, and how many come to the end of each link in which second, under these lines of greens.

        It is asked in each second.
        """
        queues, coming, queued = Counter(self.people()), Counter(), set()
        for vehicle, link, speed, way in self.vehicles():
            is_queued, early = speed < SLOW or (vehicle, link) in self._queued, self._early.get(link, 0)
            if is_queued:
                queued.add((vehicle, link))
            if early and way <= early * speed and self._is_green(link, now, lines):
                continue
            if is_queued:
                queues[link] += 1
            else:
                seconds = max(0, seconds_to_end(way, speed) - early)
                coming[link, now + min(seconds, self._layout.links[link]["travel"] - 1)] += 1
        self._queued = queued
        return queues, coming

    def _is_green(self, link, now, lines):
        """Whether a link is green in a second under lines of greens."""
        node = self._layout.phase_of[link][0]
        rows = lines.get(node, [])
        place = bisect_right(rows, now, key=lambda row: row[1]) - 1
        return place >= 0 and now < rows[place][2] and (node, rows[place][0]) in self._layout.greens_of[link]


def early_sensors(early):
    """The sensors of a loop, with links that end before their stop lines or without."""
    return partial(Sensors, early=EARLY) if early else Sensors


def repeat_arrivals(path, period, seconds, to):
    """Writes a file of arrivals again and again, so that those of a period come once in each, up to these seconds; later ones never come."""
    arrivals = [arrival for arrival in read_arrivals(path) if arrival.second < period]
    again = [
        Arrival(begin + arrival.second, arrival.link, arrival.amount)
        for begin in range(0, seconds, period)
        for arrival in arrivals
        if begin + arrival.second < seconds
    ]
    to.write_text(arrivals_text(again))


def traci_of_sumo() -> ModuleType:
    """The module by which SUMO is asked; a fault where SUMO's tools are not installed."""
    try:
        import traci
    except ImportError as fault:
        raise Fault(f"SUMO's tools are not in {SUMO_HOME}/tools: {fault}") from fault
    return traci


def run_loop(signals, ask, words, sensors=Sensors):
    """Runs SUMO by its words with the program in the loop, and answers the lines of greens of all nodes."""
    return run_control(signals, Loop(signals, ask), words, sensors)


def run_control(signals, controller, words, sensors=Sensors):
    """Runs SUMO by its words under a controller, which acts each second on what the sensors see; answers its lines of greens."""
    traci = traci_of_sumo()
    with contextlib.redirect_stdout(sys.stderr):
        traci.start(words, stdout=subprocess.DEVNULL)
    try:
        eyes = sensors(traci, signals)
        for now in range(signals.layout.seconds):
            for node, line in controller.act(now, *eyes.look(now, controller.lines)).items():
                traci.trafficlight.setRedYellowGreenState(signals.tls(node), signals.at(node, line, now))
            traci.simulationStep()
        return controller.lines
    finally:
        traci.close()


def write_greens(path, lines):
    rows = [("green", "", node, *row, "") for node, line in lines.items() for row in line]
    path.write_text(csv_text([("kind", "round", "node", "x", "y", "z", "w"), *rows]))


def work() -> int:
    """Runs the loop, and says how it went."""
    parser = Words(__doc__)
    for name in ("network", "places", "arrivals", "folder"):
        parser.add_argument(name, type=Path)
    parser.add_argument("--seed", type=int, default=1)
    parser.add_argument("--hours", type=float, help="how long it runs; as long as the network's rounds if left out")
    parser.add_argument("--early", action="store_true", help="links end a second before their stop lines where nobody gives way")
    parser.add_argument("--program", type=split_words, help="its words before `serve`; the built program if left out")
    options = parser.parse_args()
    folder, seed = options.folder, options.seed
    signals = convert(read_tables(options.network), read_places(options.places), folder)
    arrivals = options.arrivals
    if options.hours:
        period, signals.layout.seconds = signals.layout.seconds, int(options.hours * HOUR)
        arrivals = folder / "arrivals.csv"
        repeat_arrivals(options.arrivals, period, signals.layout.seconds, arrivals)
    write_routes(signals.layout, arrivals, seed, folder / f"routes.{seed}.rou.xml")
    with asker(options.program or built_program_words(), options.network, folder / "state.csv") as ask:
        lines = run_loop(signals, ask, run_words(folder, "loop", seed, signals), early_sensors(options.early))
    write_greens(folder / "greens.csv", lines)
    print(outcome(folder, "loop", seed))
    differing = list(differences(folder, "loop", seed, signals, lines))
    print(f"{len(differing)} seconds of a node differ from the greens answered, of {signals.layout.seconds * len(lines)}")
    return 1 if differing else 0


def main() -> None:
    """Runs the command."""
    end(work)


if __name__ == "__main__":
    main()
