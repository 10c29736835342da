"""A run of SUMO with a network's signals: its command, what vehicles waited, and whether given greens were shown."""

import xml.etree.ElementTree as ElementTree
from typing import NamedTuple
from xml.sax.saxutils import quoteattr

from .signals import Signals


class Outcome(NamedTuple):
    """Of one run: vehicles that were to enter, those that arrived, seconds for each vehicle, and what SUMO calls unsafe."""

    vehicles: int
    arrived: int
    waiting: float  # standing, of those that entered
    time_loss: float  # against free driving, with what they waited to enter
    collisions: int
    emergency_stops: int


def longest_green(nodes):
    """The seconds of the longest green of nodes with its yellow and clear time: whoever waits to give way leaves within them."""
    return max(phase["greatest"] + phase["yellow"] + phase["clear"] for node in nodes.values() for phase in node["phase"])


def run_words(folder, name, seed, signals, additional=(), files=None):
    """The words of SUMO for a run, whose outputs are named by its name and seed; files are a network and routes, else the folder's.

    Two vehicles that turn into one lane may stop within a junction, each for the other, and would stand there to the end of the run. So
    the others pass who has stood within a junction for longer than any green.
    """
    out = folder / f"{name}.{seed}"
    network, routes = files or (folder / "net.net.xml", folder / f"routes.{seed}.rou.xml")
    events = "".join(
        f'<timedEvent type="SaveTLSStates" source={quoteattr(signals.tls(node))} dest="{out.name}.{node}.states.xml"/>\n'
        for node in signals.layout.nodes
    )
    (folder / f"{out.name}.add.xml").write_text(f"<additional>\n{events}</additional>\n")
    more = [*additional, folder / f"{out.name}.add.xml"]
    words = {
        "--net-file": network,
        "--route-files": routes,
        "--additional-files": ",".join(map(str, more)),
        "--end": signals.layout.seconds,
        "--seed": seed,
        "--time-to-teleport": -1,
        "--ignore-junction-blocker": longest_green(signals.layout.nodes),
        "--collision.action": "warn",
        "--collision.check-junctions": "true",
        "--tripinfo-output": f"{out}.trips.xml",
        "--tripinfo-output.write-unfinished": "true",
        "--statistic-output": f"{out}.statistics.xml",
        "--duration-log.statistics": "true",
        "--no-step-log": "true",
        "--xml-validation": "never",
    }
    return ["sumo", *(str(word) for pair in words.items() for word in pair)]


def last_line(text):
    """The last line of what a program wrote on standard error."""
    return (text.strip().splitlines() or ["it says nothing on standard error"])[-1]


def outcome(folder, name, seed):
    """What the outputs of a run say."""
    root = ElementTree.parse(folder / f"{name}.{seed}.statistics.xml").getroot()
    outside, safety = int(root.find("vehicles").get("waiting")), root.find("safety")
    trips = list(ElementTree.parse(folder / f"{name}.{seed}.trips.xml").getroot().iter("tripinfo"))
    lost = sum(float(trip.get("timeLoss")) + float(trip.get("departDelay")) for trip in trips)
    lost += outside * float(root.find("vehicleTripStatistics").get("departDelayWaiting"))
    return Outcome(
        vehicles=len(trips) + outside,
        arrived=sum(float(trip.get("arrival")) >= 0 for trip in trips),
        waiting=sum(float(trip.get("waitingTime")) for trip in trips) / max(1, len(trips)),
        time_loss=lost / max(1, len(trips) + outside),
        collisions=int(safety.get("collisions")),
        emergency_stops=int(safety.get("emergencyStops")),
    )


def differences(folder, name, seed, signals: Signals, greens):
    """The seconds, each with its node, in which the signals of a run showed something else than the rows of greens say."""
    for node in signals.layout.nodes:
        root = ElementTree.parse(folder / f"{name}.{seed}.{node}.states.xml").getroot()
        shown = {int(float(row.get("time"))): row.get("state") for row in root.iter("tlsState")}
        for second in range(signals.layout.seconds):
            if shown.get(second, "").lower() != signals.at(node, greens[node], second).lower():
                yield second, node
