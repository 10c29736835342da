"""What is wrong with the state of a round: docs/FORMATS.md, "State of a round"."""

from typing import Any

from ..records import Record, plural, quote
from .records import RecordFile, form_fault, header_fault
from .wording import enumeration, meant, thousands

KINDS = ("now", "green", "queue", "coming", "version", "row", "plan")
MOST_SECOND, MOST_AMOUNT, MOST_ROWS, MOST_SUM, MOST_NUMBER = 100_000, 80_000, 180, 2_000_000_000, 2**32 - 1
FARTHEST_BEGIN = 3780  # seconds after the begin of a round
CELLS: dict[str, dict[int, tuple[str, int | None, int | None]]] = {
    "now": {2: ("x, the second,", 10, None)},
    "green": {2: ("x, the phase,", 10, None), 3: ("y, the second from which it is green,", 10, None), 4: ("z, its end,", 10, None)},
    "queue": {2: ("x, the amount,", 10, None), 3: ("y, for how long it has stood,", 10, None)},
    "coming": {2: ("x, the second,", 10, None), 3: ("y, the amount,", 10, None)},
    "version": {2: ("x, the version,", 10, None)},
    "row": {2: ("x, the second,", 10, None), 3: ("y, the amount,", 10, None)},
    "plan": {},
}


class StateFile(RecordFile):
    """The rows of a state over its network."""

    def __init__(self, file: str, network: str) -> None:
        super().__init__(file, "state", network)
        self.run = self.net.tables["run"]

    @property
    def now(self) -> int:
        """The second in which the round begins."""
        return int(self.rows[0].fields[2])

    def numbers_and_rows(self) -> list[tuple[int, Record]]:
        """The rows with their numbers."""
        return list(enumerate(self.rows, 1))

    def of(self, kind: str, name: str) -> list[tuple[int, list[int]]]:
        """The numbers of the rows of a kind and name, and the numbers in them; each counts up to 4,294,967,295."""
        return [
            (number, [min(int(row.fields[place]), MOST_NUMBER) for place in CELLS[kind]])
            for number, row in self.numbers_and_rows()
            if row.fields[:2] == [kind, name]
        ]

    def on(self, number: int) -> str:
        """The line of a row, in words."""
        return f"line {self.row(number).line}"


def row_fault(state: StateFile, number: int) -> list[str]:
    """A row that has not five fields, is of no kind, or has no number where one is read."""
    found = form_fault(state, number, {})
    if found:
        return found
    fields = state.row(number).fields
    if fields[0] not in KINDS:
        return [state.say(number, f"the kind is {quote(fields[0])}, and has to be one of {enumeration(list(KINDS), 'or')}")]
    found = form_fault(state, number, CELLS[fields[0]])
    if not found and fields[0] == "green" and int(fields[2]) > 255:
        return [state.say(number, f"the phase is {fields[2]}, and has to be 0 to 255")]
    return found


def name_fault(state: StateFile, number: int) -> list[str]:
    """A name of which the row's kind can tell nothing."""
    kind, name = state.row(number).fields[:2]
    net = state.net
    if kind == "green":
        hint = " (it is a link)" if name in net.names("link") else meant(name, net.names("node"))
        return [state.say(number, f"the network has no node {quote(name)}{hint}")] if name not in net.names("node") else []
    if name not in net.names("link"):
        hint = " (it is a node)" if name in net.names("node") else meant(name, net.names("link"))
        return [state.say(number, f"the network has no link {quote(name)}{hint}")]
    link = net.link(name)
    if "to" not in link:
        return [state.say(number, f"link {quote(name)} leaves the network: {kind} is told of links that end at a node")]
    if kind in ("version", "row") and "from" not in link:
        return [state.say(number, f"link {quote(name)} enters the network: {kind} is told of links from a node to a node")]
    return []


def time_fault(state: StateFile, number: int) -> list[str]:
    """A first row that tells no begin of a round, or a later one out of its time."""
    fields = state.row(number).fields
    step = state.run["step"]
    if number == 1 and fields[0] != "now":
        return [state.say(1, "the first row has to be `now`, with the second in which the round begins")]
    if number == 1:
        end = state.net.known_seconds
        words = f"a round begins in a multiple of {step}, the network's step, below {thousands(end)}"
        return [state.say(1, words)] if int(fields[2]) % step or int(fields[2]) >= end else []
    if fields[0] == "now":
        return [state.say(number, "`now` is told in the first row alone")]
    travel, second = state.net.link(fields[1])["travel"], int(fields[2])
    last = state.now + travel - 1
    words = f"what comes on link {quote(fields[1])}, of travel {travel}, reaches its end in the seconds {state.now} to {last}"
    return [state.say(number, words)] if not state.now <= second < state.now + travel else []


def sense_fault(state: StateFile, item: str) -> list[str]:
    """A queue that is told twice, or what comes in seconds that do not rise."""
    name = state.net.names("link")[int(item) - 1]
    queues, coming = state.of("queue", name), state.of("coming", name)
    if len(queues) > 1:
        return [state.say(queues[1][0], f"the queue of link {quote(name)} is told on {state.on(queues[0][0])} already")]
    for (before, (earlier, _)), (number, (second, _)) in zip(coming, coming[1:]):
        if second <= earlier:
            words = f"second {second} comes after second {earlier} ({state.on(before)}): the seconds of a link rise"
            return [state.say(number, words)]
    return []


def board_fault(state: StateFile, item: str) -> list[str]:
    """A version that is told twice or too great, or rows that are no forecast of it."""
    name = state.net.names("link")[int(item) - 1]
    versions, rows = state.of("version", name), state.of("row", name)
    done = state.now // state.run["step"]
    if len(versions) > 1:
        return [state.say(versions[1][0], f"the version of link {quote(name)} is told on {state.on(versions[0][0])} already")]
    version = versions[0][1][0] if versions else 0
    if version > done + 1:
        words = f"the round that begins in second {state.now} is number {done}: a version is at most {done + 1} there"
        return [state.say(versions[0][0], words)]
    if version == 0 and rows:
        words = f"link {quote(name)} has version 0, which has no rows" + ("" if versions else ": its `version` row is missing")
        return [state.say(rows[0][0], words)]
    if len(rows) > MOST_ROWS:
        return [state.say(rows[MOST_ROWS][0], f"link {quote(name)} has {plural(len(rows), 'row')}, and may have {MOST_ROWS}")]
    return forecast_fault(state, rows)


def forecast_fault(state: StateFile, rows: list[tuple[int, list[int]]]) -> list[str]:
    """The first row that is none of a forecast."""
    earlier = -1
    for number, (second, amount) in rows:
        if second > MOST_SECOND:
            return [state.say(number, f"the second is {second}, and has to be at most {thousands(MOST_SECOND)}")]
        if not 1 <= amount <= MOST_AMOUNT:
            return [state.say(number, f"the amount is {amount}, and has to be 1 to {thousands(MOST_AMOUNT)}")]
        if second <= earlier:
            return [state.say(number, f"second {second} comes after second {earlier}: the seconds of a forecast rise")]
        earlier = second
    return []


def line_fault(state: StateFile, item: str) -> list[str]:
    """Greens of a node that are no timeline which goes on as the round begins."""
    node = state.net.tables_of("node")[int(item) - 1]
    if not state.rows:
        return [state.end("the file has no row after its header, and the first one has to be `now`")]
    greens, name, now = state.of("green", node["name"]), node["name"], state.now
    if not greens:
        return [state.end(f"node {quote(name)} has no `green` row, and has to have one that ends after second {now}")]
    before: list[int] | None = None
    for number, green in greens:
        words = green_words(node, green) or (before and follow_words(node, before, green))
        if words:
            return [state.say(number, words)]
        before = green
    first, last = greens[0], greens[-1]
    if first[1][1] > now:
        return [state.say(first[0], f"the first green of node {quote(name)} begins after the round, which begins in second {now}")]
    if last[1][2] <= now:
        return [state.say(last[0], f"the last green of node {quote(name)} has to end after second {now}, in which the round begins")]
    return []


def green_words(node: dict[str, Any], green: list[int]) -> str | None:
    """Why a row is no green of a node's plan."""
    phase, begin, end = green
    if phase >= len(node["phase"]):
        return f"the phase is {phase}, and node {quote(node['name'])} has the phases 0 to {len(node['phase']) - 1}"
    times = node["phase"][phase]
    if not times["least"] <= end - begin <= times["greatest"]:
        bounds = f"least is {times['least']} and greatest {times['greatest']} in phase {phase} of node {quote(node['name'])}"
        return f"the green lasts {end - begin} seconds, and {bounds}"
    return f"a green begins by second {thousands(MOST_SECOND)}" if begin > MOST_SECOND else None


def follow_words(node: dict[str, Any], before: list[int], green: list[int]) -> str | None:
    """Why a green may not follow the one before it."""
    phases, (phase, _, end) = node["phase"], before
    between = [(phase + place) % len(phases) for place in range(1, len(phases) + 1)]
    passed = [number for number in between[: between.index(green[0])] if not phases[number].get("skip", False)]
    if passed:
        return f"phase {green[0]} follows phase {phase}, and phase {passed[0]}, without skip, is between them in the ring"
    if green[0] == phase:
        return f"phase {phase} follows itself, and each green has to be of another phase than the one before it"
    free = end + phases[phase]["yellow"] + phases[phase]["clear"]
    if green[1] < free:
        yellow, clear = phases[phase]["yellow"], phases[phase]["clear"]
        return f"it begins in second {green[1]}, and after the green before it, yellow and clear: {end} + {yellow} + {clear} = {free}"
    return None


def sum_fault(state: StateFile, item: str) -> list[str]:
    """More on the links of a node than may be sensed."""
    name = state.net.names("node")[int(item) - 1]
    links = [link["name"] for link in state.net.tables_of("link") if link.get("to") == name]
    total = sum(numbers[0] for link in links for _, numbers in state.of("queue", link))
    total += sum(numbers[1] for link in links for _, numbers in state.of("coming", link))
    words = f"queues and what comes on the links to node {quote(name)} add up to {thousands(total)}, and may to {thousands(MOST_SUM)}"
    return [state.end(words)] if total > MOST_SUM else []


def stood_fault(state: StateFile, item: str) -> list[str]:
    """A queue that has stood for longer than it can have."""
    name = state.net.names("link")[int(item) - 1]
    for number, (amount, stood) in state.of("queue", name)[:1]:
        if stood and not amount:
            return [state.say(number, f"nothing stands on link {quote(name)}, and has to have stood for 0 seconds")]
        if stood > state.now:
            words = f"the queue of link {quote(name)} has stood for {plural(stood, 'second')}, and from second 0 to second {state.now} there are {state.now}"
            return [state.say(number, words)]
    return []


def late_fault(state: StateFile, item: str) -> list[str]:
    """A green that begins later than any that was planned by then."""
    name, last = state.net.names("node")[int(item) - 1], state.now + FARTHEST_BEGIN
    words = f"a green begins by second {state.now} + {FARTHEST_BEGIN} = {last}, where the round begins in second {state.now}: no plan looks farther"
    return next(([state.say(number, words)] for number, green in state.of("green", name) if green[1] > last), [])


def told_fault(state: StateFile, item: str) -> list[str]:
    """A version of the round itself, where all nodes are to have their turns."""
    name, done = state.net.names("link")[int(item) - 1], state.now // state.run["step"]
    words = f"the round that begins in second {state.now} is number {done}, and where all nodes decide a version is at most {done}"
    hint = "is this the decision of the same round? A node that has still to decide is the last word of the call"
    return [state.say(number, f"{words}: {hint}") for number, (version,) in state.of("version", name) if version > done]


OF_ROWS = {"row": row_fault, "name": name_fault, "time": time_fault}
OF_ITEMS = {
    "sense": sense_fault, "board": board_fault, "line": line_fault, "sum": sum_fault,
    "stood": stood_fault, "late": late_fault, "told": told_fault,
}  # fmt: skip


def state_fault(file: str, network: str, code: list[str]) -> list[str]:
    """What the code of a state means there."""
    state = StateFile(file, network)
    if code == ["header"]:
        return header_fault(state)
    if code[0] in OF_ROWS:
        return OF_ROWS[code[0]](state, int(code[1]))
    return OF_ITEMS[code[0]](state, code[1])
