"""What is wrong with files of records: arrivals, stores, fixed plans, histories and sheets."""

import csv
import re
from collections import Counter
from collections.abc import Callable

from ..arrivals import MOST_AMOUNT, MOST_SUM
from ..records import MOST_DIGITS, Record, plural, quote, records_of, text_of
from .networks import BEGINS, HEADERS, NetworkFile, link_counts
from .wording import at, enumeration, meant, ordinal, thousands

KINDS = ("step", "plan", "green", "link", "total")
MOST_STORAGE, MOST_OFFSET = 2_000_000_000, 17_999
BITS = {8: 2**8 - 1, 32: 2**32 - 1, 64: 2**64 - 1}
HEADER_OF = {
    "arrivals": "second,link,amount",
    "store": "link,storage",
    "plan": "node,phase,green,offset",
    "history": "kind,round,node,x,y,z,w",
    "sheet": "kind,round,node,x,y,z,w",
    "state": "kind,name,x,y,z",
}
NAME_OF = {
    "arrivals": "a file of arrivals",
    "store": "a store file",
    "plan": "a fixed plan",
    "history": "a history or a report",
    "sheet": "a report",
    "state": "a state of a round",
}


class RecordFile:
    """The rows of a file of records, numbered from 1 after the header, over the network that it is read with."""

    def __init__(self, file: str, kind: str, network: str) -> None:
        self.file, self.kind, self._network = file, kind, network
        self.text = text_of(file)
        records = list(records_of(self.text))
        self.header, self.rows = records[:1], records[1:]

    @property
    def net(self) -> NetworkFile:
        """The network, which the program has read and found right."""
        return NetworkFile(self._network)

    def row(self, number: int) -> Record:
        """A row, from 1."""
        return self.rows[number - 1]

    def say(self, number: int, words: str) -> str:
        """A line on a row."""
        return at(self.file, self.row(number).line, f"row {number}, {quote(','.join(self.row(number).fields))}: {words}")

    def end(self, words: str) -> str:
        """A line on the end of the file."""
        return at(self.file, self.text.count("\n") + (not self.text.endswith("\n")), words)


def number_fault(name: str, cell: str, digits: int | None = 10, bits: int | None = None) -> str | None:
    """Why a cell is no number: of 1 to so many digits, where zeros may lead, or of so many bits, where they may not."""
    if not cell:
        return f"{name} is empty, and has to be a whole number"
    if not (cell.isascii() and cell.isdigit()):
        return f"{name} is {quote(cell)}, and has to be a whole number{_whole_hint(name, cell)}"
    if digits is not None and len(cell) > digits:
        return f"{name} has {len(cell)} digits, and may have at most {digits}"
    if bits is not None and len(cell) > MOST_DIGITS:
        return f"{name} has {len(cell)} digits, and may be at most {thousands(BITS[bits])}"
    if bits is not None and cell[0] == "0" and cell != "0":
        return f"{name} is {quote(cell)}, and may have no zero in front"
    if bits is not None and int(cell) > BITS[bits]:
        return f"{name} is {thousands(int(cell))}, and may be at most {thousands(BITS[bits])}"
    return None


def _whole_hint(name: str, cell: str) -> str:
    """What to write for a number with a point, a time of day and an offset before the begin."""
    if cell != cell.strip():
        return " (blanks are not trimmed)"
    if re.fullmatch(r"[0-9]+\.0+", cell):
        return f": write {cell.partition('.')[0]}; pandas does so where its column is of whole numbers, as by `astype(int)`"
    if re.fullmatch(r"[0-9]{1,2}:[0-9]{2}(:[0-9]{2})?", cell):
        return " of seconds from the begin of the run: a time of day less that at which the run begins"
    if name == "offset" and re.fullmatch(r"-[0-9]+", cell):
        return f": write the seconds of the cycle less {cell[1:]}"
    return ""


def header_fault(rows: RecordFile) -> list[str]:
    """A file that does not begin with its header."""
    wanted = HEADER_OF[rows.kind]
    if not rows.header:
        return [at(rows.file, None, f"the file is empty, and has to begin with the line {wanted}")]
    line, fields = rows.header[0]
    found = ",".join(fields)
    if found == wanted:
        return []
    other = HEADERS.get(found) or next((kind for begin, kind in BEGINS.items() if found.startswith(begin)), None)
    if other is None and ("[run]" in rows.text or "[[node]]" in rows.text):
        other = "a network file (TOML)"
    if other:
        return [at(rows.file, line, f"this is {other}, and {NAME_OF[rows.kind]} is wanted here: it begins with the line {wanted}")]
    hint = ""
    if len(fields) == 1 and any(mark in found for mark in ";\t"):
        hint = ": fields are divided by commas"
    elif [field.strip().lower() for field in fields] == wanted.split(","):
        hint = ": names of columns have no blanks around them and no capitals"
    elif sorted(fields) == sorted(wanted.split(",")):
        hint = ": the columns are in another order"
    elif fields[1:] == wanted.split(",") and not fields[0]:
        hint = ": the first column has no name; pandas leaves it out with `to_csv(.., index=False)`"
    elif fields[0].strip().isdigit():
        hint = ": the header is missing"
    return [at(rows.file, line, f"the file begins with {quote(found)}, and has to begin with the line {wanted}{hint}")]


def form_fault(rows: RecordFile, number: int, cells: dict[int, tuple[str, int | None, int | None]]) -> list[str]:
    """A row that has another number of fields, or a cell that is no number; cells by their place, with digits and bits."""
    fields, wanted = rows.row(number).fields, HEADER_OF[rows.kind]
    if len(fields) != len(wanted.split(",")):
        count = len(wanted.split(","))
        hint = f": {wanted}" + ("; fields are divided by commas" if len(fields) == 1 else "")
        return [rows.say(number, f"it has {plural(len(fields), 'field')}, and has to have {count}{hint}")]
    for place, (name, digits, bits) in cells.items():
        fault = number_fault(name, fields[place], digits, bits)
        if fault:
            return [rows.say(number, fault)]
    return []


def link_fault(rows: RecordFile, number: int, name: str, enters: bool) -> list[str]:
    """A name that is no link, or not one by which vehicles enter."""
    net = rows.net
    if name not in net.names("link"):
        node = " (it is a node)" if name in net.names("node") else meant(name, net.names("link"))
        return [rows.say(number, f"the network has no link {quote(name)}{node}")]
    start = net.link(name).get("from")
    if not enters or start is None:
        return []
    entries = [link["name"] for link in net.tables_of("link") if "from" not in link]
    words = f"link {quote(name)} comes from node {quote(start)}; vehicles enter by links without `from`: {enumeration(entries[:8])}"
    return [rows.say(number, words + (" .." if len(entries) > 8 else ""))]


def arrivals_fault(rows: RecordFile, code: str, number: int) -> list[str]:
    """What is wrong with a row of arrivals."""
    if code == "row":
        return form_fault(rows, number, {0: ("second", 10, None), 2: ("amount", 10, None)})
    second, link, amount = rows.row(number).fields
    if code == "link":
        return link_fault(rows, number, link, True)
    if code == "amount" and int(second) >= rows.net.known_seconds:
        return [rows.say(number, f"second is {second}, and has to be 0 to {thousands(rows.net.known_seconds - 1)}")]
    if code == "amount":
        words = f"amount is {amount}, and has to be 1 to {thousands(MOST_AMOUNT)} thousandths of a vehicle: 1000 is one vehicle"
        return [rows.say(number, words)] if not 1 <= int(amount) <= MOST_AMOUNT else []
    total = sum(int(row.fields[2]) for row in rows.rows[:number])
    words = f"with this row the amounts add up to {thousands(total)}, and may add up to {thousands(MOST_SUM)}"
    return [rows.say(number, words)] if total > MOST_SUM else []


def store_fault(rows: RecordFile, code: str, number: int) -> list[str]:
    """What is wrong with a row of a store."""
    if code == "row":
        return form_fault(rows, number, {1: ("storage", 10, None)})
    link, storage = rows.row(number).fields
    if code == "link":
        return link_fault(rows, number, link, False)
    if code == "storage":
        words = f"storage is {storage}, and has to be 1 to {thousands(MOST_STORAGE)} thousandths of a vehicle"
        return [rows.say(number, words)] if not 1 <= int(storage) <= MOST_STORAGE else []
    earlier = next((row for row in rows.rows[: number - 1] if row.fields[0] == link), None)
    return [rows.say(number, f"link {quote(link)} has a row already, on line {earlier.line}")] if earlier else []


def plan_fault(rows: RecordFile, code: str, number: int) -> list[str]:
    """What is wrong with a row of a fixed plan."""
    if code == "row":
        return form_fault(rows, number, {place: (name, 10, None) for place, name in ((1, "phase"), (2, "green"), (3, "offset"))})
    name, phase, green, offset = rows.row(number).fields
    net = rows.net
    if code == "node":
        hint = " (it is a link)" if name in net.names("link") else meant(name, net.names("node"))
        return [rows.say(number, f"the network has no node {quote(name)}{hint}")] if name not in net.names("node") else []
    if code == "phase":
        words = f"{enumeration(next_phases(rows, number), 'or')} is wanted here: nodes in the order of the network, phases up the ring"
        return [rows.say(number, words)]
    if code == "green":
        times = net.tables_of("node")[net.names("node").index(name)]["phase"][int(phase)]
        least, greatest = times["least"], times["greatest"]
        words = f"green is {green}, and phase {int(phase)} of node {quote(name)} has least {least} and greatest {greatest}"
        return [rows.say(number, words)] if not least <= int(green) <= greatest else []
    if int(offset) > MOST_OFFSET:
        return [rows.say(number, f"offset is {offset}, and has to be 0 to {thousands(MOST_OFFSET)}")]
    before = rows.row(number - 1)
    words = f"offset is {offset}, and that of the row before it (line {before.line}) of the same node is {before.fields[3]}"
    return [rows.say(number, words + ": all rows of a node have one offset")] if int(before.fields[3]) != int(offset) else []


def phases_after(net: NetworkFile, node: int, phase: int, is_only: bool) -> list[tuple[int, int]]:
    """The nodes and phases of which a row may follow in a fixed plan, after that of this phase of this node, which is its only one so far or not.

    Of the first row of a node the phase is -1. As a node has two rows or more, that of a free ring is of any phase but the last.
    """
    nodes = net.tables_of("node")
    if node == len(nodes):
        return []
    phases, found = nodes[node]["phase"], []
    for further in range(phase + 1, len(phases)):
        found.append((node, further))
        if not phases[further].get("skip", False):
            return found
    if phase < 0:
        return found[:-1]
    return found if is_only else found + phases_after(net, node + 1, -1, False)


def next_phases(rows: RecordFile, number: int) -> list[str]:
    """The rows that may stand at this place of a fixed plan, in words."""
    net = rows.net
    if number == 1:
        found = phases_after(net, 0, -1, False)
    else:
        before = rows.row(number - 1).fields
        is_only = number == 2 or rows.row(number - 2).fields[0] != before[0]
        found = phases_after(net, net.names("node").index(before[0]), int(before[1]), is_only)
        if is_only and not found:
            return [f"a row of an earlier phase of node {quote(before[0])} before that of its last"]
    return [f"phase {phase} of node {quote(net.names('node')[node])}" for node, phase in found] or ["no row more"]


def plan_short(rows: RecordFile) -> list[str]:
    """A fixed plan that ends before each unmarked phase of each node had a row."""
    wanted = enumeration(next_phases(rows, len(rows.rows) + 1), "or")
    return [rows.end(f"the file ends here, after {plural(len(rows.rows), 'row')}, and a row of {wanted} is wanted next")]


def history_fault(rows: RecordFile, code: str, number: int) -> list[str]:
    """What is wrong with a row of a history."""
    fields = rows.row(number).fields
    if code == "row":
        return form_fault(rows, number, {}) or kind_fault(rows, number)
    name, net = fields[2], rows.net
    if code == "node":
        hint = " (it is a link)" if name in net.names("link") else meant(name, net.names("node"))
        return [rows.say(number, f"a step of node {quote(name)}, which the network has not{hint}")] if name not in net.names("node") else []
    counts, rounds = link_counts(net), net.tables["run"]["rounds"]
    if code == "extra":
        words = f"a step after all {plural(rounds, 'round')} of the network are done, with {sum(counts.values())} steps each"
        return [rows.say(number, words if counts else "the nodes of this network hear nobody, and a history of it has no step")]
    done, left = progress(rows, number - 1, counts)
    words = f"node {quote(name)} has {plural(counts[name], 'board step')} a round, and has done all of round {done}"
    return [rows.say(number, f"{words}; there {said_left(left)} left" if counts[name] else f"node {quote(name)} has no board step")]


def progress(rows: RecordFile, count: int, counts: Counter[str]) -> tuple[int, Counter[str]]:
    """After so many rows: the number of the round that is under way, from 0, and what is left of it by node."""
    steps = [row.fields[2] for row in rows.rows[:count] if row.fields[0] == "step"]
    each = sum(counts.values())
    done = len(steps) // each if each else 0
    return done, counts - Counter(steps[done * each :])


def said_left(left: Counter[str]) -> str:
    """`are 2 steps of node "a" and 1 of node "b"`."""
    found = [f"{count} of node {quote(node)}" for node, count in left.items()]
    return f"{'is' if sum(left.values()) == 1 else 'are'} {enumeration(found[:4])}{' ..' if len(found) > 4 else ''}"


def history_short(rows: RecordFile) -> list[str]:
    """A history that ends before all rounds are done."""
    net = rows.net
    done, left = progress(rows, len(rows.rows), link_counts(net))
    steps = sum(row.fields[0] == "step" for row in rows.rows)
    hint = "; a report of `actuate` or `fixed` has no steps and is no history" if steps == 0 and rows.rows else ""
    rounds = net.tables["run"]["rounds"]
    words = f"the file ends here with {plural(steps, 'step')}, in round {done} of {rounds}, counted from 0: there {said_left(left)} left"
    return [rows.end(words + hint)]


def kind_fault(rows: RecordFile, number: int) -> list[str]:
    """A row whose kind is none of a report."""
    kind = rows.row(number).fields[0]
    return [rows.say(number, f"the kind is {quote(kind)}, and has to be one of {enumeration(list(KINDS), 'or')}")] if kind not in KINDS else []


def sheet_fault(rows: RecordFile, code: str, number: int) -> list[str]:
    """What is wrong with a row of a report that is read as a sheet."""
    fields = rows.row(number).fields
    numbers: dict[str, dict[int, tuple[str, int | None, int | None]]] = {
        "green": {3: ("phase", None, 8), 4: ("from", None, 32), 5: ("to", None, 32)},
        "link": {4: ("entered", None, 64), 5: ("left", None, 64), 6: ("delay", None, 64)},
        "total": {3: ("entered", None, 64), 4: ("left", None, 64), 5: ("what is on the links", None, 64), 6: ("delay", None, 64)},
    }
    if code == "row":
        return form_fault(rows, number, {}) or kind_fault(rows, number) or form_fault(rows, number, numbers.get(fields[0], {}))
    net = rows.net
    links = net.names("link")
    if code == "extra":
        words = "a second total" if fields[0] == "total" else f"a link after all {len(links)} that the network has"
        return [rows.say(number, words)]
    if fields[0] == "green":
        name = fields[2]
        hint = meant(name, net.names("node"))
        words = f"a green of node {quote(name)}, which the network has not{hint}: is this a report of another network?"
        return [rows.say(number, words)] if name not in net.names("node") else []
    place = sum(row.fields[0] == "link" for row in rows.rows[: number - 1])
    words = f"a link {quote(fields[3])}, and {quote(links[place])}, the {ordinal(place + 1)} of the network, is wanted here"
    hint = "" if fields[3] in links else ": is this a report of another network?"
    return [rows.say(number, words + hint)] if fields[3] != links[place] else []


def sheet_short(rows: RecordFile) -> list[str]:
    """A report that ends before all links and the total."""
    kinds = Counter(row.fields[0] for row in rows.rows)
    links = rows.net.names("link")
    missing = []
    if kinds["link"] < len(links):
        missing.append(f"{kinds['link']} of {len(links)} links ({quote(links[kinds['link']])} is next)")
    if not kinds["total"]:
        missing.append("no total")
    return [rows.end(f"the file ends here with {' and '.join(missing)}")] if missing else []


FAULTS: dict[str, Callable[[RecordFile, str, int], list[str]]] = {
    "arrivals": arrivals_fault,
    "store": store_fault,
    "plan": plan_fault,
    "history": history_fault,
    "sheet": sheet_fault,
}
SHORT: dict[str, Callable[[RecordFile], list[str]]] = {"plan": plan_short, "history": history_short, "sheet": sheet_short}


def records_fault(file: str, kind: str, network: str, code: list[str]) -> list[str]:
    """What the code of a file of records of this kind means there."""
    try:
        rows = RecordFile(file, kind, network)
    except csv.Error:
        return [at(file, None, f"a field has more than {thousands(csv.field_size_limit())} characters: is a quote not closed?")]
    if code == ["header"]:
        return header_fault(rows)
    if code == ["short"]:
        return SHORT[kind](rows)
    return FAULTS[kind](rows, code[0], int(code[1]))
