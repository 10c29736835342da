"""What is wrong with a network file: docs/FORMATS.md, "Network file"."""

import math
import re
import tomllib
from collections import Counter
from typing import Any

from ..networks import GREAT, MOST_SECONDS, SMALL_SECONDS, limits_of, tables_of
from ..records import plural, quote, text_of
from ..toml_lines import Path, TomlLines, stop_of
from .wording import at, enumeration, meant, ordinal, thousands, value

MOST_WHOLE = 2**63 - 1
GAPS = "never green together; where one of them goes in the gaps of the other, it has `yields`, and they are no conflict"
NAME = re.compile(r"[a-z0-9_]{1,16}")
LINKS_MOST, ENTRIES_MOST, TURNS_MOST = 16, 16, 16

WHOLE, TEXT, TRUTH, TEXTS, TABLE, TABLES = (
    "a whole number",
    "a text in quotes",
    "true or false",
    "a list of texts in quotes",
    "a table",
    "a list of tables",
)
# The keys that a table has to have, and those that it may have, each with its kind.
KEYS: dict[str, tuple[dict[str, str], dict[str, str]]] = {
    "top": ({"run": TABLE, "node": TABLES, "link": TABLES}, {"conflict": TABLES, "version": WHOLE}),
    "run": (dict.fromkeys(("step", "look", "gap", "rounds"), WHOLE), {"split": TRUTH, **dict.fromkeys(("age", "hold", "recall", "act_step", "rate"), WHOLE)}),
    "node": ({"name": TEXT, "phase": TABLES}, {}),
    "phase": (
        {**dict.fromkeys(("least", "greatest", "yellow", "clear", "loss", "wait"), WHOLE), "links": TEXTS},
        {"skip": TRUTH},
    ),
    "link": ({"name": TEXT, "travel": WHOLE, "sat": WHOLE}, {"from": TEXT, "to": TEXT, "turn": TABLES, "weight": WHOLE}),
    "turn": ({"exit": TEXT, "share": WHOLE}, {}),
    "conflict": ({"a": TEXT, "b": TEXT}, {}),
}
# The further keys of a file of version 3, and those of them that a table has together or not at all.
THIRD: dict[str, dict[str, str]] = {
    "phase": {"also": TEXTS},
    "link": {"yields": TEXTS, "yield_sat": WHOLE, "walk": WHOLE, "cross": WHOLE},
}
PAIRS = {"link": (("yields", "yield_sat"), ("walk", "cross"))}
# The least and the greatest value of a key, and the unit; `_number_faults` has the bounds between two keys, and `_rounds_faults` those of rounds.
BOUNDS: dict[str, dict[str, tuple[int, int, str]]] = {
    "run": {
        "step": (1, 30, "seconds"),
        "look": (10, 180, "seconds"),
        "gap": (0, 10, "seconds"),
        "rounds": (1, GREAT.rounds, ""),
        "age": (1, 3600, "seconds"),
        "hold": (1, 20, ""),
        "recall": (1, 3600, "seconds"),
        "act_step": (1, 30, "seconds"),
        "rate": (1, 1000, "thousandths"),
    },
    "phase": {
        "least": (1, 120, "seconds"),
        "greatest": (1, 240, "seconds"),
        "yellow": (1, 10, "seconds"),
        "clear": (0, 10, "seconds"),
        "loss": (0, 10, "seconds"),
        "wait": (1, 3600, "seconds"),
    },
    "link": {
        "travel": (1, 120, "seconds"),
        "sat": (1, 5000, "thousandths of a vehicle a second: 500 is 1800 vehicles an hour"),
        "weight": (1, 20, ""),
        "yield_sat": (1, 5000, "thousandths of a vehicle a second"),
        "walk": (1, 120, "seconds"),
        "cross": (0, 120, "seconds"),
    },
    "turn": {"share": (0, 1000, "thousandths of what the link brings")},
}


class NetworkFile:
    """The tables of a network file and the lines on which they begin."""

    def __init__(self, file: str) -> None:
        self.file, self.text = file, text_of(file)
        self.tables: dict[str, Any] = tomllib.loads(self.text)
        self.lines = TomlLines(self.text)

    @property
    def known_seconds(self) -> int:
        """The seconds that the files of a network which is right may name are below this."""
        return max(SMALL_SECONDS, self.tables["run"]["rounds"] * self.tables["run"]["step"])

    def tables_of(self, key: str) -> list[Any]:
        """The tables of a list at the top."""
        found = self.tables.get(key, [])
        return found if isinstance(found, list) else []

    def table(self, path: Path) -> Any:
        """What is at a path."""
        found: Any = self.tables
        for part in path:
            found = found[part]
        return found

    def name_of(self, path: Path) -> str:
        """A table in words: by its name where it has one, else by its place."""
        match path:
            case ():
                return "the top of the file"
            case ("run",):
                return "[run]"
            case ("node", node, "phase", phase):
                return f"phase {phase} (the {ordinal(phase + 1)}) of {self.name_of(path[:2])}"
            case ("link", link, "turn", turn):
                exit = self._cell(path, "exit")
                into = f" into {quote(exit)}" if exit is not None else ""
                return f"turn {turn + 1} of {self.name_of(path[:2])}{into}"
            case ("conflict", conflict):
                a, b = self._cell(path, "a"), self._cell(path, "b")
                between = f" of {quote(a)} and {quote(b)}" if a is not None and b is not None else ""
                return f"conflict {conflict + 1}{between}"
        kind, place = path
        name = self._cell(path, "name")
        return f"{kind} {place + 1}" if name is None else f"{kind} {quote(name)}"

    def _cell(self, path: Path, key: str) -> str | None:
        table = self.table(path)
        found = table.get(key) if isinstance(table, dict) else None
        return found if isinstance(found, str) else None

    def say(self, path: Path, words: str, key: str | None = None) -> str:
        """A line on a table, at the line of the key where there is one."""
        line = self.lines.line(path if key is None else (*path, key))
        return at(self.file, line, f"{self.name_of(path)}: {words}")

    def names(self, kind: str) -> list[str]:
        """The names of the nodes or of the links."""
        return [table["name"] for table in self.tables_of(kind)]

    def link(self, name: str) -> dict[str, Any]:
        """The link of this name."""
        return next(link for link in self.tables_of("link") if link["name"] == name)

    def homes(self, link: str, keys: tuple[str, ...] = ("links",)) -> list[Path]:
        """The phases that name a link at these keys, each as often as it names it."""
        return [
            ("node", node, "phase", phase)
            for node, table in enumerate(self.tables_of("node"))
            for phase, of_phase in enumerate(table["phase"])
            for key in keys
            for name in of_phase.get(key, [])
            if name == link
        ]

    def greens(self, link: str) -> list[Path]:
        """The phases in which a link is green, each once, in the order of the file."""
        return list(dict.fromkeys(sorted(self.homes(link, ("links", "also")))))

    def shared(self, a: str, b: str) -> Path | None:
        """The first phase in which both links are green."""
        others = self.greens(b)
        return next((path for path in self.greens(a) if path in others), None)


def place_of(section: str, item: str, sub: str) -> Path:
    """The path of a place that a code names."""
    first, second = int(item) - 1, int(sub) - 1
    match section:
        case "top":
            return ()
        case "run":
            return ("run",)
        case "phase":
            return ("node", first, "phase", second)
        case "turn":
            return ("link", first, "turn", second)
    return (section, first)


def no_toml(file: str) -> list[str]:
    """Why a text is no TOML, as far as Python's reader of TOML 1.0 knows."""
    text = text_of(file)
    try:
        text.encode()
    except UnicodeEncodeError as fault:
        return [at(file, text.count("\n", 0, fault.start) + 1, "a byte here is no UTF-8: save the file as UTF-8")]
    other = _other_kind(text)
    if other:
        return [at(file, 1, f"this is {other}, and a network file (TOML) is wanted here: are the words in another order?")]
    try:
        tables = tables_of(text)
    except tomllib.TOMLDecodeError as fault:
        return _toml_fault(file, text, fault)
    except ValueError as fault:
        return [at(file, None, str(fault))]
    found = next((path for path, number in _numbers(tables, ()) if not -MOST_WHOLE - 1 <= number <= MOST_WHOLE), None)
    return [at(file, TomlLines(text).line(found), "a whole number has to be from -2^63 to 2^63 - 1")] if found else []


def _toml_fault(file: str, text: str, fault: tomllib.TOMLDecodeError) -> list[str]:
    """The line of Python's fault, where nothing that is of TOML 1.1 comes before it."""
    stop = stop_of(text, fault)
    if stop is None or stop.newer is not None:
        return []
    why, lines = next((words for begin, words in TOML_FAULTS.items() if stop.why.startswith(begin)), stop.why), text.split("\n")
    return [at(file, stop.line, f"{quote(lines[stop.line - 1].strip())} is no TOML: {why}")]


# What Python's reader says of a text that is no TOML, in other words.
TOML_FAULTS = {
    "Illegal character '\\n'": "a text has to end with a quote on its line",
    "Cannot overwrite a value": "its table has a key of this name already",
    "Cannot declare": "there is such a table already; of a list each table begins with [[..]]",
    "Invalid value": "there is no such value; a text stands in quotes, and a truth value is true or false",
    "Invalid statement": "a line has a key with its value, a table's header or a comment",
    "Expected '=' after a key": "a key is followed by = and its value",
    "Expected newline or end of document": "after a value or a header the line has to end",
    "Unclosed array": "a list has to end with ]",
    "Unclosed inline table": "between keys in braces stands a comma, and } at the end",
}


def _numbers(found: Any, path: Path):
    """All whole numbers in tables, with their paths."""
    if isinstance(found, dict):
        for key, inner in found.items():
            yield from _numbers(inner, (*path, key))
    elif isinstance(found, list):
        for place, inner in enumerate(found):
            yield from _numbers(inner, (*path, place))
    elif isinstance(found, int):
        yield path, found


def _other_kind(text: str) -> str | None:
    """What a text is that begins as one of another kind does."""
    first = text.split("\n", 1)[0].strip().replace('"', "")
    return HEADERS.get(first) or next((kind for begin, kind in BEGINS.items() if first.startswith(begin)), None)


HEADERS = {
    "second,link,amount": "a file of arrivals",
    "link,storage": "a store file",
    "node,phase,green,offset": "a fixed plan",
    "kind,round,node,x,y,z,w": "a report or a history",
    "kind,name,x,y,z": "a state of a round",
    "second,link,queue,on": "what `queues` writes",
}
BEGINS = {"instance ": "the text of an instance", "certificate ": "a certificate", "<?xml": "an XML file"}


def shape(net: NetworkFile, section: str, item: str, sub: str) -> list[str]:
    """The keys that a table lacks, has beyond its own, or has of another kind."""
    path = place_of(section, item, sub)
    table = net.table(path)
    if not isinstance(table, dict):
        return [net.say(path, f"it is {value(table)}, and has to be a table")]
    needed, others = KEYS[section]
    needed = dict(needed)
    newer = {"phase": "skip", "link": "weight"}.get(section)
    if newer and "version" in net.tables:
        needed[newer] = others[newer]
    said = [net.say(path, _lacks(net, key, key == newer)) for key in needed if key not in table]
    third = THIRD.get(section, {})
    known = needed | others | (third if net.tables.get("version") == 3 else {})
    said += [net.say(path, _further(section, key, known), key) for key in table if key not in known]
    for first, second in PAIRS.get(section, ()) if third.keys() <= known.keys() else ():
        said += [net.say(path, f"it has {a} and no {b}: it has both or neither", a) for a, b in ((first, second), (second, first)) if a in table and b not in table]
    said += [
        net.say(path, f"{key} is {_kind_of(table[key])}, and has to be {kind}{_kind_hint(section, key, table[key])}", key)
        for key, kind in known.items()
        if key in table and not is_kind(table[key], kind)
    ]
    return said[:2]


def _lacks(net: NetworkFile, key: str, is_newer: bool) -> str:
    usual = {"skip": "skip = false", "weight": "weight = 1"}.get(key)
    why = f"; where the file says its version each such table has it, {usual} where nothing is meant by it" if is_newer else ""
    return f"the key {key} is missing{why}"


def _further(section: str, key: str, known: dict[str, str]) -> str:
    """What a key is that a table may not have."""
    words = f"there is no key {quote(key)} here"
    if key in THIRD.get(section, {}):
        return f"{words} (a file with version = 3 may have it); it may have {', '.join(known)}"
    hint = meant(key, known)
    if not hint and section == "top" and key in ("phase", "turn"):
        hint = f" (write [[{'node' if key == 'phase' else 'link'}.{key}]])"
    if not hint and section != "top" and key in KEYS["top"][1]:
        hint = " (a key of the whole file stands before its first [table])"
    homes = [home for home, (needed, others) in KEYS.items() if key in needed | others and home not in (section, "top")]
    if not hint and homes:
        hint = f" (it is a key of a {enumeration(homes, 'or')})" if homes != ["run"] else " (it is a key of [run])"
    return f"{words}{hint}; it may have {', '.join(known)}"


def _kind_of(found: Any) -> str:
    if isinstance(found, list) and not all(isinstance(inner, dict) for inner in found):
        other = next((inner for inner in found if not isinstance(inner, str)), None)
        return "a list" if other is None else f"a list with {value(other)} in it"
    return value(found)


def _kind_hint(section: str, key: str, found: Any) -> str:
    kind = (KEYS[section][0] | KEYS[section][1] | THIRD.get(section, {}))[key]
    if isinstance(found, str) and found in ("true", "false") and kind == TRUTH:
        return ": write it without quotes"
    if isinstance(found, dict) and kind == TABLES:
        return f": write [[{key}]] in place of [{key}]" if section == "top" else f": write [[{section}.{key}]]"
    if key == "run" and isinstance(found, list):
        return ": write [run] in place of [[run]]"
    if isinstance(found, float) and found.is_integer() and kind == WHOLE:
        return f": write {int(found)}"
    if isinstance(found, float) and key == "share" and 0 < found < 1:
        return f" of thousandths: write {round(1000 * found)}"
    if isinstance(found, float) and key in ("yellow", "clear", "loss") and 0 < found < 10:
        return f" of seconds: write {math.ceil(found)}, the next one"
    if isinstance(found, float) and key in ("travel", "least", "greatest", "wait", "walk", "cross") and 0.5 < found < 3600:
        return f" of seconds: write {round(found)}"
    if isinstance(found, str) and found.isdigit() and kind == WHOLE:
        return ": write it without quotes"
    return ""


def is_kind(found: Any, kind: str) -> bool:
    """Whether a value is of this kind. The elements of a list of tables are looked at in their own place."""
    if kind == WHOLE:
        return isinstance(found, int) and not isinstance(found, bool)
    if kind == TEXTS:
        return isinstance(found, list) and all(isinstance(inner, str) for inner in found)
    return isinstance(found, {TEXT: str, TRUTH: bool, TABLE: dict, TABLES: list}[kind])


def bound(net: NetworkFile, section: str, item: str, sub: str) -> list[str]:
    """The first number, count or name of a table that is out of its bounds."""
    path = place_of(section, item, sub)
    table = net.table(path)
    for key, words in _bound_faults(net, section, table):
        return [net.say(path, words, key if key in table else None)]
    return []


def _bound_faults(net: NetworkFile, section: str, table: dict[str, Any]):
    """What is out of bounds in a table, each with its key, in the order in which bounds are tested."""
    if section == "top":
        limits, great = limits_of(net.tables.get("version")), net.tables.get("version") == 3
        for key, least, most, greatest in (
            ("node", 1, limits.nodes, GREAT.nodes),
            ("link", 1, limits.links, GREAT.links),
            ("conflict", 0, limits.conflicts, GREAT.conflicts),
        ):
            count = len(net.tables_of(key))
            if not least <= count <= most:
                words = f"there are {plural(count, key)}, and there have to be {least} to {thousands(most)}"
                yield key, words + ("" if great or count < least else third_words(greatest))
        if table.get("version", 2) not in (2, 3):
            yield "version", f"version is {value(table['version'])}, and has to be 2 or 3"
    if "name" in table and not NAME.fullmatch(table["name"]):
        yield "name", f"the name is {quote(table['name'])}, and has to be 1 to 16 characters out of a to z, 0 to 9 and _"
    if section == "node":
        yield from _node_faults(table, net.tables.get("version") == 3)
    for key, (least, most, unit) in BOUNDS.get(section, {}).items():
        if key == "rounds":
            yield from _rounds_faults(table, net.tables.get("version"))
        elif key in table:
            yield from _number_faults(table, key, least, most, unit)
    for key in ("links", "also") if section == "phase" else ():
        if len(table.get(key, [])) > LINKS_MOST:
            yield key, f"it names {plural(len(table[key]), 'link')}, and may name at most {LINKS_MOST}"
    if section == "link" and not 1 <= len(table.get("yields", [""])) <= LINKS_MOST:
        yield "yields", f"it names {plural(len(table['yields']), 'link')}, and has to name 1 to {LINKS_MOST}"
    if section == "link" and len(table.get("turn", [])) > TURNS_MOST:
        yield "turn", f"it has {plural(len(table['turn']), 'turn')}, and may have at most {TURNS_MOST}"


def _node_faults(table: dict[str, Any], is_third: bool):
    count, marks = len(table["phase"]), sum(phase.get("skip", False) for phase in table["phase"])
    if not 2 <= count <= 4:
        yield "phase", f"it has {plural(count, 'phase')}, and has to have 2 to 4"
    elif count - marks < 2 and not (is_third and marks == count):
        words = f"{marks} of its {count} phases have skip = true, and at least two have to be without it"
        if is_third:
            words += ", or none"
        elif marks == count:
            words += " (in a file with version = 3 all may have it)"
        yield "phase", words


def third_words(most: int) -> str:
    """Up to how many a file of version 3 may have."""
    return f" (up to {thousands(most)} in a file with version = 3)"


def _rounds_faults(run: dict[str, Any], version: Any):
    """More rounds than the file may have, or longer ones than a day has."""
    rounds, most = run["rounds"], limits_of(version).rounds
    if not 1 <= rounds <= most:
        words = f"rounds is {value(rounds)}, and has to be 1 to {thousands(most)}"
        yield "rounds", words + ("" if version == 3 or rounds < 1 else third_words(GREAT.rounds))
    elif rounds * run["step"] > MOST_SECONDS:
        words = f"{thousands(rounds)} rounds of {run['step']} seconds are {thousands(rounds * run['step'])} seconds"
        yield "rounds", f"{words}, and may be at most {thousands(MOST_SECONDS)}: a day"


def _number_faults(table: dict[str, Any], key: str, least: int, most: int, unit: str):
    number = table[key]
    if not least <= number <= most:
        yield key, f"{key} is {value(number)}, and has to be {least} to {thousands(most)}{f' ({unit})' if unit else ''}"
    elif key == "step" and number > table["look"]:
        yield key, f"step is {number}, and has to be at most look, which is {table['look']}"
    elif key == "act_step" and table["step"] % number:
        yield key, f"act_step is {number}, and has to divide step, which is {table['step']}"
    elif key == "yield_sat" and number > table["sat"]:
        yield key, f"yield_sat is {number}, and has to be at most sat, which is {table['sat']}"
    elif key == "greatest" and number < table["least"]:
        yield key, f"greatest is {number}, and has to be at least least, which is {table['least']}"
    elif key == "loss" and number >= table["greatest"]:
        yield key, f"loss is {number}, and has to be less than greatest, which is {table['greatest']}"


def twice(net: NetworkFile, kind: str, item: str, _: str) -> list[str]:
    """The earlier node or link that has the name."""
    path: Path = (kind, int(item) - 1)
    name = net.table(path)["name"]
    earlier = net.names(kind).index(name)
    if earlier >= path[1]:
        return []
    line = net.lines.line((kind, earlier, "name"))
    words = f"{kind} {item} has this name, which {kind} {earlier + 1} on line {line} has: no two {kind}s may share a name"
    return [net.say(path, words, "name")]


def unknown(net: NetworkFile, section: str, item: str, sub: str) -> list[str]:
    """The name in a table that stands for nothing in the file."""
    path = place_of(section, item, sub)
    table, links, nodes = net.table(path), net.names("link"), net.names("node")
    cells = {
        "phase": [((key, place), name, "link") for key in ("links", "also") for place, name in enumerate(table.get(key, []))],
        "link": [
            *[((key,), table[key], "node") for key in ("from", "to") if key in table],
            *[(("yields", place), name, "link") for place, name in enumerate(table.get("yields", []))],
        ],
        "turn": [(("exit",), table.get("exit"), "link")],
        "conflict": [((key,), table.get(key), "link") for key in ("a", "b")],
    }[section]
    for key, name, kind in cells:
        known, other = (links, nodes) if kind == "link" else (nodes, links)
        if name not in known:
            hint = meant(name, known) or (f" (it is a {'node' if kind == 'link' else 'link'})" if name in other else "")
            words = f"{key[0]} names {quote(name)}, and the file has no {kind} of this name{hint}"
            return [at(net.file, net.lines.line((*path, *key)), f"{net.name_of(path)}: {words}")]
    return []


def ends(net: NetworkFile, item: str) -> list[str]:
    """A link with no end at a node, or with both at one."""
    path: Path = ("link", int(item) - 1)
    table = net.table(path)
    if "from" not in table and "to" not in table:
        return [net.say(path, "it has neither from nor to: a link begins or ends at a node, or both")]
    if table.get("from") == table.get("to"):
        return [net.say(path, f"from and to are both {quote(table['to'])}: a link may not lead from a node to itself", "to")]
    return []


def crowd(net: NetworkFile, item: str) -> list[str]:
    """A node at which too many links end."""
    path: Path = ("node", int(item) - 1)
    name = net.table(path)["name"]
    count = sum(link.get("to") == name for link in net.tables_of("link"))
    return [net.say(path, f"{count} links end at it, and at most {ENTRIES_MOST} may")] if count > ENTRIES_MOST else []


def shares(net: NetworkFile, item: str) -> list[str]:
    """Turns that are not those of the link's end, or do not sum to 1000."""
    path: Path = ("link", int(item) - 1)
    table = net.table(path)
    turns = table.get("turn", [])
    if "to" not in table:
        return [net.say(path, "it has turns, and has no to: a link that leaves the network has none", "turn")] if turns else []
    exits = [turn["exit"] for turn in turns]
    for place, exit in enumerate(exits):
        where: Path = (*path, "turn", place)
        if net.link(exit).get("from") != table["to"]:
            start = net.link(exit).get("from")
            begins = f"which begins at {quote(start)}" if start is not None else "which enters the network"
            words = f"its turns go into {quote(exit)}, {begins}, and have to go into links from {quote(table['to'])}"
            return [at(net.file, net.lines.line(where), f"{net.name_of(path)}: {words}")]
        if exit in exits[:place]:
            return [at(net.file, net.lines.line(where), f"{net.name_of(path)}: two of its turns go into {quote(exit)}: join them")]
    total = sum(turn["share"] for turn in turns)
    if not turns:
        return [net.say(path, f"it ends at node {quote(table['to'])} and has no turn: its shares have to sum to 1000")]
    if total == 1000:
        return []
    words = " + ".join(str(turn["share"]) for turn in turns) + f" = {total}" if len(turns) > 1 else f"{total}"
    return [net.say(path, f"its turns sum to {words}, and have to sum to 1000{_as_thousandths(turns, total)}", "turn")]


def _as_thousandths(turns: list[dict[str, Any]], total: int) -> str:
    """What to write for parts of a hundred, or of what was counted."""
    if total < 1 or any(1000 * turn["share"] % total for turn in turns):
        return ""
    return ": in thousandths write " + enumeration([str(1000 * turn["share"] // total) for turn in turns])


def phaseless(net: NetworkFile, item: str) -> list[str]:
    """A link that phases do not name as they must."""
    path: Path = ("link", int(item) - 1)
    table = net.table(path)
    name, homes = table["name"], net.homes(table["name"])
    lines = enumeration([f"{net.name_of(home)} on line {net.lines.line((*home, 'links'))}" for home in dict.fromkeys(homes)] or [""])
    if "to" not in table:
        return [net.say(path, f"it leaves the network and has no signal, and {lines} names it")] if homes else []
    node = table["to"]
    if not homes:
        words = f"no phase of that node names it in links: write {quote(name)} into those of its phase"
        return [net.say(path, f"it ends at node {quote(node)}, and {words}")]
    if len(homes) > 1:
        lines = lines if len(set(homes)) > 1 else f"in {net.name_of(homes[0])} on line {net.lines.line((*homes[0], 'links'))}"
        return [net.say(path, f"it is named {len(homes)} times, {lines}; it has to be in one phase, once")]
    if net.table(homes[0][:2])["name"] != node:
        return [net.say(path, f"it ends at node {quote(node)}, and {lines} names it: it has to be in a phase of {quote(node)}")]
    return []


def clash(net: NetworkFile, first: str, second: str) -> list[str]:
    """The conflict of two links that can be none."""
    wanted = [net.tables_of("link")[int(place) - 1]["name"] for place in (first, second)]
    for place, pair in enumerate(net.tables_of("conflict")):
        if [pair["a"], pair["b"]] == wanted:
            path: Path = ("conflict", place)
            return [net.say(path, words) for words in _clash_words(net, *wanted)]
    return []


def _clash_words(net: NetworkFile, a: str, b: str):
    """Why two links can be no conflict."""
    if a == b:
        yield f"both are the link {quote(a)}"
        return
    ends = [net.link(name).get("to") for name in (a, b)]
    if None in ends or ends[0] != ends[1]:
        where = [f"{quote(name)} {f'ends at {quote(end)}' if end else 'leaves the network'}" for name, end in zip((a, b), ends)]
        yield f"{enumeration(where)}: links in conflict end at one node"
        return
    shared = net.shared(a, b)
    if shared is not None:
        both = "are in" if net.homes(a)[0] == net.homes(b)[0] == shared else "are green in"
        yield f"both {both} {net.name_of(shared)}: links in conflict are {'in two phases' if both == 'are in' else GAPS}"


def also(net: NetworkFile, item: str) -> list[str]:
    """A further green of a link in a phase that may not name it so."""
    name = net.tables_of("link")[int(item) - 1]["name"]
    end = net.link(name).get("to")
    for path in net.homes(name, ("also",)):
        if net.table(path[:2])["name"] != end:
            ends_at = f"ends at node {quote(end)}" if end is not None else "leaves the network and has no signal"
            return [net.say(path, f"also names {quote(name)}, which {ends_at}: it may name links that end at its own node", "also")]
        if net.homes(name, ("links", "also")).count(path) > 1:
            return [net.say(path, f"it names {quote(name)} twice, in links and also together: a phase names a link once", "also")]
    return []


def yields(net: NetworkFile, item: str) -> list[str]:
    """A link that gives way to one to which it may not."""
    path: Path = ("link", int(item) - 1)
    table = net.table(path)
    name, given = table["name"], table.get("yields", [])
    for place, other in enumerate(given):
        words = None
        if other == name:
            words = "yields names the link itself"
        elif net.link(other).get("to") != table.get("to") or "to" not in table:
            words = f"yields names {quote(other)}, which does not end at the same node: a link gives way to links that end at its node"
        elif net.shared(name, other) is None:
            words = f"yields names {quote(other)}, and no phase has both green: where they are never green together it need not give way"
        elif other in given[:place]:
            words = f"yields names {quote(other)} twice"
        if words:
            return [net.say(path, words, "yields")]
    return []


def walk(net: NetworkFile, item: str) -> list[str]:
    """A link with a walk that ends at no node, or has a green that is too short."""
    path: Path = ("link", int(item) - 1)
    table = net.table(path)
    if "to" not in table:
        return [net.say(path, "it has a walk, and has no to: a crossing ends at the node whose signal it has", "walk")]
    wanted = table["walk"] + table["cross"]
    for green in net.greens(table["name"]):
        least = net.table(green)["least"]
        if least < wanted:
            words = f"in which it is green, has least = {least}: write least = {wanted} or more"
            return [net.say(path, f"walk and cross are {wanted} seconds together, and {net.name_of(green)}, {words}", "walk")]
    return []


CODES = {
    "shape": shape,
    "bound": bound,
    "twice": twice,
    "unknown": unknown,
    "ends": ends,
    "crowd": crowd,
    "shares": shares,
    "phaseless": phaseless,
    "also": also,
    "clash": clash,
    "yields": yields,
    "walk": walk,
}


def network_fault(file: str, code: list[str]) -> list[str]:
    """What the code of a network file means there."""
    if code == ["toml"]:
        return no_toml(file)
    return CODES[code[0]](NetworkFile(file), *code[1:])


def link_counts(net: NetworkFile) -> Counter[str]:
    """How many board steps each node has in a round: one for each link that joins it with another node."""
    inner = [link for link in net.tables_of("link") if "from" in link and "to" in link]
    return Counter(link[end] for link in inner for end in ("from", "to"))
