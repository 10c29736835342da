"""Network files, the first text of the commands over a network: docs/FORMATS.md, "Network file". They are read as right.

Times are whole seconds. `sat` is in thousandths of a vehicle a second, and a share in thousandths of what a link brings.
"""

import contextlib
import re
import tomllib
from collections.abc import Iterator
from dataclasses import dataclass
from functools import cached_property
from typing import Any, NamedTuple

from .faults import Fault
from .records import Place, text_of
from .toml_lines import stop_of


class Limits(NamedTuple):
    """How many nodes, links, conflicts and rounds a file may have."""

    nodes: int
    links: int
    conflicts: int
    rounds: int


SMALL, GREAT = Limits(64, 320, 1024, 600), Limits(1024, 8192, 32_768, 17_280)
MOST_SECONDS = 86_400  # seconds of a run: a day
SMALL_SECONDS = 18_000  # that the files of every network may name, however short its run is


def limits_of(version: Any) -> Limits:
    """The limits of a file that says this version, or None."""
    return GREAT if version == 3 else SMALL


@dataclass(frozen=True)
class Run:
    """How a run goes: a round every `step` seconds, `rounds` of them; plans look `look` seconds ahead, and vehicles that are at most `gap`
    seconds apart are one platoon. `split`, `age`, `hold` and `rate` are for busy streets, and `recall` is for phases with `skip`; None where the file does not have one."""

    step: int
    look: int
    gap: int
    rounds: int
    split: bool = False
    age: int | None = None
    hold: int | None = None
    recall: int | None = None
    act_step: int | None = None
    rate: int | None = None

    @property
    def seconds(self) -> int:
        """How long the run is."""
        return self.step * self.rounds

    @property
    def known_seconds(self) -> int:
        """The seconds that the files of the network may name are below this."""
        return max(SMALL_SECONDS, self.seconds)


@dataclass(frozen=True)
class Phase:
    """The times of a phase, the links that have their home in it, whether the ring leaves it out (`skip`) where nobody comes, and the further
    links that are green in it (`also`)."""

    least: int
    greatest: int
    yellow: int
    clear: int
    loss: int
    wait: int
    links: tuple[str, ...]
    skip: bool = False
    also: tuple[str, ...] = ()


@dataclass(frozen=True)
class Node:
    """A junction with one signal, with its phases in the order of the ring."""

    name: str
    phases: tuple[Phase, ...]


@dataclass(frozen=True)
class Turn:
    """The part of what comes to the end of a link that goes on by the link `exit`, in thousandths."""

    exit: str
    share: int


@dataclass(frozen=True)
class Link:
    """A lane, or several that have green together: `travel` seconds long, with `sat` at its end.

    `start` and `end` are the nodes between which it leads, `from` and `to` in the file: it enters the network where `start` is None, and
    leaves it where `end` is None. It gives way to the links `yields`, and lets `yield_sat` through while one of them is busy. A crossing is
    entered in the first `walk` seconds of a green, and who entered it is over `cross` seconds later.
    """

    name: str
    travel: int
    sat: int
    start: str | None = None
    end: str | None = None
    turns: tuple[Turn, ...] = ()
    weight: int = 1
    yields: tuple[str, ...] = ()
    yield_sat: int | None = None
    walk: int | None = None
    cross: int | None = None


@dataclass(frozen=True)
class Conflict:
    """Two links that are never to be green together."""

    a: str
    b: str


@dataclass(frozen=True)
class Network:
    """A network: its run, and its nodes, links and conflicts in the order of the file. `version` is None where the file says none."""

    run: Run
    nodes: tuple[Node, ...]
    links: tuple[Link, ...]
    conflicts: tuple[Conflict, ...] = ()
    version: int | None = None

    @cached_property
    def _nodes(self) -> dict[str, Node]:
        return {node.name: node for node in self.nodes}

    @cached_property
    def _links(self) -> dict[str, Link]:
        return {link.name: link for link in self.links}

    @cached_property
    def phase_of(self) -> dict[str, tuple[Node, int]]:
        """The node and the number of the phase, from 0, in which each link that ends at a node has its home."""
        return {link: (node, number) for node in self.nodes for number, phase in enumerate(node.phases) for link in phase.links}

    @cached_property
    def greens_of(self) -> dict[str, frozenset[int]]:
        """The phases, from 0, in which each link that ends at a node is green: its home, and those that name it also."""
        greens: dict[str, set[int]] = {}
        for node in self.nodes:
            for number, phase in enumerate(node.phases):
                for link in (*phase.links, *phase.also):
                    greens.setdefault(link, set()).add(number)
        return {link: frozenset(numbers) for link, numbers in greens.items()}

    def node_named(self, name: str) -> Node | None:
        """The node of this name, or None."""
        return self._nodes.get(name)

    def link_named(self, name: str) -> Link | None:
        """The link of this name, or None."""
        return self._links.get(name)

    def links_to(self, node: str) -> list[Link]:
        """The links that end at a node."""
        return [link for link in self.links if link.end == node]

    def links_from(self, node: str) -> list[Link]:
        """The links that begin at a node."""
        return [link for link in self.links if link.start == node]


def read_tables(place: Place) -> dict[str, Any]:
    """The tables of a network file."""
    text = text_of(place)
    try:
        text.encode()  # what was no UTF-8 in the file is refused here
        return tables_of(text)
    except UnicodeEncodeError as fault:
        raise Fault(f"{place}: the file is not in UTF-8") from fault
    except tomllib.TOMLDecodeError as fault:
        raise Fault(f"{place}: {_no_toml(place, text, fault)}") from fault
    except ValueError as fault:
        raise Fault(f"{place}: {fault}") from fault


# A key of so many parts with dots between them, for which Python's reader takes minutes
_LONG_KEY = re.compile(r"""(?<![\w-])(?:(?:[\w-]++|"[^"\n]*+"|'[^'\n]*+')[ \t]*+\.[ \t]*+){64}""")


def tables_of(text: str) -> dict[str, Any]:
    """The tables of a TOML text; a ValueError says what is wrong with it, or what Python's reader can't take."""
    long = _LONG_KEY.search(text)
    if long:
        raise ValueError(f"line {text.count(chr(10), 0, long.start()) + 1}: a key has more than 64 parts")
    try:
        return tomllib.loads(text)
    except tomllib.TOMLDecodeError:
        raise
    except RecursionError as fault:
        raise ValueError("lists or tables are in one another without an end") from fault
    except ValueError as fault:
        raise ValueError("a number has more digits than can be read") from fault


def _no_toml(place: Place, text: str, fault: tomllib.TOMLDecodeError) -> str:
    """What Python says of a text that is not TOML 1.0, or what to do where it has what TOML 1.1 has besides."""
    stop = stop_of(text, fault)
    if stop is None or stop.newer is None:
        return str(fault)
    return f"line {stop.newer} is TOML 1.1, and Python reads TOML 1.0: write the network anew by `./signal upgrade {place}`"


@contextlib.contextmanager
def network_faults(place: Place) -> Iterator[None]:
    """What can't be done with a network, as one fault. Reading tests little of it; whether the program takes it, the program says."""
    try:
        yield
    except (AttributeError, IndexError, KeyError, TypeError, ValueError, ZeroDivisionError) as fault:
        why = f"{type(fault).__name__}: {fault}"
        raise Fault(f"{place}: this network can't be used here ({why}); `./signal explain upgrade {place}` says whether the program takes it") from fault


def read_network(place: Place) -> Network:
    """The network in a file. Where a table lacks a key, or is none, the fault says what the program says of it: nothing else is tested."""
    try:
        return network_of(read_tables(place))
    except KeyError as fault:
        raise Fault(f"{place}: a table has no key {fault}") from fault
    except (TypeError, AttributeError) as fault:
        raise Fault(f"{place}: a key has a value of another kind than docs/FORMATS.md says; `./signal explain upgrade {place}` says which") from fault


def network_of(file: dict[str, Any]) -> Network:
    """The network of the tables that `tomllib` reads."""
    run = file["run"]
    return Network(
        Run(*_whole(run, "step", "look", "gap", "rounds"), run.get("split", False), *map(run.get, ("age", "hold", "recall", "act_step", "rate"))),
        tuple(Node(node["name"], tuple(map(_phase, node["phase"]))) for node in file["node"]),
        tuple(map(_link, file["link"])),
        tuple(Conflict(pair["a"], pair["b"]) for pair in file.get("conflict", [])),
        file.get("version"),
    )


def _whole(table: dict[str, Any], *keys: str) -> list[int]:
    """The whole numbers at these keys."""
    if any(not isinstance(table[key], int) for key in keys):
        raise TypeError
    return [table[key] for key in keys]


def _phase(table: dict[str, Any]) -> Phase:
    times = _whole(table, "least", "greatest", "yellow", "clear", "loss", "wait")
    return Phase(*times, tuple(table["links"]), table.get("skip", False), tuple(table.get("also", [])))


def _link(table: dict[str, Any]) -> Link:
    turns = tuple(Turn(turn["exit"], *_whole(turn, "share")) for turn in table.get("turn", []))
    ends = table.get("from"), table.get("to")
    own = table.get("weight", 1), tuple(table.get("yields", []))
    return Link(table["name"], *_whole(table, "travel", "sat"), *ends, turns, *own, *map(table.get, ("yield_sat", "walk", "cross")))
