"""The text of a network file, from a network: docs/FORMATS.md, "Network file". What was read is written as the same network."""

import json
from collections.abc import Iterator, Mapping
from typing import Any

from .files import write_file
from .networks import Link, Network, Node, Phase, Run
from .records import Place


def network_text(network: Network) -> str:
    """The text of the network; `skip` and `weight` are there where the file has a version, or where they say something."""
    new = network.version is not None
    tables = [*_run_lines(network.run, network.version), *(line for node in network.nodes for line in _node_lines(node, new))]
    tables += [line for link in network.links for line in _link_lines(link, new)]
    for pair in network.conflicts:
        tables += ["", "[[conflict]]", *_lines({"a": pair.a, "b": pair.b})]
    head = [] if network.version is None else [f"version = {network.version}", ""]
    return "\n".join([*head, *tables, ""])


def write_network(network: Network, place: Place) -> None:
    """Writes the network to a file, which the program then reads."""
    write_file(place, network_text(network))


def _lines(keys: Mapping[str, Any]) -> Iterator[str]:
    """A line for each key that has a value."""
    return (f"{key} = {_value(value)}" for key, value in keys.items() if value is not None)


def _value(value: Any) -> str:
    """A number, a truth value, a text, or a list of texts."""
    if isinstance(value, tuple):
        return f"[{', '.join(map(_value, value))}]"
    return json.dumps(value, ensure_ascii=False)


def _run_lines(run: Run, version: int | None) -> list[str]:
    new = version is not None
    keys = {key: getattr(run, key) for key in ("step", "look", "gap", "rounds", "age", "hold", "recall", "act_step", "rate")}
    return ["[run]", *_lines(keys | {"split": run.split if run.split or new else None})]


def _node_lines(node: Node, new: bool) -> Iterator[str]:
    yield from ("", "[[node]]", f"name = {_value(node.name)}")
    for phase in node.phases:
        yield from ("", "[[node.phase]]", *_lines(_phase_keys(phase, new)))


def _phase_keys(phase: Phase, new: bool) -> dict[str, Any]:
    keys: dict[str, Any] = {key: getattr(phase, key) for key in ("least", "greatest", "yellow", "clear", "loss", "wait", "links")}
    return keys | {"skip": phase.skip if phase.skip or new else None, "also": phase.also or None}


def _link_lines(link: Link, new: bool) -> Iterator[str]:
    yield from ("", "[[link]]")
    yield from _lines({"name": link.name, "from": link.start, "to": link.end, "travel": link.travel, "sat": link.sat})
    yield from _lines({"weight": link.weight if link.weight != 1 or new else None})
    if link.turns:
        turns = (f"{{ exit = {_value(turn.exit)}, share = {turn.share} }}" for turn in link.turns)
        yield f"turn = [{', '.join(turns)}]"
    yield from _lines({"yields": link.yields or None, "yield_sat": link.yield_sat, "walk": link.walk, "cross": link.cross})
