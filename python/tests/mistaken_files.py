"""The files of the calls in mistakes/table.toml: those of the folder, those that differ from one by changes.txt, and those that are made here."""

import re
import shutil
from pathlib import Path

FOLDER = Path(__file__).resolve().parent / "mistakes"
CHANGES, TABLE = FOLDER / "changes.txt", FOLDER / "table.toml"
HEADING = re.compile(r"== (\S+) from (\S+)")
CHANGE = re.compile(r"(\d+)(?:\.\.(\d+))? ([-+])(?: (.*))?")


class MisplacedChange(Exception):
    """A change that its base has no place for."""


def changed(base: list[str], changes: list[str]) -> list[str]:
    """The lines of a base after its changes."""
    kept: list[str | None] = [None, *base]
    after: dict[int, list[str]] = {}
    for change in changes:
        first, last, sign, text = CHANGE.fullmatch(change).groups(default="")
        if sign == "+":
            after.setdefault(int(first), []).append(text)
            continue
        numbers = range(int(first), int(last or first) + 1)
        if not last and base[int(first) - 1] != text:
            raise MisplacedChange(change)
        for number in numbers:
            kept[number] = None
    return [line for number, own in enumerate(kept) for line in (own, *after.get(number, ())) if line is not None]


def sections() -> dict[str, tuple[str, list[str]]]:
    """Of each file that changes.txt has, its base and its changes."""
    found: dict[str, tuple[str, list[str]]] = {}
    changes: list[str] = []
    for line in CHANGES.read_text(encoding="utf-8").splitlines():
        if heading := HEADING.fullmatch(line):
            changes = []
            found[heading[1]] = heading[2], changes
        elif line and not line.startswith("#"):
            changes.append(line)
    return found


def more_lanes(network: str) -> str:
    """The worked network with fifteen entries more at the second phase of its second node."""
    names = [f"s{number}" for number in range(15)]
    block = network.split("\n\n")
    lane = next(part for part in block if 'name = "sb"' in part)
    place = next(number for number, part in enumerate(block) if 'name = "xb"' in part)
    block[place:place] = [lane.replace('"sb"', f'"{name}"') for name in names]
    return "\n\n".join(block).replace('links = ["sb"]', "links = [" + ", ".join(f'"{name}"' for name in ["sb", *names]) + "]")


def vehicles(seconds: int) -> str:
    """Arrivals of a thousand vehicles in each second."""
    return "second,link,amount\n" + "".join(f"{second},sa,1000000\n" for second in range(seconds))


def write_mistaken_files(folder: Path) -> None:
    """All files of the calls, in a folder."""
    for path in FOLDER.iterdir():
        if path not in (CHANGES, TABLE):
            shutil.copyfile(path, folder / path.name)
    for name, (base, changes) in sections().items():
        lines = (folder / base).read_text(encoding="utf-8").splitlines()
        (folder / name).write_text("\n".join(changed(lines, changes)) + "\n", encoding="utf-8")
    network = (FOLDER / "net.toml").read_text(encoding="utf-8")
    made = {
        "arrivals_that_are_too_many.csv": vehicles(2001),
        "instance_without_a_last_line_feed.txt": (FOLDER / "instance.txt").read_text(encoding="utf-8").removesuffix("\n"),
        "latin_letters.toml": network.replace("\n\n[[node]]", "\n# Straße\n[[node]]", 1),
        "many_vehicles.csv": vehicles(300),
        "seventeen_lanes.toml": more_lanes(network),
    }
    for name, text in made.items():
        (folder / name).write_text(text, encoding="latin-1")
