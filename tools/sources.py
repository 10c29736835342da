#!/usr/bin/env python3
"""Says of which sources the program `signal` is made, in a line: tools/sources.py

The sum is that of the files of its crates which a proof reads, those of wrong bodies left out: the SHA-256 of a line for each, in the order of
their paths, with the file's own SHA-256, two blanks and its path. `rt --version` names the toolchain.
"""

import hashlib
import subprocess
from dataclasses import dataclass
from pathlib import Path

from build_program import PROGRAM
from crates import ROOT, at_or_below, crate_lines

NOT_READ = {"out", "must-fail", "wrong-bodies"}


@dataclass(frozen=True)
class Sources:
    """How many files of how many crates there are, their sum, and the toolchain on this machine."""

    files: int
    crates: int
    sum: str
    kit: str

    def __str__(self) -> str:
        return f"{self.files} files of {self.crates} crates with the sum {self.sum}, by {self.kit}"


def files_of(root: Path, crate: str) -> list[Path]:
    """The files of a crate that its proof reads."""
    folder = root / "crates" / crate
    return [path for path in folder.rglob("*") if path.is_file() and path.relative_to(folder).parts[0] not in NOT_READ]


def kit() -> str:
    """What the toolchain says that it is."""
    try:
        return subprocess.run(["rt", "--version"], capture_output=True, text=True, check=True).stdout.strip()
    except (OSError, subprocess.CalledProcessError):
        return "a toolchain that is not on the path"


def sources_of(root: Path = ROOT) -> Sources:
    """The sources of the program in a clone."""
    crates = at_or_below(PROGRAM, crate_lines((root / "crates.txt").read_text(encoding="utf-8")))
    paths = sorted(path for crate in crates for path in files_of(root, crate))
    lines = [f"{hashlib.sha256(path.read_bytes()).hexdigest()}  {path.relative_to(root).as_posix()}\n" for path in paths]
    return Sources(len(paths), len(crates), hashlib.sha256("".join(lines).encode()).hexdigest(), kit())


if __name__ == "__main__":
    print(sources_of())
