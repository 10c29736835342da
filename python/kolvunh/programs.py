"""Runs the program `signal` and reads what it answers.

The program is that of the environment variable KOLVUNH_PROGRAM, the path of a file or words such as `ssh host signal`; else it is ./signal of
the repository that this package is in, or of the current folder.
"""

import os
import shlex
import subprocess
from collections.abc import Iterable, Sequence
from dataclasses import dataclass, field
from io import StringIO
from pathlib import Path
from typing import Any

from . import answers
from .explain import REFUSAL, lines_on
from .explain.calls import form_of
from .faults import Fault
from .frames import frame_of
from .queues import Queues, queues_of
from .records import quote
from .reports import Records, records_of_report

VARIABLE = "KOLVUNH_PROGRAM"
NOTICE = "signal: this program is not proved"
STATUSES = ("Done", "Rejected", "Usage", "BadInput", "ReadFault", "WriteFault", "NoMemory")


def split_words(text: str) -> list[str]:
    """The words of a text, as a shell divides them; the path of a file is one word, also where it has blanks."""
    return [text] if os.path.isfile(text) else shlex.split(text)


def program_words() -> list[str]:
    """The words with which the program is called, before those of the command."""
    named = os.environ.get(VARIABLE)
    if named:
        try:
            return split_words(named)
        except ValueError as fault:
            raise Fault(f"{VARIABLE} is {quote(named)}, which can't be divided into words: {fault}") from fault
    for folder in (Path(__file__).resolve().parents[2], Path.cwd()):
        if (folder / "signal").is_file() and os.access(folder / "signal", os.X_OK):
            return [str(folder / "signal")]
    raise Fault(f"there is no ./signal here: set {VARIABLE} to the path of the program")


def built_program_words() -> list[str]:
    """The same for many calls: the program that a release has or that is built in the repository before ./signal, which looks each time whether it is current."""
    root = Path(__file__).resolve().parents[2]
    built = next((path for path in (root / "bin/signal_program", root / "crates/signal_program/out/signal_program") if path.is_file()), None)
    return [str(built)] if built and not os.environ.get(VARIABLE) else program_words()


@dataclass(frozen=True)
class Report:
    """What a call of the program answered.

    `status` is 0 where the work is done, 1 where a certificate or a report is rejected, else that of a refusal. `refusal` is then the
    program's line, and `explanation` has the lines on it. `text` is what was written to standard output. `tables` has what that says as
    lists of dataclasses, by name: `steps`, `plans`, `greens`, `links` and `totals` of a report; `changes` and `most` of queues; `totals`
    of `compare`, `scale` and `spill`; what `decide`, `plan`, `bounds` and `grid` write. Other texts have no table. `notice` is the line with which
    ./signal says that the program is not proved, None where it says nothing of it.
    """

    words: tuple[str, ...]
    status: int
    text: str
    refusal: str | None = None
    explanation: tuple[str, ...] = ()
    tables: dict[str, list[Any]] = field(default_factory=dict)
    notice: str | None = None

    def table(self, name: str) -> list[Any]:
        """The table of this name; a fault where there is none, with the refusal where the call was refused."""
        self.require_answer()
        if name not in self.tables:
            have = ", ".join(self.tables) or "none"
            raise Fault(f"`{self.words[0]}` has no table `{name}`: it has {have}")
        return self.tables[name]

    def require_answer(self) -> None:
        """Raises a fault where the call was refused."""
        if self.status > 1:
            raise Fault("; ".join([self.refusal or f"the program ended with status {self.status}", *self.explanation]))

    @property
    def records(self) -> Records:
        """The records of a report by their kinds."""
        kinds = ("steps", "plans", "greens", "links")
        return Records(*(self.table(kind) for kind in kinds), next(iter(self.table("totals")), None))

    @property
    def queues(self) -> Queues:
        """What `queues` wrote."""
        return Queues(self.table("changes"), self.table("most"))

    def frame(self, name: str) -> Any:
        """A table as a frame of pandas; a fault where pandas is not installed."""
        return frame_of(self.table(name))

    def frames(self) -> dict[str, Any]:
        """All tables as frames of pandas."""
        self.require_answer()
        return {name: frame_of(rows) for name, rows in self.tables.items()}


def run(words: Iterable[str | os.PathLike[str]], program: Sequence[str] | None = None) -> Report:
    """Calls the program by the words of a command, as `run(["turns", "net.toml", "arr.csv"])`, and reads its answer.

    A refusal raises nothing: it is in the report. That there is no program to run, or that it ended by a signal, raises a fault.
    """
    called = tuple(os.fspath(word) for word in words)
    how: dict[str, Any] = {"encoding": "utf-8", "errors": "surrogateescape", "check": False}
    try:
        ended = subprocess.run([*(program or program_words()), *called], capture_output=True, **how)
    except OSError as fault:
        raise Fault(f"the program can't be run: {fault}") from fault
    if ended.returncode not in range(len(STATUSES)):
        last = (ended.stderr.strip().splitlines() or ["nothing is on its standard error"])[-1]
        raise Fault(f"the program ended with status {ended.returncode}: {last}")
    lines = ended.stderr.splitlines()
    refusal = next((line for line in lines if REFUSAL.fullmatch(line) or line == "signal: no memory"), None)
    explanation = tuple(lines_on(called, refusal)) if refusal else ()
    tables = _tables(called, ended.stdout) if ended.returncode == 0 else {}
    notice = next((line for line in lines if line.startswith(NOTICE)), None)
    return Report(called, ended.returncode, ended.stdout, refusal, explanation, tables, notice)


def _tables(words: tuple[str, ...], text: str) -> dict[str, list[Any]]:
    """The tables of an answer of a command."""
    place, command = f"the answer of `{words[0]}`", words[0]
    if command in ("turns", "totals", "net", "replay", "actuate", "fixed") or form_of(words)[-1:] == ["actuated"]:
        found = records_of_report(place, text)
        totals = [found.totals] if found.totals else []
        return {"steps": found.steps, "plans": found.plans, "greens": found.greens, "links": found.links, "totals": totals}
    if command == "queues":
        queues = queues_of(place, text)
        return {"changes": queues.changes, "most": queues.most}
    reader = answers.READERS.get(command)
    return reader(StringIO(text)) if reader else {}
