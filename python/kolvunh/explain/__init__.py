"""Says of a refusal of the program which file, line, name and key it is about, what was found and what is wanted.

The line of the program has a code, as `signal: bad 1 shares 3`. The files are read again, by Python's own readers, and of the code that the
program gave it is looked for what is so in them. Where nothing is found, nothing is said. Nothing here is proved.
"""

import os
import re
import stat
import subprocess
from collections.abc import Sequence
from pathlib import Path

from ..arrivals import MOST_SUM, read_arrivals
from ..records import plural, quote
from .calls import KINDS, files_of, form_of, usage
from .instances import instance_fault
from .networks import NetworkFile, network_fault
from .records import records_fault
from .states import state_fault
from .wording import at, meant, thousands

MOST_BYTES = 100_663_296
REFUSAL = re.compile(r"signal: (usage|bad .*|cannot read \d+|cannot write)")


def lines_on(words: Sequence[str], line: str) -> list[str]:
    """One or two lines on a refusal of a call, by the line that the program wrote; none where nothing is found."""
    found = REFUSAL.fullmatch(line.strip())
    if found is None or not all(can_be_read_again(file) for _, file in files_of(words)):
        return []
    try:
        return _lines_on_code(list(words), found[1].split())
    except Exception:  # a file that has changed, or is not as the code says: then nothing is known of it
        return []


def _lines_on_code(words: list[str], said: list[str]) -> list[str]:
    match said:
        case ["usage"]:
            return usage(words)
        case ["cannot", "write"]:
            return ["standard output could not be written: a pipe was closed, or a disk is full; what was written is no whole answer"]
        case ["cannot", "read", number]:
            return unread(*files_of(words)[int(number) - 1])
        case ["bad", "node"]:
            return bad_node(words)
        case ["bad", "round"]:
            return bad_round(words)
        case ["bad", "factor"]:
            return bad_factor(words)
        case ["bad", number, *code]:
            return bad_text(words, int(number), code)
    return []


def bad_text(words: list[str], number: int, code: list[str]) -> list[str]:
    """What the code of a text means there."""
    files = files_of(words)
    name, file = files[number - 1]
    if code == ["long"]:
        size = os.stat(file).st_size
        words_of = f"the file has {thousands(size)} bytes, and may have at most {thousands(MOST_BYTES)}"
        return [at(file, None, words_of)] if size > MOST_BYTES else []
    if name == "FILE":
        return instance_fault(file, code, words[0] == "check")
    if name == "NET":
        return network_fault(file, code)
    if name == "STATE":
        return state_fault(file, files[0][1], code)
    return records_fault(file, KINDS[name], files[0][1], code)


def unread(name: str, file: str) -> list[str]:
    """Why a file can't be read."""
    path = Path(file)
    if not file:
        return [f"{name} is an empty word, and has to name a file"]
    if path.is_dir():
        return [at(file, None, f"this is a folder, and {name} has to name a file")]
    if path.exists():
        return [at(file, None, "this file may not be read")] if not os.access(file, os.R_OK) else []
    folder = path.parent
    if not folder.is_dir():
        return [at(file, None, f"there is no folder {quote(str(folder))}, seen from {quote(os.getcwd())}")]
    hint = meant(path.name, (other.name for other in folder.iterdir()))
    return [at(file, None, f"there is no such file, seen from {quote(os.getcwd())}{hint}")]


def bad_node(words: list[str]) -> list[str]:
    """A node that the network has not."""
    word = dict(zip(form_of(words), words))
    net = NetworkFile(word["NET"])
    names = net.names("node")
    if word["NODE"] in names:
        return []
    hint = " (it is a link)" if word["NODE"] in net.names("link") else meant(word["NODE"], names)
    listed = ", ".join(names[:8]) + (" .." if len(names) > 8 else "")
    return [at(word["NET"], None, f"the network has no node {quote(word['NODE'])}{hint}; its nodes are {listed}")]


def bad_round(words: list[str]) -> list[str]:
    """A round that the run has not."""
    word = dict(zip(form_of(words), words))
    net = NetworkFile(word["NET"])
    rounds = net.tables["run"]["rounds"]
    words_of = f"ROUND is {word['ROUND']}, and the network has {plural(rounds, 'round')}: 0 to {rounds - 1}"
    return [at(word["NET"], net.lines.line(("run", "rounds")), words_of)] if int(word["ROUND"]) >= rounds else []


def bad_factor(words: list[str]) -> list[str]:
    """A factor by which the arrivals bring too much."""
    word = dict(zip(form_of(words), words))
    total = sum(arrival.amount for arrival in read_arrivals(word["ARR"]))
    factors = range(int(word["FROM"]), int(word["TO"]) + 1, int(word["STEP"]))
    most = MOST_SUM * 1000 // total
    first = next((factor for factor in factors if total * factor // 1000 > MOST_SUM), None)
    words_of = f"the amounts add up to {thousands(total)}; scaled by {first} thousandths they are above {thousands(MOST_SUM)}"
    return [at(word["ARR"], None, f"{words_of}: a factor may be at most {most}")] if first is not None else []


def can_be_read_again(file: str) -> bool:
    """Whether a file is the same when it is read again: it is a file, a folder, or not there, and no pipe."""
    try:
        kind = os.stat(file)
    except OSError:
        return True
    return stat.S_ISREG(kind.st_mode) or stat.S_ISDIR(kind.st_mode) or os.path.samefile(file, os.devnull)


def refusal_of(program: Sequence[str], words: Sequence[str]) -> tuple[int, str | None]:
    """Runs a call again, and gives its status and the line of its refusal; what it writes is not kept."""
    run = subprocess.run([*program, *words], stdout=subprocess.DEVNULL, stderr=subprocess.PIPE, check=False)
    lines = run.stderr.decode(errors="replace").splitlines()
    return run.returncode, next((line for line in lines if REFUSAL.fullmatch(line)), None)


def explain(program: Sequence[str], words: Sequence[str], status: int) -> list[str]:
    """The lines on a call that ended with this status. The call is made again where only its line says what is wrong."""
    if status == 2:
        return lines_on(words, "signal: usage")
    if status == 5:
        return lines_on(words, "signal: cannot write")
    if status not in (3, 4) or not all(can_be_read_again(file) for _, file in files_of(words)):
        return []  # a pipe that was read is empty now
    again, line = refusal_of(program, words)
    return lines_on(words, line) if line is not None and again == status else []
