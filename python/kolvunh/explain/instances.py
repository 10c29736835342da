"""What is wrong with the text of an instance or of a certificate: docs/FORMATS.md, "Instance text" and "Certificate text"."""

import re
from math import comb

from ..records import plural, quote, text_of
from .networks import BEGINS, HEADERS
from .wording import at, thousands

NUMBER = re.compile(r"0|[1-9][0-9]*")
TIMES = ("least", "greatest", "yellow", "clear", "loss", "wait")
BOUNDS = {"least": (1, 120), "greatest": (1, 240), "yellow": (1, 10), "clear": (0, 10), "loss": (0, 10), "wait": (1, 3600)}
MOST_SIZE, MOST_WEIGHT, MOST_SECOND, MOST_LENGTH = 20_000_000, 20, 100_000, 240
MOST_CLUSTERS, MOST_ORDERS = 40, 50_000
MOST_AT, MOST_DELAY, MOST_NUMBER = 104_000, 57_600_000_000_000, 2**32 - 1


class InstanceFile:
    """The lines of the text of an instance, or of a certificate, where the instance begins on its second line."""

    def __init__(self, file: str) -> None:
        self.file = file
        self.text = text_of(file, "utf-8")  # a byte order mark is no part of such a text
        *self.lines, self.rest = self.text.split("\n")
        self.front = 1 if self.lines and self.lines[0].startswith("certificate") else 0

    def fields(self, line: int) -> list[str]:
        """The fields of a line, from 1."""
        return self.lines[line - 1].split(" ")

    def header(self, line: int, begin: str) -> int | None:
        """The number after the word with which a line begins."""
        fields = self.fields(line) if line <= len(self.lines) else []
        return int(fields[1]) if len(fields) == 2 and fields[0] == begin and NUMBER.fullmatch(fields[1]) else None

    @property
    def version(self) -> int:
        """The version that the instance says."""
        return self.header(self.front + 1, "instance") or 0

    @property
    def phases(self) -> int:
        """How many phases the instance has."""
        return self.header(self.front + 2, "phases") or 0

    def phase_line(self, phase: int) -> int:
        """The line of a phase, from 0."""
        return self.front + 3 + phase

    def times(self, phase: int) -> dict[str, int]:
        """The six times of a phase."""
        return dict(zip(TIMES, map(int, self.fields(self.phase_line(phase))[1:7])))

    @property
    def head_line(self) -> int:
        """The line of the head."""
        return self.phase_line(self.phases)

    def clusters(self) -> dict[int, list[tuple[int, list[int]]]]:
        """The clusters of each phase: the line, and size, load, arrival and length."""
        found: dict[int, list[tuple[int, list[int]]]] = {phase: [] for phase in range(self.phases)}
        for number in range(self.head_line + 1, len(self.lines) + 1):
            fields = self.fields(number)
            if fields[0] != "cluster":
                break
            phase, size, *further = map(int, fields[1:])
            found[phase].append((number, [size, *further] if self.version >= 3 else [size, size, *further]))
        return found

    def end_line(self) -> int:
        """The line `end` of the instance."""
        return next(number for number in range(self.head_line + 1, len(self.lines) + 1) if self.lines[number - 1] == "end")

    def say(self, line: int | None, words: str) -> str:
        """A line of the explanation."""
        return at(self.file, line, words)


def instance_fault(file: str, code: list[str], is_certificate: bool) -> list[str]:
    """What the code of an instance or of a certificate means there."""
    text = InstanceFile(file)
    match code:
        case ["line", line]:
            return line_fault(text, int(line), is_certificate)
        case ["plan", "skips"]:
            marks = sum(text.fields(text.phase_line(phase))[-1] == "skip" for phase in range(text.phases))
            words = f"{marks} of the {text.phases} phases are marked `skip`, and {wanted_rings(text)} to be `ring`"
            free = "; with all of them `skip` and any phase after any other it is a text of version 4"
            return [text.say(text.phase_line(0), words + (free if marks == text.phases else ""))]
        case ["plan", phase, time]:
            return time_fault(text, int(phase), time)
        case ["head", _]:
            return head_fault(text)
        case ["cluster" | "order", phase, place]:
            return cluster_fault(text, int(phase), int(place))
        case ["many"]:
            return many_fault(text)
        case ["entry", "order", place]:
            return order_fault(text, int(place))
        case ["entry", place]:
            return entry_fault(text, int(place))
    return []


def time_fault(text: InstanceFile, phase: int, time: str) -> list[str]:
    """A time of a phase that is out of its bounds."""
    times = text.times(phase)
    (least, most), found = BOUNDS[time], times[time]
    words = None
    if not least <= found <= most:
        words = f"has to be {least} to {thousands(most)} seconds"
    elif time == "greatest" and found < times["least"]:
        words = f"has to be at least its least, which is {times['least']}"
    elif time == "loss" and found >= times["greatest"]:
        words = f"has to be less than its greatest, which is {times['greatest']}"
    place = TIMES.index(time) + 2
    return [text.say(text.phase_line(phase), f"{time} of phase {phase} (field {place}) is {found}, and {words}")] if words else []


def head_fault(text: InstanceFile) -> list[str]:
    """A head whose phase is none, or whose times do not fit."""
    phase, since, at = map(int, text.fields(text.head_line)[1:4])
    words = None
    if phase >= text.phases:
        words = f"the head's phase is {phase}, and the phases are 0 to {text.phases - 1}"
    elif since > MOST_SECOND:
        words = f"the head's green began in second {since}, and may begin by second {thousands(MOST_SECOND)}"
    elif not since <= at <= since + text.times(phase)["greatest"]:
        words = f"the head's AT is {at}, and has to be from SINCE, {since}, to SINCE + greatest, {since + text.times(phase)['greatest']}"
    return [text.say(text.head_line, words)] if words else []


def cluster_fault(text: InstanceFile, phase: int, place: int) -> list[str]:
    """A cluster out of its bounds, or one that arrives before the one before it has."""
    clusters = text.clusters()[phase]
    line, (size, load, arr, length) = clusters[place - 1]
    words = None
    if not 1 <= size <= MOST_SIZE:
        words = f"its SIZE is {size}, and has to be 1 to {thousands(MOST_SIZE)} thousandths of a vehicle"
    elif not size <= load <= MOST_WEIGHT * size:
        words = f"its LOAD is {load}, and has to be its SIZE to {MOST_WEIGHT} times its SIZE: {size} to {MOST_WEIGHT * size}"
    elif arr > MOST_SECOND:
        words = f"its ARR is {arr}, and has to be 0 to {thousands(MOST_SECOND)}"
    elif not 1 <= length <= MOST_LENGTH:
        words = f"its LEN is {length}, and has to be 1 to {MOST_LENGTH} seconds"
    elif place > 1:
        before, (_, _, first, lasts) = clusters[place - 2]
        words = f"its ARR is {arr}, and the one before it (line {before}) has arrived whole in second {first} + {lasts} = {first + lasts}"
        words = f"{words}: ARR has to be at least that" if arr < first + lasts else None
    return [text.say(line, f"cluster {place} of phase {phase}: {words}")] if words else []


def many_fault(text: InstanceFile) -> list[str]:
    """More clusters or orders than a planning takes."""
    counts = [len(of_phase) for of_phase in text.clusters().values()]
    orders, together = 1, 0
    for count in counts:
        together += count
        orders *= comb(together, count)
    if together > MOST_CLUSTERS:
        return [text.say(text.head_line + 1, f"there are {together} clusters, and may be at most {MOST_CLUSTERS}")]
    words = f"{' and '.join(map(str, counts))} clusters of the phases have {thousands(orders)} orders"
    return [text.say(text.head_line + 1, f"{words}, and may have at most {thousands(MOST_ORDERS)}")] if orders > MOST_ORDERS else []


def entries(text: InstanceFile) -> list[tuple[int, list[int]]]:
    """The entries of a certificate: the line, and counts, phase, since, at and delay."""
    first = text.end_line() + 2
    lines = range(first, len(text.lines) + 1)
    return [(line, list(map(int, text.fields(line)[1:]))) for line in lines if text.lines[line - 1].startswith("entry ")]


def entry_fault(text: InstanceFile, place: int) -> list[str]:
    """An entry that is out of its bounds."""
    line, numbers = entries(text)[place - 1]
    counts, (phase, since, at, delay) = numbers[:-4], numbers[-4:]
    words = None
    for number, (count, clusters) in enumerate(zip(counts, text.clusters().values())):
        if count > len(clusters):
            words = f"its count of phase {number} is {count}, and that phase has {plural(len(clusters), 'cluster')}"
            break
    else:
        if phase >= text.phases:
            words = f"its PHASE is {phase}, and the phases are 0 to {text.phases - 1}"
        elif not since <= at <= since + text.times(phase)["greatest"]:
            words = f"its AT is {at}, and has to be from SINCE, {since}, to SINCE + greatest, {since + text.times(phase)['greatest']}"
        elif at > MOST_AT:
            words = f"its AT is {at}, and has to be at most {thousands(MOST_AT)}"
        elif delay > MOST_DELAY:
            words = f"its DELAY is {delay}, and has to be at most {thousands(MOST_DELAY)}"
    return [text.say(line, f"entry {place}: {words}")] if words else []


def order_fault(text: InstanceFile, place: int) -> list[str]:
    """An entry whose key is not above the key before it."""
    (before, lower), (line, upper) = entries(text)[place - 2 : place]
    if upper[:-1] > lower[:-1]:
        return []
    key, is_same = " ".join(map(str, upper[:-1])), upper[:-1] == lower[:-1]
    than = "the same as" if is_same else "below"
    words = f"its key {key} is {than} that of the entry before it (line {before}): keys have to rise, by counts, phase, SINCE, AT"
    return [text.say(line, f"entry {place}: {words}")]


def line_fault(text: InstanceFile, line: int, is_certificate: bool) -> list[str]:
    """A line that has not the form of its place."""
    if line > len(text.lines):
        return cut_short(text, line, is_certificate)
    found = text.lines[line - 1]
    first = found.replace('"', "").rstrip("\r")
    other = HEADERS.get(first) or next((kind for begin, kind in BEGINS.items() if first.startswith(begin)), None)
    if line == 1 and (other or first.startswith("[")):
        wanted = "a certificate" if is_certificate else "the text of an instance"
        if other != wanted:
            return [text.say(1, f"this is {other or 'a network file (TOML)'}, and {wanted} is wanted here")]
    wanted = wanted_at(text, line, is_certificate)
    if wanted is None:
        return []
    if wanted.startswith("nothing"):
        return [text.say(line, f"{quote(found)}: {wanted}")]
    why = why_not(found, wanted) or why_not_here(text, line)
    return [text.say(line, f"{quote(found)}: {wanted} is wanted here{why}")]


def wanted_rings(text: InstanceFile) -> str:
    """How many phases of a text of its version are unmarked."""
    return "exactly one has" if text.version == 5 else "at least two have"


def cut_short(text: InstanceFile, line: int, is_certificate: bool) -> list[str]:
    """A text that stops before its last line, or whose last line has no line feed."""
    if not text.text:
        return [text.say(None, "the file is empty")]
    wanted = wanted_at(text, line, is_certificate)
    if not text.rest:
        return [text.say(line, f"the file ends before this line, and {wanted} is wanted here")] if wanted else []
    if text.rest == "end" and wanted and wanted.endswith("or `end`"):
        return [text.say(line, "the last line, `end`, has no line feed at its end")]
    if "\r" in text.rest:
        return [text.say(line, "lines end with a carriage return here, and have to end with a line feed alone")]
    return [text.say(line, f"{quote(text.rest)}: {wanted} is wanted here, with a line feed at its end")] if wanted else []


def wanted_at(text: InstanceFile, line: int, is_certificate: bool) -> str | None:
    """The form of a line, where all lines before it have theirs."""
    if is_certificate and line == 1:
        return "`certificate 1`"
    place = line - (1 if is_certificate else 0)
    if place == 1:
        return "`instance V` with V = 1, 2, 3, 4 or 5"
    if place == 2:
        return "`phases P` with P = 2, 3 or 4"
    if place <= 2 + text.phases:
        mark = {1: "", 4: " skip"}.get(text.version, " ring` or `.. skip")
        return f"`phase LEAST GREATEST YELLOW CLEAR LOSS WAIT{mark}`"
    if place == 3 + text.phases:
        return "`head PHASE SINCE AT fresh` or `.. kept`"
    return wanted_after_head(text, line, is_certificate)


def wanted_after_head(text: InstanceFile, line: int, is_certificate: bool) -> str | None:
    """The form of a line after the head's."""
    before = text.lines[text.head_line : line - 1]
    load = " LOAD" if text.version >= 3 else ""
    if "end" not in before:
        return f"`cluster PHASE SIZE{load} ARR LEN` with PHASE 0 to {text.phases - 1}, none below the one before, or `end`"
    if not is_certificate:
        return "nothing comes after `end`"
    after = before[before.index("end") + 1 :]
    if not after:
        return "`answer none` or `answer D` and the phases of the sequence"
    if "end" in after:
        return "nothing comes after the last `end`"
    counts = " ".join(f"C{phase}" for phase in range(text.phases))
    return f"`entry {counts} PHASE SINCE AT DELAY` or `end`"


def why_not(found: str, wanted: str) -> str:
    """What strikes the eye in a line that has not its form."""
    if found.endswith("\r"):
        return ": lines end with a line feed alone, and this one has a carriage return too"
    if found.startswith("\ufeff"):
        return ": there is a byte order mark before it"
    if not found:
        return ": there are no empty lines"
    if found.startswith("#") or "#" in found:
        return ": there are no comments"
    if "\t" in found or "  " in found or found != found.strip():
        return ": fields have one space between them, and no other blanks"
    fields = found.split(" ")
    for field in fields[1:]:
        if re.fullmatch(r"0[0-9]+", field):
            return f": {field} has a zero in front"
        if re.fullmatch(r"[-+]?[0-9]*[.,]?[0-9]+", field) and not field.isdigit():
            return f": {field} is no whole number from 0 on"
        if field.isdigit() and int(field) > MOST_NUMBER and fields[0] not in ("answer", "entry"):
            return f": {thousands(int(field))} is too great"
    form = next((form.split(" ") for form in re.findall(r"`([^`]*)`", wanted) if form.split(" ")[0] == fields[0]), None)
    if form and len(form) != len(fields) and fields[0] != "answer":
        return f": it has {plural(len(fields), 'field')}, and has to have {len(form)}"
    return ""


def why_not_here(text: InstanceFile, line: int) -> str:
    """What is wrong with a line that has the form of one of its kind, for the lines before it."""
    fields = text.fields(line)
    before = text.fields(line - 1) if line > 1 else []
    if fields[0] == "phase" and fields[-1] == "ring" and text.version == 2:
        return ": a text of version 2 has a phase with `skip`; without any it is of version 1, and has no `ring`"
    if fields[0] == "phase" and fields[-1] == "ring" and text.version == 4:
        return ": in a text of version 4 each phase is marked `skip`; with one `ring` it is of version 5, with more of 2 or 3"
    if fields == ["end"] and text.version == 3:
        return ": a text of version 3 has a cluster whose LOAD is not its SIZE; without any it is of version 1 or 2, and has no LOAD"
    if fields[0] == "cluster" and fields[1].isdigit() and int(fields[1]) >= text.phases:
        return f": its PHASE is {fields[1]}"
    is_second = fields[0] == "cluster" and before[:1] == ["cluster"]
    if is_second and fields[1].isdigit() and int(fields[1]) < int(before[1]):
        return f": its PHASE is {fields[1]}, and that of the line before it is {before[1]}"
    return ""
