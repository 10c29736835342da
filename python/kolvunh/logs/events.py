"""Events of controllers' logs, as software that measures signals reads them: docs/FORMATS.md, "Event log".

A stamp counts in tenths of a second from the begin of the run.
"""

import re
from collections.abc import Iterable
from dataclasses import dataclass
from datetime import datetime, timedelta
from enum import IntEnum

from ..faults import Fault
from ..records import Place, Record, number_in, quote, records_of, text_of

TENTH = timedelta(milliseconds=100)
FIRST_DAY = "2000-01-01 00:00:00.0"
HEADER = ("TimeStamp", "SignalID", "EventCode", "EventParam")
# The names that columns have in exports, in small letters, without blanks and marks
COLUMNS = {
    "TimeStamp": ("timestamp", "time", "eventtime"),
    "SignalID": ("signalid", "signal", "deviceid", "locationidentifier", "locationid"),
    "EventCode": ("eventcode", "code", "eventcodeid", "eventid"),
    "EventParam": ("eventparam", "param", "parameter", "eventparameter"),
}
STAMP = re.compile(r"(\d{4})-(\d\d)-(\d\d)[ T](\d\d):(\d\d):(\d\d)(?:\.(\d{1,9}))?")
AMERICAN = re.compile(r"(\d{1,2})/(\d{1,2})/(\d{4}) (\d{1,2}):(\d\d):(\d\d)(?:\.(\d{1,9}))?(?: (AM|PM))?")


class Code(IntEnum):
    """What an event says; its parameter is the number of a phase, a crossing, an overlap or a detector."""

    GREEN = 1
    YELLOW = 8
    CLEAR = 10
    CLEARED = 11
    WALK = 21
    CROSS = 22
    CROSSED = 23
    OVERLAP_GREEN = 61
    OVERLAP_YELLOW = 63
    OVERLAP_CLEAR = 64
    OVERLAP_CLEARED = 65
    OFF = 81
    ON = 82


@dataclass(frozen=True, slots=True)
class Event:
    """An event of a signal, `tenths` after the begin of the run; `line` is that of the file, 0 where it is of none."""

    tenths: int
    signal: str
    code: int
    parameter: int
    line: int = 0


@dataclass(frozen=True)
class Log:
    """The events of a file in its order, and the moment that is second 0 of the run."""

    begin: datetime
    events: list[Event]

    def stamp(self, tenths: int) -> str:
        """The time stamp of a moment of the run."""
        try:
            return stamp_text(self.begin + tenths * TENTH)
        except OverflowError as fault:
            raise Fault(f"second {tenths // 10} of the run is after the year 9999: write an earlier --begin") from fault


def stamp_text(moment: datetime) -> str:
    """A time stamp with tenths of a second."""
    return f"{moment:%Y-%m-%d %H:%M:%S}.{moment.microsecond // 100_000}"


def moment_of(text: str) -> datetime | None:
    """The moment of a time stamp, or None where it is none."""
    plain, american = STAMP.fullmatch(text), AMERICAN.fullmatch(text)
    if plain:
        year, month, day, hour, minute, second, part = plain.groups()
    elif american:
        month, day, year, hour, minute, second, part, half = american.groups()
        if half and not 1 <= int(hour) <= 12:
            return None
        hour = hour if half is None else str(int(hour) % 12 + 12 * (half == "PM"))
    else:
        return None
    numbers = map(int, (year, month, day, hour, minute, second, (part or "0")[:6].ljust(6, "0")))
    try:
        return datetime(*numbers)
    except ValueError:
        return None


def begin_of(text: str) -> datetime:
    """The moment that the words of a command name as second 0."""
    moment = moment_of(text)
    if moment is None or moment.microsecond:
        raise Fault(f"--begin is {quote(text)}, and has to be a whole second as 2026-05-04 07:00:00")
    return moment


def read_log(place: Place, begin: datetime | None = None) -> Log:
    """The log in a file; without a begin of the run that is the midnight before the first event."""
    records = records_of(text_of(place))
    columns = columns_of(place, next(records, None))
    found: list[tuple[datetime, str, int, int, int]] = []
    for row in records:
        if len(row.fields) <= max(columns):
            raise Fault(f"{place}:{row.line}: the row has {len(row.fields)} fields, and has to have those of the header")
        found.append(_row_of(place, row, columns))
    if not found:
        raise Fault(f"{place}: there are no events after the header")
    begin = begin or min(moment for moment, *_ in found).replace(hour=0, minute=0, second=0, microsecond=0)
    return Log(begin, [Event((moment - begin) // TENTH, *rest) for moment, *rest in found])


def columns_of(place: Place, header: Record | None) -> list[int]:
    """Where the four columns are."""
    if header is None:
        raise Fault(f"{place}: the file is empty, and has to begin with {','.join(HEADER)}")
    names = [re.sub(r"[^a-z]", "", name.lower()) for name in header.fields]
    places = []
    for column, known in COLUMNS.items():
        at = [place for place, name in enumerate(names) if name in known]
        if len(at) != 1:
            missing = f"has {len(at)} columns {column}" if at else f"has no column {column}"
            raise Fault(f"{place}:{header.line}: the header {missing}: write {','.join(HEADER)}, in any order")
        places += at
    return places


def _row_of(place: Place, row: Record, columns: list[int]) -> tuple[datetime, str, int, int, int]:
    stamp, signal, code, parameter = (row.fields[at].strip() for at in columns)
    moment = moment_of(stamp)
    if moment is None:
        raise Fault(f"{place}:{row.line}: the time stamp is {quote(stamp)}, and has to be one as 2026-05-04 07:00:00.1")
    numbers = (number_in(place, row.line, name, cell) for name, cell in (("the event code", code), ("the parameter", parameter)))
    return moment, signal, *numbers, row.line


def log_text(log: Log) -> str:
    """The text of a log."""
    return "\n".join([",".join(HEADER), *_lines(log, log.events)]) + "\n"


def _lines(log: Log, events: Iterable[Event]) -> Iterable[str]:
    return (f"{log.stamp(event.tenths)},{event.signal},{int(event.code)},{event.parameter}" for event in events)
