"""On which lines the tables and keys of a TOML text begin.

A path names a table, a key or an element of a list: `("node", 0, "phase", 1, "least")`. Lines count from 1. Where a text is no TOML, what
comes after has no lines.
"""

import bisect
import re
import tomllib
from typing import NamedTuple

Path = tuple[str | int, ...]

_BARE = re.compile(r"[A-Za-z0-9_-]+")
_SPACE = re.compile(r"[ \t]*")
_BLANK = re.compile(r"(?:[ \t\r\n]|#[^\n]*)*")
_PLAIN = re.compile(r"[^,\]}\n#]*")
_STRINGS = {
    mark: re.compile(form, re.DOTALL)
    for mark, form in {
        '"""': r'"""(?:[^\\]|\\.)*?"{3,5}(?!")',
        "'''": r"'''.*?'{3,5}(?!')",
        '"': r'"(?:[^"\\\n]|\\.)*"',
        "'": r"'[^'\n]*'",
    }.items()
}
_NO_SECONDS = re.compile(r"[^:]*[0-9]:[0-9]{2}(?![:0-9])")
_STOP = re.compile(r" \(at (?:line (\d+), column \d+|end of document)\)$")
_NEWER = re.compile(r"(?<!\\)(?:\\\\)*\\[ex]")


class TomlLines:
    """The lines of a text by path. `newer` is the first line that has what TOML 1.1 has and TOML 1.0 has not, or None."""

    def __init__(self, text: str) -> None:
        self.newer: int | None = None
        self.lines: dict[Path, int] = {}
        self._text, self._at = text, 0
        self._ends = [place for place, letter in enumerate(text) if letter == "\n"]
        self._counts: dict[Path, int] = {}
        try:
            self._document()
        except ValueError:
            pass

    def line(self, path: Path) -> int | None:
        """The line of a path, or of the next table around it that has one."""
        while path and path not in self.lines:
            path = path[:-1]
        return self.lines.get(path)

    def _now(self) -> int:
        return bisect.bisect_left(self._ends, self._at) + 1

    def _note(self, path: Path) -> None:
        self.lines.setdefault(path, self._now())

    def _note_newer(self) -> None:
        if self.newer is None:
            self.newer = self._now()

    def _skip(self, form: re.Pattern[str]) -> str:
        """Passes over what has this form here, and gives it."""
        found = form.match(self._text, self._at)
        if found is None:
            raise ValueError
        self._at = found.end()
        return found.group()

    def _takes(self, mark: str) -> bool:
        if not self._text.startswith(mark, self._at):
            return False
        self._at += len(mark)
        return True

    def _needs(self, mark: str) -> None:
        if not self._takes(mark):
            raise ValueError

    def _document(self) -> None:
        prefix: Path = ()
        while self._skip(_BLANK) is not None and self._at < len(self._text):
            begin = self._at
            if self._takes("[["):
                prefix = self._header("]]", begin)
            elif self._takes("["):
                prefix = self._header("]", begin)
            else:
                self._pair(prefix)

    def _header(self, end: str, begin: int) -> Path:
        """The path of the table that a header begins, which stands at this place."""
        *front, last = self._key()
        self._needs(end)
        path: Path = ()
        for part in front:
            path = self._newest((*path, part))
        path = (*path, last)
        if end == "]]":
            self._counts[path] = self._counts.get(path, 0) + 1
        after, self._at = self._at, begin
        self._note(path)
        path = self._newest(path)
        self._note(path)
        self._at = after
        return path

    def _newest(self, path: Path) -> Path:
        """The last table of a list of tables; any other path is itself."""
        return (*path, self._counts[path] - 1) if path in self._counts else path

    def _key(self) -> list[str]:
        parts = []
        while True:
            self._skip(_SPACE)
            if self._text[self._at : self._at + 1] in ('"', "'"):
                parts.append(self._string()[1:-1])
            else:
                parts.append(self._skip(_BARE))
            self._skip(_SPACE)
            if not self._takes("."):
                return parts

    def _pair(self, prefix: Path) -> None:
        begin = self._at
        parts = self._key()
        after, self._at = self._at, begin
        for part in parts:
            prefix = (*prefix, part)
            self._note(prefix)
        self._at = after
        self._needs("=")
        self._skip(_SPACE)
        self._value(prefix)

    def _string(self) -> str:
        mark = next((mark for mark in _STRINGS if self._text.startswith(mark, self._at)), None)
        if mark is None:
            raise ValueError
        found = self._skip(_STRINGS[mark])
        if mark.startswith('"') and _NEWER.search(found):
            self._note_newer()
        return found

    def _value(self, path: Path) -> None:
        first = self._text[self._at : self._at + 1]
        if first in ('"', "'"):
            self._string()
        elif first == "[":
            self._array(path)
        elif first == "{":
            self._inline(path)
        elif _NO_SECONDS.match(self._skip(_PLAIN)):
            self._note_newer()

    def _array(self, path: Path) -> None:
        self._needs("[")
        place = 0
        self._skip(_BLANK)
        while not self._takes("]"):
            self._note((*path, place))
            self._value((*path, place))
            place += 1
            self._skip(_BLANK)
            if not self._takes(","):
                self._needs("]")
                return
            self._skip(_BLANK)

    def _inline(self, path: Path) -> None:
        self._needs("{")
        self._gap()
        while not self._takes("}"):
            self._pair(path)
            self._gap()
            if not self._takes(","):
                self._needs("}")
                return
            self._gap()
            if self._text.startswith("}", self._at):
                self._note_newer()

    def _gap(self) -> None:
        """Passes over what may stand between the parts of an inline table; a new line there is of TOML 1.1."""
        begin = self._at
        if "\n" in self._skip(_BLANK):
            after, self._at = self._at, begin
            self._note_newer()
            self._at = after


class Stop(NamedTuple):
    """Where Python's reader of TOML 1.0 stopped, and why. `newer` is the first line of TOML 1.1, where one is there or before, or None."""

    line: int
    why: str
    newer: int | None


def stop_of(text: str, fault: tomllib.TOMLDecodeError) -> Stop | None:
    """Where Python's reader stopped in a text, by what it says; None where it does not say."""
    place = _STOP.search(str(fault))
    if place is None:
        return None
    line, newer = int(place[1]) if place[1] else text.count("\n") + 1, TomlLines(text).newer
    return Stop(line, str(fault)[: place.start()], newer if newer is not None and newer <= line else None)
