"""A bar of what is done, on standard error, where that is a terminal."""

import sys
import time

WIDE = 30


class Progress:
    """A bar for so many steps."""

    def __init__(self, count: int, what: str) -> None:
        self.count, self.what, self.done = max(1, count), what, 0
        self.begin = time.monotonic()
        self.is_shown = sys.stderr is not None and sys.stderr.isatty()

    def step(self, words: str = "") -> None:
        """One step more; the words come after the bar."""
        self.done += 1
        if self.is_shown:
            full = WIDE * min(self.done, self.count) // self.count
            passed = time.monotonic() - self.begin
            bar = "#" * full + "." * (WIDE - full)
            print(f"\r{self.what} [{bar}] {self.done} of {self.count}, {passed:.0f} s {words}\x1b[K", end="", file=sys.stderr, flush=True)

    def end(self) -> None:
        """Leaves the line of the bar empty."""
        if self.is_shown:
            print("\r\x1b[K", end="", file=sys.stderr, flush=True)
