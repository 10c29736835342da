"""How a command of this package reads its words, and how it ends: 0 where all is well, 1 where it found what it looked for, 2 where it
can't be done."""

import argparse
import contextlib
import io
import os
import signal
import sys
from collections.abc import Callable
from typing import Any, NoReturn

from .faults import Fault


class Words(argparse.ArgumentParser):
    """The words of a command. Those that are none of it end the process with one line on standard error, and status 2."""

    def __init__(self, about: str | None = None, **how: Any) -> None:
        super().__init__(description=about, formatter_class=argparse.RawDescriptionHelpFormatter, **how)

    def error(self, message: str) -> NoReturn:
        """Says what is wrong with the words."""
        print(f"{self.prog}: {message}; call it with -h for its form", file=sys.stderr)
        sys.exit(2)


def end(work: Callable[[], int | None]) -> NoReturn:
    """Does the work of a command and ends with the status that it gives, or with 0. A fault is a line on standard error and status 2.

    What is written is UTF-8 whatever the locale, as the files are; bytes of a file or a name that are none stand for themselves.
    """
    if signal.getsignal(signal.SIGINT) is signal.SIG_DFL:
        signal.signal(signal.SIGINT, signal.default_int_handler)
    if sys.stderr is None:  # else what is told goes to standard output
        sys.stderr = open(os.devnull, "w", encoding="utf-8")
    try:
        if sys.stdout is None:
            raise Fault("there is no standard output to write to")
        if isinstance(sys.stdout, io.TextIOWrapper):
            sys.stdout.reconfigure(encoding="utf-8", errors="surrogateescape")
        status = work() or 0
        sys.stdout.flush()
    except (Fault, OSError, MemoryError) as fault:
        _say(_words_of(fault))
        _drop_output()
        status = 2
    except KeyboardInterrupt:
        status = 130
    sys.exit(status)


def _words_of(fault: Fault | OSError | MemoryError) -> str:
    """A fault in words; one of the system that names no file is of what was written, most often to standard output."""
    if isinstance(fault, BrokenPipeError):
        return "standard output was closed before all was written"
    if isinstance(fault, MemoryError):
        return "out of memory"
    is_output = isinstance(fault, OSError) and fault.filename is None and fault.strerror
    return f"{fault.strerror}: what is written is no whole answer" if is_output else str(fault)


def _drop_output() -> None:
    """Leaves nothing for Python to write at the end of the process, where it would fail again."""
    with contextlib.suppress(OSError, AttributeError):  # it may be no file, or none at all
        os.dup2(os.open(os.devnull, os.O_WRONLY), sys.stdout.fileno())


def _say(words: str) -> None:
    """A line on standard error."""
    print(f"kolvunh: {words}", file=sys.stderr)
