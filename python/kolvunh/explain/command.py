"""Calls the program by the words, and writes its line where it refuses, with what is wrong and where below it.

    kolvunh explain [--program PATH] [--status N --] WORDS ..

The exit status is the program's. With --status a call has ended so already: then only the lines below are written, and the program is
called again only where its line says what is wrong.
"""

import argparse
import sys

from ..commands import Words, end
from ..programs import program_words
from . import explain, lines_on, refusal_of


def options_of(arguments: list[str]) -> argparse.Namespace:
    """The options before the words; `--` may stand between them."""
    parser = Words(__doc__, allow_abbrev=False)
    parser.add_argument("--program", help="the program; ./signal of the repository where it is left out")
    parser.add_argument("--status", type=int)
    parser.add_argument("words", nargs=argparse.REMAINDER)
    if "--" not in arguments:
        return parser.parse_args(arguments)
    place = arguments.index("--")
    options = parser.parse_args(arguments[:place])
    options.words = arguments[place + 1 :]
    return options


def work() -> int:
    """Writes the lines, and gives the status of the call."""
    options = options_of(sys.argv[1:])
    program = [options.program] if options.program else program_words()
    if options.status is not None:
        print("".join(f"{line}\n" for line in explain(program, options.words, options.status)), end="")
        return 0
    status, line = refusal_of(program, options.words)
    if line is not None:
        print("\n".join([line, *lines_on(options.words, line)]))
    elif status == 0:
        print("nothing is refused")
    return status


def main() -> None:
    """Runs the command."""
    end(work)
