#!/usr/bin/env python3
"""Runs a program over recorded cases, prints those that it answers otherwise, and counts them.

A case is a folder with a file `words`, which has the words of the program's command line, one a
line, and with the answer that is wanted: `status` has the exit status, `stdout` and `stderr` have
the bytes written there. A `stdout` or `stderr` that is absent stands for no bytes, and a file
`stdout.sum` for a `stdout` of which only the length and the SHA-256 are kept. The program is run in
a copy of the case's folder, so that the words can name its other files, and reads a file `stdin`, where
there is one, from standard input. A file `replays`
stands for an output that is not fixed: it has the words of a second run, whose last word names
what the first one wrote to standard output; the second has to write the same, and to end with 0.

Each PLACE is a folder that is a case, or that holds cases or files of cases at any depth, or such a
file, as cases.py says. The exit status is 0 where all cases agree, 1
where any differs, and 2 where there are none, one is malformed or the program can't be run; a
line on standard error then says what is wrong.
"""

import argparse
import os
import re
import shutil
import signal
import subprocess
import sys
import tempfile
from concurrent.futures import ThreadPoolExecutor
from pathlib import Path

from cases import SUM, Malformed, sum_line, unpack

ANSWER = ("status", "stdout", "stderr")
NO_FILES = ("words", "replays", "note", SUM, *ANSWER)
INPUT = "stdin"


class Sum:
    """An answer of which only the length and the sum are kept. It is equal to the bytes that have them."""

    def __init__(self, line):
        self.line = line

    def __eq__(self, found):
        return self.line == sum_line(found)

    def __str__(self):
        return self.line


def cases_in(place, room):
    """The cases of a file of cases, or at or below a folder, by name. Those of files are unpacked in the room."""
    place = Path(place)
    if not place.exists() or not (place.is_dir() or place.suffix == ".cases"):
        raise Malformed(f"{place} is no folder and no file of cases")
    files = sorted(place.rglob("*.cases")) if place.is_dir() else [place]
    folders = [Path(tempfile.mkdtemp(dir=room)) for _ in files]
    for file, folder in zip(files, folders):
        unpack([file], folder)
    return [
        words.parent
        for folder in ([place] if place.is_dir() else []) + folders
        for words in sorted(folder.rglob("words"))
        if words.is_file()
    ]


def bytes_of(path):
    return path.read_bytes() if path.exists() else b""


def recorded(case):
    """The answer that is wanted: status, standard output, standard error."""
    file = case / "status"
    if not file.is_file():
        raise Malformed(f"{case} has no file `status`")
    status = file.read_bytes().strip()
    if not status.isdigit() or int(status) > 255:
        raise Malformed(f"{file} has {shown(status)} in place of a number from 0 to 255")
    out = bytes_of(case / "stdout")
    if (case / SUM).is_file():
        out = Sum((case / SUM).read_text().rstrip())
    return int(status), out, bytes_of(case / "stderr")


def words_in(file):
    """The words of a file, one a line."""
    words = bytes_of(file).split(b"\n")
    if words[-1] == b"":
        words.pop()
    return words


def answered(program, case, seconds):
    """What the program answers, or None where it took too long; then it is killed with all that it started."""
    with tempfile.TemporaryDirectory() as place:
        copy = Path(place) / "case"
        shutil.copytree(case, copy, ignore=shutil.ignore_patterns(*NO_FILES))
        return ended(program, words_in(case / "words"), copy, seconds)


def replayed(program, case, told, seconds):
    """What the program answers to the second run of a case, of which the first told this; None as above."""
    words = words_in(case / "replays")
    with tempfile.TemporaryDirectory() as place:
        copy = Path(place) / "case"
        shutil.copytree(case, copy, ignore=shutil.ignore_patterns(*NO_FILES))
        (copy / os.fsdecode(words[-1])).write_bytes(told)
        return ended(program, words, copy, seconds)


def ended(program, words, folder, seconds, settings=None):
    """How a run of the program in a folder ended, or None where it took too long. The settings are of its environment alone."""
    given = Path(folder) / INPUT
    source = given if given.is_file() else os.devnull
    try:
        with open(source, "rb") as read:
            run = subprocess.Popen(
                [os.fsencode(program), *words],
                cwd=folder,
                env={**os.environ, **(settings or {})},
                stdin=read,
                stdout=subprocess.PIPE,
                stderr=subprocess.PIPE,
                start_new_session=True,
            )
    except (OSError, ValueError) as fault:
        raise Malformed(f"{program} can't be run in {folder}: {fault}") from fault
    with run:
        try:
            out, err = run.communicate(timeout=seconds)
        except subprocess.TimeoutExpired:
            os.killpg(run.pid, signal.SIGKILL)
            return None
    return run.returncode, out, err


def without_code(answer):
    """The answer without what follows `signal: bad K` in a line of standard error."""
    status, out, err = answer
    return status, out, re.sub(rb"(?m)^(signal: bad \d+) .*$", rb"\1", err)


def difference(program, case, seconds, bad_prefix):
    """What differs in a case, in a few words, or None."""
    wanted, found = recorded(case), answered(program, case, seconds)
    again = (0, wanted[1], b"")
    if found is not None and (case / "replays").is_file():
        again = replayed(program, case, found[1], seconds)
    if found is None or again is None:
        return f"no answer in {seconds:g} seconds"
    if again[0] != 0 or again[2] != b"":
        return f"the second run ends with {again[0]} and {shown(again[2])}"
    wanted = (wanted[0], again[1], wanted[2])
    if bad_prefix:
        wanted, found = without_code(wanted), without_code(found)
    differing = [
        f"{part} is {shown(there)} in place of {shown(here)}"
        for part, here, there in zip(ANSWER, wanted, found)
        if here != there
    ]
    return "; ".join(differing) or None


def name_of(case, room):
    """The path of a case, or GROUP/NAME where it was unpacked in the room."""
    return "/".join(case.parts[-2:]) if Path(room) in case.parents else str(case)


def shown(value):
    text = repr(value.decode(errors="replace")) if isinstance(value, bytes) else str(value)
    return text if len(text) <= 200 else text[:200] + ".."


def parser_of(about):
    """A parser of words with those that say how a program is run."""
    parser = argparse.ArgumentParser(
        description=about, formatter_class=argparse.RawDescriptionHelpFormatter
    )
    parser.add_argument("--program", required=True, metavar="PATH", help="the program to run")
    parser.add_argument(
        "--jobs", type=int, default=os.cpu_count(), metavar="N", help="runs side by side"
    )
    parser.add_argument(
        "--seconds", type=float, default=60, metavar="N", help="the time of one run, 60 if left out"
    )
    return parser


def end(parser, work):
    """Ends with 0 where the work finds nothing wrong, with 1 where it does, and with 2 where it can't be done."""
    options = parser.parse_args()
    if options.jobs < 1 or not options.seconds > 0:
        parser.error("--jobs and --seconds are above 0")
    try:
        sys.exit(1 if work(options) else 0)
    except (Malformed, OSError) as fault:
        print(f"{Path(sys.argv[0]).stem}: {fault}", file=sys.stderr)
        sys.exit(2)


def main():
    parser = parser_of(__doc__)
    parser.add_argument(
        "--bad-prefix",
        action="store_true",
        help="leave out what follows `signal: bad K` on standard error, on both sides",
    )
    parser.add_argument(
        "places", nargs="+", metavar="PLACE", help="a case, a folder of cases, or a file of cases"
    )
    end(parser, compared)


def compared(options):
    """Prints the cases that are answered otherwise, and answers how many there are."""
    program = shutil.which(os.path.abspath(options.program))
    if program is None:
        raise Malformed(f"{options.program} is no program that can be run")
    with tempfile.TemporaryDirectory() as room:
        return compared_in(options, program, room)


def compared_in(options, program, room):
    """The same, with a folder in which files of cases are unpacked."""
    cases = [case for place in options.places for case in cases_in(place, room)]
    if not cases:
        raise Malformed("no cases: a case is a folder with a file `words`")
    for case in cases:
        recorded(case)
    differing = 0
    with ThreadPoolExecutor(options.jobs) as runs:
        found = runs.map(
            lambda case: difference(program, case, options.seconds, options.bad_prefix), cases
        )
        try:
            for case, told in zip(cases, found):
                if told is not None:
                    differing += 1
                    print(f"{name_of(case, room)}: {told}", flush=True)
        except BaseException:
            runs.shutdown(cancel_futures=True)
            raise
    print(f"{len(cases)} cases, {differing} differ")
    return differing


if __name__ == "__main__":
    main()
