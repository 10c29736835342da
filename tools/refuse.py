#!/usr/bin/env python3
"""Runs a program over recorded cases with memory or threads refused, and counts the runs.

Each PLACE is a case, a folder of cases or a file of cases, as run_cases.py says, or a program of
tests. If none is named, the cases of every command are meant, and the programs of tests that are
built. There are three ways: the Nth request for memory alone is refused; the Nth and all later ones
are; and, where the case starts threads, the Nth start of a thread and all later ones. N rises from
1 until a run meets no refusal: by 1 up to --each, and then by 97. A run may end with status 6,
nothing on standard output and no line or `signal: no memory` on standard error, or else as the case
has it; of `serve` with `refused,signal: no memory` in place of any of its answers, and after one of
these with refusals for what was then not told. Of a program of tests those are run whose name ends
in `whichever_is_refused`, in the first way alone, and they have to pass.

For each case and way a line says how many runs there were and how many requests the last one made;
runs that end otherwise than they may are printed. The exit status is 0 where there is none, 1 where
there is any, and 2 where runs can't be made; a line on standard error then says what is wrong.

What refuses is refuse.c, which is built into a temporary folder and loaded before the C library, so
the program has to be linked dynamically. Where there is no `cc`, nothing is run.
"""

import os
import re
import shutil
import struct
import subprocess
import sys
import tempfile
from concurrent.futures import ThreadPoolExecutor
from itertools import chain, count, islice, zip_longest
from pathlib import Path

from run_cases import Malformed, cases_in, end, ended, parser_of, recorded, shown, words_in

ROOT = Path(__file__).resolve().parent.parent
EVERY_COMMAND = ROOT / "crates/recorded_cases/data/each_command.cases"
SOURCE = ROOT / "tools/refuse.c"
TESTS = "whichever_is_refused"

OUT_OF_MEMORY = 6
SERVED = re.compile(rb"(?:(?!end\n)[^\n]*\n)*end\n")
NOT_SERVED = b"refused,signal: no memory\nend\n"
MEMORY_LINES = (b"", b"signal: no memory\n")
ALL_LATER = 2**63
WAYS = ("memory at", "memory from", "threads from")
STEP = 97


def runnable(path):
    program = shutil.which(os.path.abspath(path))
    if program is None:
        raise Malformed(f"{path} is no program that can be run")
    return program


def compiled(compiler, folder):
    """The library that refuses, built into a folder."""
    library = folder / "refuse.so"
    words = [compiler, "-shared", "-fPIC", "-O1", "-fno-builtin", "-o", library, SOURCE, "-ldl"]
    run = subprocess.run(words, capture_output=True, text=True, check=False)
    if run.returncode != 0:
        raise Malformed(f"{compiler} refuses {SOURCE}: {run.stderr}")
    return library


def ending(end):
    status, out, err = end
    return f"status {status}, {len(out)} bytes on standard output, {shown(err)} on standard error"


def are_answers(out, wanted):
    """Whether each answer of `serve` is as it is wanted, or says that memory ran out for it; a later one may then be refused for what was not told."""
    answers = SERVED.findall(out)
    if b"".join(answers) != out:
        return False
    is_lost = False
    for found, want in zip_longest(answers, SERVED.findall(wanted)):
        if found is None or found not in (want, NOT_SERVED) and not (is_lost and want is not None and found.startswith(b"refused,")):
            return False
        is_lost = is_lost or found == NOT_SERVED
    return True


class Case:
    """A recorded case."""

    ways = WAYS

    def __init__(self, program, folder):
        self.name, self.program, self.folder = folder.name, program, folder
        self.words = words_in(folder / "words")
        self.wanted = recorded(folder)
        self.replays = words_in(folder / "replays")

    def fault(self, end, runs):
        """What is wrong with the end of a run, in a few words, or None."""
        status, out, err = end
        if status == OUT_OF_MEMORY and not out and err in MEMORY_LINES:
            return None
        if self.words[:1] == [b"serve"] and (status, err) == (self.wanted[0], self.wanted[2]) and are_answers(out, self.wanted[1]):
            return None
        if self.replays and status == 0 and not err:
            return self.replay_fault(out, runs)
        return None if end == self.wanted else ending(end)

    def replay_fault(self, told, runs):
        """What is wrong with a text that the second words have to write again, or None."""
        with tempfile.NamedTemporaryFile(dir=runs.folder) as history:
            history.write(told)
            history.flush()
            words = [*self.replays[:-1], os.fsencode(history.name)]
            again = ended(self.program, words, self.folder, runs.seconds)
        return None if again == (0, told, b"") else "a text that the second run does not write again"


class Test:
    """A test of a program of tests."""

    ways = WAYS[:1]

    def __init__(self, program, name):
        self.name, self.program, self.folder, self.words = name, program, None, [name]

    def fault(self, end, _runs):
        """What is wrong with the end of a run, in a few words, or None."""
        return None if end[0] == 0 else ending(end)


def tests_of(program):
    """The tests of a program that hold whatever is refused."""
    listed = subprocess.run([program, "--list"], capture_output=True, text=True, check=False)
    names = [line.removesuffix(": test") for line in listed.stdout.splitlines()]
    return [Test(program, name) for name in names if name.endswith(TESTS)]


def subjects(options, room):
    """The cases and tests of the places that are named, or of all. Files of cases are unpacked in the room."""
    places = list(map(Path, options.places)) or [
        EVERY_COMMAND,
        *sorted((ROOT / "crates").glob("*/out/*_tests")),
    ]
    program = runnable(options.program)
    for place in places:
        if place.is_dir() or place.suffix == ".cases":
            yield from (Case(program, folder) for folder in cases_in(place, room))
        else:
            yield from tests_of(runnable(place))


class Runs:
    """The runs of programs, with the library that refuses."""

    def __init__(self, options, folder, compiler):
        self.seconds, self.each, self.jobs = options.seconds, options.each, options.jobs
        self.folder = folder
        self.library = compiled(compiler, folder)

    def refused(self, subject, way, number):
        """How a run ends that is refused something, and how often it asked for it."""
        what, reach = way.split()
        with tempfile.NamedTemporaryFile(dir=self.folder) as counts:
            counts.write(bytes(16))
            counts.flush()
            settings = {
                "LD_PRELOAD": str(self.library),
                "REFUSE_COUNTS": counts.name,
                "REFUSE_WHAT": what,
                "REFUSE_FIRST": str(number),
                "REFUSE_LAST": str(ALL_LATER if reach == "from" else number),
            }
            folder = subject.folder or self.folder
            end = ended(subject.program, subject.words, folder, self.seconds, settings)
            threads, memory = struct.unpack("2Q", Path(counts.name).read_bytes())
        return end, threads if what == "threads" else memory

    def tried(self, subject, way, number):
        """The number of a refusal, how many requests there were, and what is wrong with the run's end, or None."""
        end, asked = self.refused(subject, way, number)
        if end is None:
            return number, asked, f"no answer in {self.seconds:g} seconds"
        return number, asked, subject.fault(end, self)

    def asks(self, subject, way):
        """Whether a run that is refused nothing asks for what the way refuses. It may not end for want of memory."""
        end, asked = self.refused(subject, way, ALL_LATER)
        fault = "no answer" if end is None else subject.fault(end, self)
        if fault is None and end[0] == OUT_OF_MEMORY:
            fault = "out of memory"
        if fault is not None:
            raise Malformed(f"{subject.name}, of which nothing is refused: {fault}")
        if asked == 0 and way.startswith("memory"):
            raise Malformed("no memory can be refused: the program asks no library for it")
        return asked > 0

    def tries(self, subject, way):
        """The runs of a subject in a way, in order and without an end."""
        steps = chain(range(1, self.each + 1), count(self.each + 1, STEP))
        with ThreadPoolExecutor(self.jobs) as pool:
            while True:
                some = islice(steps, 4 * self.jobs)
                yield from pool.map(lambda number: self.tried(subject, way, number), some)

    def wrong_ends(self, subject, way):
        """Makes the runs of a subject in a way; how many there are, and how many end otherwise than they may."""
        made, wrong = 0, 0
        for number, asked, fault in self.tries(subject, way):
            made += 1
            if fault is not None:
                wrong += 1
                print(f"{subject.name}: {way} {number}: {fault}", flush=True)
            if asked < number:
                break
        print(f"{subject.name}: {way}: {made} runs, the last with {asked} requests", flush=True)
        return made, wrong


def main():
    parser = parser_of(__doc__)
    parser.add_argument(
        "--each", type=int, default=2000, metavar="N", help="by 1 up to this request, 2000 if left out"
    )
    parser.add_argument(
        "places",
        nargs="*",
        metavar="PLACE",
        help="a case, a folder of cases, a file of cases, or a program of tests",
    )
    end(parser, refused)


def refused(options):
    """Makes the runs of all cases, tests and ways, and prints how many there are; how many end otherwise than they may."""
    compiler = shutil.which("cc")
    if compiler is None:
        print("nothing is run: there is no `cc` to build the library that refuses", file=sys.stderr)
        return 0
    made, wrong = 0, 0
    with tempfile.TemporaryDirectory() as folder:
        runs = Runs(options, Path(folder), compiler)
        for subject in subjects(options, folder):
            for way in subject.ways:
                if runs.asks(subject, way):
                    more, faults = runs.wrong_ends(subject, way)
                    made, wrong = made + more, wrong + faults
    if made == 0:
        raise Malformed("no cases: a case is a folder with a file `words`")
    print(f"{made} runs, {wrong} end otherwise than they may")
    return wrong


if __name__ == "__main__":
    main()
