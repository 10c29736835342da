#!/usr/bin/env python3
"""Makes the program `signal`: tools/build_program.py proved|unproved

`proved` proves and builds it as the gate does: by `rt ci` on a copy of the crates that it is made of, from nothing, side by side where none
needs another, without wrong bodies. What passes is kept on this machine for each later `rt ci`. Standard error tells of each crate once. The
program is then crates/signal_program/out/signal_program.

`unproved` compiles it by `rt try`, with checks, and keeps what is linked there: out/unproved/signal. It stops at an index out of bounds, an
overflow or a broken `prove!`, where the proved program has none, and is some 250 times slower.

A program bears the time at which its making began, so that a file that changes meanwhile is newer. Where another call makes a program in
the same clone, this one waits for it, and makes none. The exit status is 0 where the program is there, 1 where a crate fails or nothing is
linked, whose report then goes to standard error, and 2 where the work can't begin.
"""

import fcntl
import os
import re
import shutil
import signal
import stat
import subprocess
import sys
import tempfile
import time
from contextlib import contextmanager
from pathlib import Path

from crates import ROOT, at_or_below, crate_lines, text_of

PROGRAM = "signal_program"
PROVED = ROOT / "crates" / PROGRAM / "out" / PROGRAM
UNPROVED = ROOT / "out/unproved/signal"

# What of a crate its proof does not read
NOT_READ = shutil.ignore_patterns("out", "must-fail", "wrong-bodies")

# What the unproved program does until it is kept: a run of a minute
LONG_RUN = ["grid", "7", "8", "600"]

# How often it is looked whether the unproved program is linked, in seconds
LOOKS = 0.02


class Failed(Exception):
    """Why there is no program."""


def tell(text):
    print(f"signal: {text}", file=sys.stderr, flush=True)


def copy_to(place):
    """Copies the crates that the program is made of, as a repository of their own. Answers how many there are."""
    lines = crate_lines((ROOT / "crates.txt").read_text())
    crates = at_or_below(PROGRAM, lines)
    for crate in crates:
        shutil.copytree(ROOT / "crates" / crate, place / "crates" / crate, ignore=NOT_READ)
    (place / "crates.txt").write_text(text_of(crates, lines))
    shutil.copyfile(ROOT / "HANDLES", place / "HANDLES")
    return len(crates)


class Progress:
    """What `rt ci` has said so far: how many crates are done, and the reports of those that failed."""

    def __init__(self, count):
        self.count = count
        self.done = 0
        self.report = []
        self.failed = []
        self.last = []

    def take(self, line):
        """Takes a line. Answers what is to be told of it, or None."""
        self.last = [*self.last[-20:], line]
        if line.startswith("== "):
            self.report = []
        self.report.append(line)
        ended = re.fullmatch(r"rt: (\w+) (proved|is kept: .*|NOT PROVED.*)\n?", line)
        if ended is None:
            return None
        if ended[2].startswith("NOT PROVED"):
            self.failed += self.report
            return None
        self.done += 1
        how = "" if ended[2] == "proved" else ", kept from an earlier run"
        return f"{self.done} of {self.count} crates: {ended[1]}{how}"

    def why(self):
        """The reports of the crates that failed, or the last lines where none is named."""
        return "".join(self.failed or self.last)


@contextmanager
def process(words, folder, **streams):
    """A process in a group of its own, which is ended at the end."""
    with subprocess.Popen(
        words, cwd=folder, stdin=subprocess.DEVNULL, start_new_session=True, **streams
    ) as run:
        try:
            yield run
        finally:
            try:
                os.killpg(run.pid, signal.SIGTERM)
            except ProcessLookupError:
                pass


def prove():
    """Proves and builds the program on a copy, and moves it to its place."""
    with tempfile.TemporaryDirectory(prefix="signal-build-") as folder:
        place = Path(folder)
        progress = Progress(copy_to(place))
        tell(f"proving {progress.count} crates side by side; the first ones take some two minutes")
        how = {"stdout": subprocess.PIPE, "stderr": subprocess.STDOUT, "text": True}
        began = time.monotonic()
        with process(["rt", "ci"], place, errors="replace", **how) as run:
            for line in run.stdout:
                told = progress.take(line)
                if told is not None:
                    tell(f"{told} ({time.monotonic() - began:.0f} s)")
            status = run.wait()
        if status != 0:
            raise Failed(progress.why())
        keep(place / "crates" / PROGRAM / "out" / PROGRAM, PROVED)


def link_executables(folder, to):
    """Gives each executable file at any depth of a folder a second name in another, which it keeps when the first is removed."""
    for at, _, names in os.walk(folder):
        for file in (Path(at, name) for name in names if ".tmp" not in name):
            try:
                seen = file.stat()
                if stat.S_ISREG(seen.st_mode) and seen.st_mode & stat.S_IXUSR:
                    os.link(file, to / str(seen.st_ino))
            except (FileNotFoundError, FileExistsError):
                continue


def compile_unproved():
    """Compiles the program by `rt try`, which links it in a folder of its own, copies it to another and runs the copy, and keeps what it linked."""
    with (
        tempfile.TemporaryDirectory(prefix="signal-try-") as place,
        tempfile.TemporaryFile() as said,
    ):
        folder, links = Path(place, "try"), Path(place, "links")
        folder.mkdir()
        links.mkdir()
        how = {"stdout": subprocess.DEVNULL, "stderr": said}
        how["env"] = {**os.environ, "TMPDIR": str(folder)}
        with process(["rt", "try", "--", *LONG_RUN], ROOT / "crates" / PROGRAM, **how) as run:
            while run.poll() is None and not any(links.iterdir()):
                time.sleep(LOOKS)
                link_executables(folder, links)
        # Of the copy there may be a part alone.
        linked = max(links.iterdir(), key=lambda file: file.stat().st_size, default=None)
        if linked is None:
            said.seek(0)
            raise Failed(said.read().decode(errors="replace"))
        keep(linked, UNPROVED)


def keep(made, to):
    """Moves a program to its place, whole or not at all."""
    to.parent.mkdir(parents=True, exist_ok=True)
    beside = to.with_name(f"{to.name}.new")
    shutil.copyfile(made, beside)
    beside.chmod(0o755)
    beside.replace(to)


@contextmanager
def alone():
    """Holds this clone's lock. Gives whether another call held it before."""
    (ROOT / "out").mkdir(exist_ok=True)
    with open(ROOT / "out/lock", "w") as lock:
        waits = False
        try:
            fcntl.flock(lock, fcntl.LOCK_EX | fcntl.LOCK_NB)
        except BlockingIOError:
            tell("another call makes a program in this clone: waiting for it")
            fcntl.flock(lock, fcntl.LOCK_EX)
            waits = True
        yield waits


def main():
    ways = {"proved": (prove, PROVED), "unproved": (compile_unproved, UNPROVED)}
    if len(sys.argv) != 2 or sys.argv[1] not in ways:
        print(__doc__, file=sys.stderr, end="")
        return 2
    work, program = ways[sys.argv[1]]
    for number in (signal.SIGTERM, signal.SIGHUP):
        signal.signal(number, lambda *_: sys.exit(2))
    began = time.time()
    try:
        with alone() as waited:
            if not (waited and program.exists()):
                work()
                os.utime(program, (began, began))
    except Failed as fault:
        sys.stderr.write(str(fault))
        tell("the program can't be made")
        return 1
    except OSError as fault:
        tell(f"the program can't be made: {fault}")
        return 2
    return 0


if __name__ == "__main__":
    try:
        sys.exit(main())
    except KeyboardInterrupt:
        sys.exit(2)
