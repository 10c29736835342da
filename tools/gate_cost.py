#!/usr/bin/env python3
"""Says what a run of the gate costs by crate, or the proofs of a crate by function.

    tools/gate_cost.py [-- COMMAND ..]
    tools/gate_cost.py --functions CRATE ..
    tools/gate_cost.py --most SECONDS [CRATE ..]

The first form runs a command, `rt ci` if none is given, and watches the processes of the checker
that it starts. At the end it prints a table with a row for each crate: the seconds that its own
check took on the clock and of a processor, and its jobs; and the processor seconds of the check of
its tests, and of those over edits. Below are the sums, and what the kernel counts of the whole
run, which also has the compilers, the linker, the tests and the programs. A process is looked at
twice a second, so each row lacks up to half a second of each of its processes.

The second form proves each crate from nothing, in a copy outside the repository with one job, and
prints the ten dearest of its functions and of its other modules, by the seconds between the files
that the checker keeps, times the share of a processor that the check had. It begins with `rt check`
in the crate's folder where a library below is not built, as tools/wrong_bodies.py does.

The third form does the same for the crates that are named, or for all, and fails where one has a
function or a module above so many seconds that is not listed in tools/dear_functions.txt, or takes
more than one and a half times the seconds listed there; and where one that is listed takes half of
the bound or less. `rt ci` keeps no times by function, so what it has proved is proved once more for
this: it is run for each crate that changes, and for all crates before a release.

The exit status is the command's; of the other forms 0, or 1 where a crate is not proved or is too
dear; and 2 where the command or the crates can't be run.
"""

import argparse
import os
import re
import resource
import subprocess
import sys
import tempfile
import threading
import time
from collections import Counter, defaultdict
from dataclasses import dataclass
from pathlib import Path

from crates import ROOT
from wrong_bodies import VERDICT, Malformed, Repository, run_check

TICKS = os.sysconf("SC_CLK_TCK")
OWN, TESTS, EDITS = "own", "tests", "edits"
EDIT_FOLDERS = ("rt-edit-", "wrong-bodies-")
DEAREST = 10
LISTED = ROOT / "tools/dear_functions.txt"
# What is listed may cost so many times its seconds, and leaves the list at this share of the bound: times differ from run to run.
MORE, LESS = 1.5, 0.5


@dataclass
class Sample:
    """A process of the checker: its crate, what it checks, its jobs, from when to when it was seen, and its processor seconds."""

    crate: str
    kind: str
    jobs: int
    start: float
    end: float
    processor: float


def checks(words):
    """Whether the words of a process are those of the checker at a crate."""
    return len(words) > 3 and words[0].endswith("/rattle") and words[1] in ("build", "check") and "--crate-name" in words


def sample_of(words, folder, now):
    """A new sample of a process with these words, which runs in a folder."""
    is_edit = any(part.startswith(EDIT_FOLDERS) for part in Path(folder).parts)
    kind = EDITS if is_edit else TESTS if "--test" in words else OWN
    jobs = int(words[words.index("--jobs") + 1]) if "--jobs" in words else 1
    return Sample(words[words.index("--crate-name") + 1], kind, jobs, now, now, 0.0)


def stat_of(text):
    """The parent, the processor seconds, with those of children that have ended, and the start of a process by its /proc/PID/stat."""
    fields = text[text.rindex(")") + 2 :].split()
    return int(fields[1]), sum(map(int, fields[11:15])) / TICKS, int(fields[19])


def processes():
    """All processes, by number: their words, parent, processor seconds and start."""
    found = {}
    for number in filter(str.isdigit, os.listdir("/proc")):
        try:
            words = Path(f"/proc/{number}/cmdline").read_bytes().decode(errors="replace").split("\0")
            found[int(number)] = words, *stat_of(Path(f"/proc/{number}/stat").read_text(errors="replace"))
        except (OSError, ValueError):
            pass  # it has ended
    return found


def look(top, samples, now):
    """Notes the checker's processes below a process. The copies that one of them starts count with it, once they end."""
    found = processes()
    for number, (words, parent, processor, start) in found.items():
        if checks(words) and not (parent in found and checks(found[parent][0])) and is_below(number, top, found):
            try:
                folder = os.readlink(f"/proc/{number}/cwd")
            except OSError:
                continue
            sample = samples.setdefault((number, start), sample_of(words, folder, now))
            sample.end, sample.processor = now, max(sample.processor, processor)


def is_below(number, top, found):
    """Whether a process is a child of another, or of its children."""
    while number in found and number != top:
        number = found[number][1]
    return number == top


def rows_of(samples):
    """The rows of the table, dearest crate first: name, wall and processor seconds, jobs, seconds of tests and of edits."""
    processor, wall, jobs = defaultdict(Counter), Counter(), Counter()
    for it in samples:
        processor[it.crate][it.kind] += it.processor
        if it.kind == OWN:
            wall[it.crate] += it.end - it.start
            jobs[it.crate] = max(jobs[it.crate], it.jobs)
    names = sorted(processor, key=lambda name: (-processor[name].total(), name))
    return [(it, wall[it], processor[it][OWN], jobs[it], processor[it][TESTS], processor[it][EDITS]) for it in names]


def table(rows):
    """The lines of the table, with the sums."""
    sums = [sum(row[column] for row in rows) for column in (2, 4, 5)]
    lines = [f"{'crate':<20} {'wall':>6} {'own':>6} {'jobs':>4} {'tests':>6} {'edits':>6}"]
    lines += [f"{row[0]:<20} {row[1]:>6.0f} {row[2]:>6.0f} {row[3]:>4} {row[4]:>6.0f} {row[5]:>6.0f}" for row in rows]
    return [*lines, f"{'all':<20} {'':>6} {sums[0]:>6.0f} {'':>4} {sums[1]:>6.0f} {sums[2]:>6.0f}"]


def watch(command):
    """Runs a command, prints what it costs, and answers its exit status."""
    samples, begun, ended = {}, time.monotonic(), threading.Event()
    with subprocess.Popen(command, cwd=ROOT) as run:

        def look_on():
            while not ended.wait(0.5):
                look(run.pid, samples, time.monotonic())

        watcher = threading.Thread(target=look_on)
        watcher.start()
        try:
            status = run.wait()
        finally:
            ended.set()
            watcher.join()
    used = resource.getrusage(resource.RUSAGE_CHILDREN)
    print("\n".join(table(rows_of(samples.values()))))
    print(f"{used.ru_utime + used.ru_stime:.0f} processor seconds by the kernel's count, {time.monotonic() - begun:.0f} on the clock")
    return status if status >= 0 else 128 - status


def costs_of(files, crate, functions):
    """The seconds of each function, or else module, of a crate, by the times and names of the files kept, in any order: each
    took the time since the one before it."""
    costs, last = Counter(), None
    paths = {name.partition("::")[2].replace("::", "."): name for name in functions}
    for at, file in sorted(files):
        if last is not None and file.endswith(".oantt"):
            costs[owner_of(module_of(file, crate), paths)] += at - last
        last = at
    return costs


def module_of(file, crate):
    """The module that a kept file is of, below the crate."""
    module = file.rpartition("/")[2].removesuffix(".oantt").removesuffix(".decls")
    for start in (f"Rattle-{crate}-proofs.", f"Rattle-{crate}-specs.contracts.", f"Rattle-{crate}-", f"Rattle-{crate}."):
        if module.startswith(start):
            return module.removeprefix(start)
    return module


def owner_of(module, paths):
    """The function that a module is of, or else the module."""
    parts = module.split(".")
    for count in range(len(parts), 0, -1):
        if ".".join(parts[:count]) in paths:
            return paths[".".join(parts[:count])]
    return module


@dataclass(frozen=True)
class Profile:
    """What the proofs of a crate cost: whether it is proved, its seconds of a processor and on the clock, and the processor
    seconds of each function, or else module."""

    is_proved: bool
    processor: float
    clock: float
    costs: Counter


def profile(repository, crate):
    """Proves a crate from nothing, and says what that costs."""
    repository.make_ready(crate)
    with tempfile.TemporaryDirectory(prefix="gate-cost-") as place:
        copy = repository.copy(crate, Path(place))
        kept = copy / "out/incremental"
        kept.mkdir(parents=True)
        # What is proved of the same text elsewhere would be taken from there.
        with next(it for it in (copy / "src/lib.rt", copy / "src/main.rt") if it.is_file()).open("a") as root:
            root.write(f"// {place}\n")
        begun, before = time.monotonic(), resource.getrusage(resource.RUSAGE_CHILDREN)
        run = run_check(copy)
        clock, used = time.monotonic() - begun, resource.getrusage(resource.RUSAGE_CHILDREN)
        files = [(it.stat().st_mtime, str(it.relative_to(kept))) for it in kept.rglob("*") if it.is_file()]
    processor = used.ru_utime + used.ru_stime - before.ru_utime - before.ru_stime
    costs, share = costs_of(files, crate, [name for name, _, _ in VERDICT.findall(run.stdout)]), min(1.0, processor / clock)
    return Profile(run.returncode == 0, processor, clock, Counter({name: seconds * share for name, seconds in costs.items()}))


def told_of(crate, found):
    """The line that says what the whole of a crate costs."""
    said = "proved" if found.is_proved else "NOT PROVED"
    return f"{crate}: {said}; {found.processor:.0f} processor seconds, {found.clock:.0f} on the clock"


def print_dearest(crate, found):
    """Prints the dearest functions of a crate, and answers whether it is proved."""
    print(told_of(crate, found))
    for name, seconds in found.costs.most_common(DEAREST):
        print(f"{seconds:>6.1f} {name}")
    return found.is_proved


def listed_in(text):
    """The seconds of each function, or else module, of a text like that of tools/dear_functions.txt, by its crate and its name."""
    listed = {}
    for number, line in enumerate(text.split("\n"), 1):
        if line and not line.startswith("#"):
            words = re.fullmatch(r"(\d+) (\w+) (\S+): (\S.*)", line)
            if words is None or (words[2], words[3]) in listed:
                raise Malformed(f"tools/dear_functions.txt, line {number}: no `SECONDS CRATE NAME: REASON`, or one that is there twice")
            listed[words[2], words[3]] = int(words[1])
    return listed


def faults_of(crate, costs, most, listed):
    """What is wrong with the costs of a crate's functions and modules, where none may be above so many seconds but those that are listed."""
    faults = []
    for name, seconds in costs.most_common():
        bound = listed.get((crate, name))
        if bound is None and seconds > most:
            faults.append(f"{seconds:>6.1f} {name}")
        elif bound is not None and seconds > max(most, MORE * bound):
            faults.append(f"{seconds:>6.1f} {name}, which is listed with {bound}")
    for name in [name for owner, name in listed if owner == crate]:
        if costs[name] <= LESS * most:
            faults.append(f"{costs[name]:>6.1f} {name}, which needs no line in tools/dear_functions.txt")
    return faults


def print_faults(crate, found, most, listed):
    """Prints what is too dear in a crate, and answers whether it is proved and nothing is."""
    print(told_of(crate, found))
    faults = faults_of(crate, found.costs, most, listed)
    print("\n".join(faults), end="\n" if faults else "")
    return found.is_proved and not faults


def by_function(options):
    """Prints what the functions of crates cost, or which cost too much, and answers the exit status."""
    repository = Repository(ROOT)
    crates = options.functions or options.crates or list(repository.lines)
    repository.require(crates)
    if options.most is None:
        ends = [print_dearest(crate, profile(repository, crate)) for crate in crates]
    else:
        listed = listed_in(LISTED.read_text(encoding="utf-8"))
        ends = [print_faults(crate, profile(repository, crate), options.most, listed) for crate in crates]
    return 0 if all(ends) else 1


def main():
    words = sys.argv[1:]
    cut = words.index("--") if "--" in words else len(words)
    parser = argparse.ArgumentParser(
        description=__doc__,
        usage="%(prog)s [--functions CRATE .. | --most SECONDS [CRATE ..]] [-- COMMAND ..]",
        formatter_class=argparse.RawDescriptionHelpFormatter,
    )
    how = parser.add_mutually_exclusive_group()
    how.add_argument("--functions", nargs="+", metavar="CRATE", help="crates whose dearest functions are printed")
    how.add_argument("--most", type=float, metavar="SECONDS", help="fails where a function takes more")
    parser.add_argument("crates", nargs="*", metavar="CRATE", help="those that --most looks at; all, if none is named")
    options = parser.parse_args(words[:cut])
    is_by_function = bool(options.functions) or options.most is not None
    if is_by_function and cut < len(words):
        parser.error("--functions and --most take no command")
    if options.crates and options.most is None:
        parser.error("a command stands after --")
    try:
        sys.exit(by_function(options) if is_by_function else watch(words[cut + 1 :] or ["rt", "ci"]))
    except (Malformed, OSError) as fault:
        print(f"gate_cost: {fault}", file=sys.stderr)
        sys.exit(2)


if __name__ == "__main__":
    main()
