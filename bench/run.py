#!/usr/bin/env python3
"""Compares the built program with a plain-Rust program for the same job.

PEER is a folder with a Cargo package whose one binary understands the words `plan FILE`, `certify FILE`,
`certify_bound FILE` and `check FILE`, and for networks `grid NUMBER SIDE ROUNDS`, `turns NET ARR`, `replay NET ARR HIST` and
`grid_files NUMBER SIDE ROUNDS FOLDER`, which writes a grid as net.toml and arr.csv. It is built into a folder of its own. Both
programs then run by turns on each instance of this folder, and on a grid of 64 nodes, and what is printed is, for each command
and input, the best time of many runs and its ratio, and, where valgrind is there, the instructions that callgrind counts and
their ratio. The answers must be equal. The exit status is 0 where they are, and 1 where any differs.

The built program's own `net` and `turns` then run by turns on the grid's files, each by as many processors as there are: their
best and median times, the most memory that each held, and the ratios. `replay` of what `net` writes must write the same. Between
the pairs one computation runs that needs nothing but a processor, and then four of it at once: where the four take longer, the
machine did not give four processors in that time, and the times of `net` tell of that.
"""

import argparse
import hashlib
import os
import re
import shutil
import statistics
import subprocess
import sys
import tempfile
import threading
import time
from pathlib import Path

HERE = Path(__file__).resolve().parent
INSTANCES = ("nine_and_nine.txt", "four_phases.txt", "nine_and_nine_loads.txt", "four_phases_marks.txt", "two_clusters.txt")
COMMANDS = ("plan", "certify", "certify_bound", "check")


def peer_built(folder, target):
    """The peer's program, built from a folder with its package."""
    environment = dict(os.environ, CARGO_TARGET_DIR=str(target))
    subprocess.run(["cargo", "build", "--release", "--quiet"], cwd=folder, env=environment, check=True)
    programs = [p for p in (target / "release").iterdir() if p.is_file() and os.access(p, os.X_OK)]
    if len(programs) != 1:
        sys.exit(f"one program is wanted in {target / 'release'}, not {len(programs)}")
    return programs[0]


def answer(program, words):
    run = subprocess.run([program, *words], stdin=subprocess.DEVNULL, capture_output=True)
    return run.returncode, run.stdout, run.stderr


def seconds(program, words):
    """How long one run takes, its output going nowhere."""
    begin = time.perf_counter()
    subprocess.run([program, *words], stdin=subprocess.DEVNULL, stdout=subprocess.DEVNULL, stderr=subprocess.DEVNULL)
    return time.perf_counter() - begin


def best_seconds(programs, words, runs):
    """The best time of each program, which run by turns."""
    best = [float("inf")] * len(programs)
    for _ in range(runs):
        for place, program in enumerate(programs):
            best[place] = min(best[place], seconds(program, words))
    return best


def instructions(program, words, work):
    """The instructions of one run, by callgrind."""
    command = ["valgrind", "--tool=callgrind", f"--callgrind-out-file={work / 'calls'}", str(program), *words]
    run = subprocess.run(command, stdin=subprocess.DEVNULL, stdout=subprocess.DEVNULL, stderr=subprocess.PIPE)
    found = re.search(rb"Collected : (\d+)", run.stderr)
    return int(found.group(1)) if found else None


def compare(name, words, programs, runs, work):
    """Prints one line of figures. Whether both answer alike."""
    alike = answer(programs[0], words) == answer(programs[1], words)
    ours, theirs = best_seconds(programs, words, runs)
    line = f"{words[0]:13} {name:18} {ours * 1e3:8.2f} ms {theirs * 1e3:8.2f} ms  {ours / theirs:5.2f}"
    if shutil.which("valgrind"):
        counts = [instructions(program, words, work) for program in programs]
        if all(counts):
            line += f"   {counts[0] / 1e6:8.1f} M {counts[1] / 1e6:8.1f} M  {counts[0] / counts[1]:5.2f}"
    print(line if alike else line + "   the answers differ", flush=True)
    return alike


def compare_planners(programs, runs, work):
    """The commands on one instance. Whether both answer alike."""
    alike = True
    for name in INSTANCES:
        instance = str(HERE / name)
        certificate = work / "certificate"
        certificate.write_bytes(answer(programs[1], ("certify", instance))[1])
        for command in COMMANDS:
            file = str(certificate) if command == "check" else instance
            alike &= compare(name, (command, file), programs, runs, work)
    return alike


def compare_networks(programs, runs, work):
    """The commands on a grid of 64 nodes. Whether both answer alike."""
    subprocess.run([programs[1], "grid_files", "7", "8", "120", work], check=True)
    network, arrivals, report = str(work / "net.toml"), str(work / "arr.csv"), work / "report"
    report.write_bytes(answer(programs[1], ("turns", network, arrivals))[1])
    calls = (
        ("120 rounds", ("grid", "7", "8", "120")),
        ("600 rounds", ("grid", "7", "8", "600")),
        ("120 rounds", ("turns", network, arrivals)),
        ("120 rounds", ("replay", network, arrivals, str(report))),
    )
    alike = True
    for name, words in calls:
        alike &= compare(name, words, programs, runs, work)
    return alike


def most_memory(program, words):
    """The most memory that one run holds, in MB, as /usr/bin/time tells it (a child of this script would be counted with the script's)."""
    run = subprocess.run(["/usr/bin/time", "-f", "%M", program, *words], stdin=subprocess.DEVNULL, stdout=subprocess.DEVNULL,
                         stderr=subprocess.PIPE)
    return int(run.stderr.split()[-1]) / 1000


def compute():
    """Some 70 ms of one processor. Python lets other threads run meanwhile."""
    hashlib.pbkdf2_hmac("sha256", b"a", b"b", 100_000)


def spread():
    """How long four computations at once take, and how long one does."""
    begin = time.perf_counter()
    compute()
    one = time.perf_counter() - begin
    threads = [threading.Thread(target=compute) for _ in range(4)]
    begin = time.perf_counter()
    for thread in threads:
        thread.start()
    for thread in threads:
        thread.join()
    return time.perf_counter() - begin, one


def compare_threads(program, peer, runs, work):
    """`net` against `turns` of one program. Whether what `net` writes is replayed to the same bytes."""
    subprocess.run([peer, "grid_files", "7", "8", "120", work], check=True)
    network, arrivals, report = str(work / "net.toml"), str(work / "arr.csv"), work / "threads"
    written = answer(program, ("net", network, arrivals))
    report.write_bytes(written[1])
    alike = answer(program, ("replay", network, arrivals, str(report))) == written
    times, spreads = ([], []), []
    for _ in range(runs):
        for taken, command in zip(times, ("net", "turns")):
            taken.append(seconds(program, (command, network, arrivals)) * 1e3)
        spreads.append(spread())
    net, turns = (most_memory(program, (command, network, arrivals)) for command in ("net", "turns"))
    for name, of in (("best", min), ("median", statistics.median)):
        ours, theirs = (of(taken) for taken in times)
        print(f"net, turns    120 rounds, {name:6} {ours:8.2f} ms {theirs:8.2f} ms  {ours / theirs:5.2f}", flush=True)
    four, one = (statistics.median(column) * 1e3 for column in zip(*spreads))
    print(f"four, one     computing,  median {four:8.2f} ms {one:8.2f} ms  {four / one:5.2f}", flush=True)
    print(f"net, turns    120 rounds, memory {net:8.1f} MB {turns:8.1f} MB  {net / turns:5.2f}" + ("" if alike else "   not replayed"), flush=True)
    return alike


def main():
    parser = argparse.ArgumentParser(description=__doc__.split("\n", 1)[0])
    parser.add_argument("peer", type=Path, help="the folder with the peer's package")
    parser.add_argument("--program", type=Path, default=HERE.parent / "crates/signal_program/out/signal_program")
    parser.add_argument("--runs", type=int, default=60, help="of a command on an instance, and of `net`; a sixth of them of the others on a network")
    parser.add_argument("--only", choices=("instances", "networks", "threads"))
    options = parser.parse_args()
    with tempfile.TemporaryDirectory() as place:
        work = Path(place)
        programs = (options.program.resolve(), peer_built(options.peer, work / "target"))
        print(f"{'':32} {'ours':>11} {'peer':>11}  ratio   {'ours':>10} {'peer':>10}  ratio")
        alike = True
        if options.only in (None, "instances"):
            alike &= compare_planners(programs, options.runs, work)
        if options.only in (None, "networks"):
            alike &= compare_networks(programs, max(options.runs // 6, 1), work)
        if options.only in (None, "threads"):
            alike &= compare_threads(*programs, options.runs, work)
    return 0 if alike else 1


if __name__ == "__main__":
    sys.exit(main())
