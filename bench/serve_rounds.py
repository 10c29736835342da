#!/usr/bin/env python3
"""How long `serve` takes for a round: bench/serve_rounds.py NET [--rounds N] [--seed N] [--whole] [--program WORDS]

Each round's state has all that the round before was answered, and tells for each link that ends at a node a queue and vehicles that come,
drawn by the seed. The rounds after the first are asked by `next`, with what is sensed alone; with --whole each is asked by `end`, with the whole
state. What is measured is from the first byte of a request that is written to the last of the answer that is read, so the pipes and
Python's reading are in it. It prints the first round, which reads NET too, and the least, the median and the 90th of 100 of the others, in
milliseconds, with the records and bytes that are sent of a state and those of an answer in the mean. The answers are the same both ways.
"""

import argparse
import shlex
import statistics
import sys
import tomllib
from pathlib import Path
from random import Random
from time import perf_counter

sys.path.insert(0, str(Path(__file__).resolve().parents[1] / "python"))

from kolvunh.programs import built_program_words
from kolvunh.serving import Serving

VEHICLE = 1000  # thousandths
BUSY, COMING = 0.5, 0.2  # shares of the links with a queue, and of the seconds in which a vehicle comes


def state_of(network, now, told, random):
    """The text of a state: what is given back of the round before, and what is drawn."""
    rows = ["kind,name,x,y,z", f"now,,{now},,", *told]
    for link in network["link"]:
        if "to" not in link:
            continue
        if random.random() < BUSY:
            rows.append(f"queue,{link['name']},{VEHICLE * random.randint(1, 5)},{min(now, random.randint(0, 20))},")
        for second in range(now, now + link["travel"]):
            if random.random() < COMING:
                rows.append(f"coming,{link['name']},{second},{VEHICLE},")
    return "\n".join(rows) + "\n"


def main():
    parser = argparse.ArgumentParser(usage=__doc__)
    parser.add_argument("network", type=Path)
    parser.add_argument("--rounds", type=int, default=100)
    parser.add_argument("--seed", type=int, default=1)
    parser.add_argument("--whole", action="store_true")
    parser.add_argument("--program", type=shlex.split)
    options = parser.parse_args()
    network, random = tomllib.loads(options.network.read_text()), Random(options.seed)
    step = network["run"]["step"]
    told = [f"green,{node['name']},0,0,{node['phase'][0]['least']}" for node in network["node"]]
    taken, states, answers = [], [], []
    with Serving(options.program or built_program_words(), options.network) as serving:
        for number in range(options.rounds):
            state = state_of(network, number * step, told, random)
            decide = serving.decide if options.whole or number == 0 else serving.decide_next
            begin = perf_counter()
            answer = decide(state)
            taken.append(1000 * (perf_counter() - begin))
            told = answer.splitlines()[1:] if options.whole else []
            states.append(state)
            answers.append(answer)
    later = sorted(taken[1:])
    print(f"first {taken[0]:.2f} ms; least {later[0]:.2f}, median {statistics.median(later):.2f}, 90th of 100 {later[len(later) * 9 // 10]:.2f}")
    for name, texts in (("state", states), ("answer", answers)):
        print(f"{name}: {statistics.mean(text.count(chr(10)) for text in texts):.0f} records, {statistics.mean(map(len, texts)):.0f} bytes")


if __name__ == "__main__":
    main()
