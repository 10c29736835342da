"""Commands over what the program `signal` reads and writes: python3 -m kolvunh COMMAND WORDS ..

    check-input NET ARR       what each junction has to carry, and what in the two files may make trouble
    draw KIND FILES ..        greens as text; a street, queues or points as SVG; points as a table
    measures NET ARR REPORT   delay, level of service, queues, stops, split failures, arrivals on green: a table or CSV
    page NET ARR REPORT ..    a page for a browser: reports side by side, time and space, queues, splits, coordination
    street FILE FOLDER        junctions in the words of the trade as a network, with places and what lanes hold
    counts NET COUNTS FOLDER  turning counts as arrivals, and as the turning shares of a network
    from-utdf FILE FOLDER     Synchro's UTDF as a network, arrivals and the fixed plan of its timings
    summary NET ARR [REPORT]  a run in a dozen lines, in vehicles and seconds
    explain WORDS ..          calls the program by the words, and says of a refusal what is wrong and where
    to-log NET REPORT [ARR]   a report as a log of controllers' events
    from-log NET LOG [ARR]    a log of controllers' events as a sheet for `audit`, and as arrivals
    retime NET ARR [PLAN]     a fixed plan: cycle by Webster, splits by loads, offsets, and a search over draws
    recommend NET ARR         the keys that suit a network, tried on draws of its arrivals: a network file
    compare-seeds NET ARR ..  controllers, fixed plans among them, over several draws of the vehicles
    sweep NET ARR ..          a network under several demands with several seeds
    orders NET ARR ..         a network in many orders of its nodes, and from which delay to which they come
    districts NET ARR ..      a city cut into districts, each a process under MPI
    to-sumo, from-sumo, sumo-loop, compare-sumo ..    beside SUMO: docs in tools/sumo/README.md
    compare-own, calibrate ..    SUMO's own network under its imported one: controllers side by side, what stop lines let through
    from-cityflow ROADNET FLOW DIR    CityFlow's files as a network file and arrivals

Each says more with --help.
"""

import importlib
import sys

MODULES = {
    "check-input": "check_input",
    "draw": "draw",
    "to-log": "logs.to_log",
    "from-log": "logs.from_log",
    "explain": "explain.command",
    "measures": "measures",
    "page": "page",
    "street": "street.command",
    "counts": "street.counts",
    "from-utdf": "street.from_utdf",
    "summary": "summary",
    "compare-seeds": "compare_seeds",
    "recommend": "recommend",
    "retime": "retime",
    "sweep": "sweep",
    "orders": "orders",
    "districts": "districts.command",
    "from-cityflow": "cityflow",
    "to-sumo": "sumo.to_sumo",
    "from-sumo": "sumo.from_sumo",
    "sumo-loop": "sumo.loop",
    "compare-sumo": "sumo.compare_sumo",
    "compare-own": "sumo.compare_own",
    "calibrate": "sumo.calibrate",
}


def main() -> None:
    """Runs the command that the first word names."""
    words = sys.argv[1:]
    if not words or words[0] in ("-h", "--help", "help"):
        print(__doc__.strip())
        return
    if words[0] not in MODULES:
        print(f"kolvunh: there is no command {words[0]!r}; there are {', '.join(MODULES)}", file=sys.stderr)
        sys.exit(2)
    sys.argv = [f"kolvunh {words[0]}", *words[1:]]
    importlib.import_module(f".{MODULES[words[0]]}", __package__).main()


if __name__ == "__main__":
    main()
