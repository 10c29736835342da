"""Tests of kolvunh.series and of the commands `sweep` and `compare-seeds`, and of the table of points that kolvunh.draw makes, over a program that
only pretends."""

import tomllib
import unittest

from kolvunh import Arrival, Fault, compare_seeds, draw, series, sweep
from kolvunh.networks import network_of
from kolvunh.reports import Green, Records

from .test_measures import HELD
from .test_orders import CalledTest
from .worked import ARRIVALS, NETWORK, PLAN


class SweepTest(CalledTest):
    def test_a_sweep(self):
        files = self.file(NETWORK, "network.toml"), self.file(ARRIVALS, "arrivals.csv")
        said = self.called(sweep.main, *files, "--demands", 1, "--seeds", 2, "--series", "turns", "backward", "actuate:act_step=1,gap=3")
        rows = [("turns", "1.000"), ("backward", "2.000"), ('"actuate:act_step=1,gap=3"', "7.000")]
        wanted = [f"{series},1.0,{delay},{seed}" for seed in (1, 2) for series, delay in rows]
        self.assertEqual(said.splitlines(), ["series,x,y,seed", *wanted])
        table = draw.parser_of().parse_args(["table", str(self.file(said, "points.csv")), "--of", "turns"])
        lines = table.draw(table).splitlines()
        self.assertEqual(lines[2:4], ["| `turns` | 1.0 ± 0.0 |", "| `backward` | 2.0 ± 0.0 |"])
        self.assertEqual(lines[5], "| `turns` below `backward`, in 100 | 50.0 ± 0.0 (50 to 50), 0 of 2 above |")

    def test_controllers_over_draws(self):
        files = self.file(NETWORK, "network.toml"), self.file(ARRIVALS, "arrivals.csv")
        names = ["turns", f"fixed:plan={self.file(PLAN, 'plan.csv')}"]
        for words in (["--seeds", 2], ["--seeds", 0], [files[1]]):
            said = self.called(compare_seeds.main, *files, *words, "--series", *names).splitlines()
            draws = 1 if words == ["--seeds", 0] else 2
            self.assertEqual(said[0], "1 draw" if draws == 1 else "2 draws")
            self.assertEqual(said[2].split(), ["turns", "1", "1.0", "0.0", "1.0", "1.0", "1.0"])
            # 1 second is below 7 by 6 of 7 parts.
            cells = ["7", "7.0", "0.0", "7.0", "7.0", "1.0", "85.7", "0.0", "0", "of", str(draws)]
            self.assertEqual(said[3].removeprefix(names[1]).split(), cells)
        said = self.called(compare_seeds.main, *files, "--seeds", 1, "--series", "turns", "--csv")
        self.assertEqual(said, "series,draw,entered,left,on_links,delay\nturns,1,1000,0,1000,1000\n")

    def test_a_study_of_a_fixed_plan(self):
        # The run of docs/RULES.md, "Actuated control", stands for that of the plan: its one vehicle waits 7.5 seconds.
        program = self.file(f"#!/bin/sh\n[ $# = 4 ] && [ $1 = fixed ] && cat '{self.file(HELD, 'report.csv')}'\n", "program")
        program.chmod(0o755)
        files = self.file(NETWORK, "network.toml"), self.file(ARRIVALS, "arrivals.csv")
        study = series.study_under(*files, f"fixed:plan={self.file(PLAN, 'plan.csv')}", [str(program)])
        self.assertEqual(study.table("network")[0].delay, 7.5)

    def test_series_that_are_none(self):
        plan = self.file(PLAN, "plan.csv")
        for name, words in (
            ("best", '"best" is no series: it begins with one of turns, actuate, fixed'),
            ("turns:best=1", '"best" is no key of .run.: write one of'),
            ("fixed", '"fixed": write fixed:plan=FILE'),
            (f"turns:plan={plan}", "turns takes no plan"),
            ("fixed:plan=nowhere.csv", "nowhere.csv: No such file"),
            (f"fixed:plan={self.file(ARRIVALS, 'arrivals.csv')}", "the header is .second,link,amount., and has to be node,phase,green,offset"),
        ):
            with self.assertRaisesRegex(Fault, words):
                series.series_of(name)


class KeysTest(unittest.TestCase):
    def test_keys_of_a_run(self):
        self.assertEqual(series.keys_of("turns"), {})
        self.assertEqual(series.keys_of("actuate:act_step=1,hold="), {"act_step": "1", "hold": ""})
        text = series.network_text(NETWORK, {"gap": "4", "act_step": "1", "hold": ""})
        run, before = tomllib.loads(text)["run"], tomllib.loads(NETWORK)["run"]
        self.assertEqual(run, {**before, "gap": 4, "act_step": 1})
        self.assertEqual(tomllib.loads(text)["link"], tomllib.loads(NETWORK)["link"])
        with self.assertRaisesRegex(Fault, "no line of the network is"):
            series.network_text("run = {}\n", {"gap": "4"})

    def test_what_counts_after_a_warm_up(self):
        # docs/RULES.md, "World": 1000 wait from second 10 on; with green from 12 there are 1000 at moments 11 to 14, and 500 at 15.
        network = network_of(tomllib.loads(NETWORK))
        rows, greens = [Arrival(0, "sa", 1000), Arrival(19, "sb", 500)], [Green("a", 1, 12, 40)]
        delays = [sweep.warm_delay(network, rows, Records(greens=greens), warm) for warm in (0, 13)]
        self.assertEqual(delays, [4500 / 1500, 1500 / 500])

    def test_draws_are_those_of_their_seeds(self):
        rates = {"sa": 0.5}
        self.assertEqual(series.draw_arrivals(rates, 60, 1.0, 3), series.draw_arrivals(rates, 60, 1.0, 3))
        self.assertNotEqual(series.draw_arrivals(rates, 60, 1.0, 3), series.draw_arrivals(rates, 60, 1.0, 4))


if __name__ == "__main__":
    unittest.main()
