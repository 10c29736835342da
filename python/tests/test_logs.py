"""Tests of kolvunh.logs. Logs, rows and what is told are written by hand, from docs/RULES.md, "Actuated control", and from test_signs."""

import contextlib
import io

from kolvunh import Fault, run
from kolvunh.arrivals import read_arrivals
from kolvunh.logs import from_log, to_log
from kolvunh.logs.events import moment_of, read_log
from kolvunh.networks import read_network
from kolvunh.reports import Records

from .test_measures import HELD
from .test_mistakes import program
from .test_signs import NETWORK as OVERLAPS
from .test_signs import ROWS
from .worked import ARRIVALS, NETWORK, FilesTest

LOG = """TimeStamp,SignalID,EventCode,EventParam
2000-01-01 00:00:00.0,1,1,1
2000-01-01 00:00:00.0,1,82,1
2000-01-01 00:00:00.0,1,81,1
2000-01-01 00:00:00.0,2,1,1
2000-01-01 00:00:10.0,1,8,1
2000-01-01 00:00:13.0,1,10,1
2000-01-01 00:00:15.0,1,11,1
2000-01-01 00:00:15.0,1,1,2
2000-01-01 00:00:30.0,2,8,1
2000-01-01 00:00:33.0,2,10,1
2000-01-01 00:00:35.0,2,11,1
2000-01-01 00:00:45.0,1,8,2
2000-01-01 00:00:48.0,1,10,2
2000-01-01 00:00:50.0,1,11,2
"""
MAP = "signal,kind,number,name,seconds\n7115,node,,a,\n7115,phase,2,0,\n7115,phase,6,0,\n7115,phase,4,1,\n7115,detector,9,sa,10\n"

# What a log says in place of the first green and what follows it, and the end of the first row and what is told then
WRONG = (
    ("00:00:10.0,1,8,1", "00:00:04.9,1,8,1", 4, "phase 0 of node a: green for 4.9 s, and least is 5"),
    ("00:00:13.0,1,10,1", "00:00:12.9,1,10,1", 11, "yellow for 2.9 s after its green up to second 10, and 3 s are to be there"),
    ("2000-01-01 00:00:10.0,1,8,1\n", "", 13, "no yellow after its green up to second 13, and 3 s are to be there"),
    ("00:00:15.0,1,11,1", "00:00:13.0,1,11,1", 12, "no red clearance after its green up to second 10, and 2 s are to be there"),
    ("00:00:15.0,1,1,2", "00:00:12.0,1,1,2", 10, "phase 1 becomes green 2 s after its end, and 5 s are to be between"),
    ("00:00:15.0,1,1,2", "00:00:08.0,1,1,2", 10, "the clock steps back by 7 s"),
)

# Logs, maps and options that are refused: what is written, and what is said
BAD_LOGS = (
    ("", "has to begin with TimeStamp,SignalID,EventCode,EventParam"),
    ("TimeStamp,EventCode,EventParam\n", ":1: the header has no column SignalID: write TimeStamp,"),
    ("TimeStamp,SignalID,EventCode,EventParam,Code\n", ":1: the header has 2 columns EventCode"),
    ("TimeStamp,SignalID,EventCode,EventParam\n", "there are no events after the header"),
    (LOG.replace("00:00:10.0,1,8,1", "00:00:10.0,1,8"), ":6: the row has 3 fields"),
    (LOG.replace("00:00:10.0", "10.0"), ':6: the time stamp is "2000-01-01 10.0", and has to be one as 2026-05-04 07:00:00.1'),
    (LOG.replace("00:00:10.0", "00:61:10.0"), ":6: the time stamp"),
    (LOG.replace(",8,1", ",8.5,1"), ':6: the event code is "8.5", and has to be a whole number'),
    (LOG.replace(",8,1", ",8,"), ':6: the parameter is ""'),
    (LOG.replace(",1,8,1", ",9,8,1"), ':6: signal "9" is none of 1, 2: say by --map which node each signal is'),
    (LOG.replace(",1,8,1", ",1,8,6"), ':6: phase 6 is none of signal "1", which has 1, 2: say by --map'),
)
BAD_MAPS = (
    ("signal,kind\n", ":1: the header is"),
    (MAP.replace("phase,2", "ring,2"), ':3: the kind is "ring", and has to be one of node, phase, overlap, walk, detector'),
    (MAP.replace(",a,", ",c,"), ':2: the network has no node "c"'),
    (MAP.replace("7115,node,,a,\n", ""), ":2: write a row `7115,node,,NAME,` above"),
    (MAP + "7115,node,,b,\n", ':7: signal "7115" is the one of a node above'),
    (MAP.replace("phase,2,0", "phase,2,2"), ':3: "2" is no phase of node "a": write one of 0 to 1'),
    (MAP.replace("phase,6", "phase,2"), ':4: phase 2 of signal "7115" is in a row above'),
    (MAP.replace("9,sa", "9,sb"), ':6: "sb" is no link that ends at node "a"'),
    (MAP.replace("detector,9", "walk,9"), ':6: link "sa" has no `walk`'),
    (MAP.replace("phase,2", "phase,two"), ':3: the number is "two", and has to be a whole number'),
)
# Reports and arrivals that no log is written of: what the held report or the arrivals have in place of something, and what is said
BAD_REPORTS = (
    (HELD, "", "the file is empty"),
    ("kind,round", "kind,turn", 'the header is "kind,turn,node'),
    ("green,,a,0,0,10,", "green,,a,0,0,10", ":2: the row has 6 fields, and has to have 7"),
    ("green,,a,0,0,10,", "red,,a,0,0,10,", ':2: the kind is "red", and has to be one of step'),
    ("green,,a,0", "green,,a,one", ':2: phase of a green is "one", and has to be a whole number'),
    ("green,,a,0,0", "green,,c,0,0", 'a green is of node "c", which the network has not'),
    ("green,,a,0,0", "green,,a,2,0", 'a green is of phase 2 of node "a", which has 2 phases'),
    ("link,,,xb", "link,,,xc", "its links are not those of the network"),
    ("total,", "total,,,1,0,1,0\ntotal,", "there are 2 records `total`, and has to be one"),
    ("0,sa,1000", "0,sx,1000", 'link "sx" is none of the network'),
    ("0,sa,1000", "0,sa,", 'the amount is "", and has to be a whole number'),
)


class LogsTest(FilesTest):
    def read(self, log: str, *words: str, network: str = NETWORK, arrivals: str = ARRIVALS) -> tuple[int, list[str], str]:
        """The status, the lines of the sheet and what is told of a log."""
        files = [str(self.file(text, name)) for text, name in ((network, "net"), (log, "log"), (arrivals, "arr"))]
        with contextlib.redirect_stdout(io.StringIO()) as out, contextlib.redirect_stderr(io.StringIO()) as err:
            status = from_log.work([*files, *words])
        return status, out.getvalue().splitlines(), err.getvalue()

    def test_a_report_as_a_log_and_back(self) -> None:
        words = [str(self.file(text, name)) for text, name in ((NETWORK, "net"), (HELD, "report"), (ARRIVALS, "arr"))]
        self.assertEqual(to_log.answer(words), LOG)
        self.assertEqual(self.read(LOG), (0, HELD.splitlines(), ""))
        detected = self.folder / "detected"
        with contextlib.redirect_stdout(io.StringIO()) as out:
            from_log.work([str(self.folder / "net"), str(self.folder / "log"), "--arrivals", str(detected)])
        self.assertEqual((out.getvalue(), detected.read_text()), (HELD, ARRIVALS))

    def test_overlaps_and_walks(self) -> None:
        network = read_network(self.file(OVERLAPS, "net"))
        events = [(event.tenths // 10, event.code, event.parameter) for event in to_log.events_of(network, Records(greens=ROWS), [])]
        first = [(0, 1, 1), (0, 61, 1), (10, 8, 1), (13, 10, 1), (15, 11, 1), (15, 1, 2), (20, 8, 2), (20, 63, 1)]
        then = [(23, 10, 2), (23, 64, 1), (25, 11, 2), (25, 1, 3), (25, 65, 1), (25, 21, 1), (27, 22, 1), (30, 8, 3), (30, 23, 1)]
        self.assertEqual(events, [*first, *then, (33, 10, 3), (35, 11, 3)])
        report = self.file("kind,round,node,x,y,z,w\n" + "".join(f"green,,a,{g.phase},{g.begin},{g.end},\n" for g in ROWS), "report")
        log = to_log.answer([str(self.folder / "net"), str(report)])
        rows = [f"green,,a,{g.phase},{g.begin},{g.end}," for g in ROWS]
        none = "second,link,amount\n"
        status, sheet, told = self.read(log, network=OVERLAPS, arrivals=none)
        self.assertEqual((status, sheet[1:4], told), (0, rows, ""))
        status, sheet, told = self.read(log.replace("27.0,1,22,1", "28.0,1,22,1"), network=OVERLAPS, arrivals=none)
        self.assertEqual((status, sheet[1:4]), (1, rows))
        self.assertIn("link walk is green in seconds 25 to 28, which the phases do not make it", told)
        self.assertIn("crossing walk has 2 s to be over after its walk, and cross is 3", told)

    def test_what_is_wrong_is_told_and_in_the_sheet(self) -> None:
        for there, here, end, words in WRONG:
            status, sheet, told = self.read(LOG.replace(there, here))
            self.assertEqual((status, there, sheet[1].split(",")[5]), (1, there, str(end)))
            self.assertIn(words, told)
            if program():
                words = ["audit", self.folder / "net", self.folder / "arr", self.file("\n".join(sheet), "sheet")]
                self.assertRegex(run(words, [program()]).text, "^rejected (span|next) a [12]\n$")

    def test_gaps_and_ends(self) -> None:
        # 30 seconds of green, 5 of yellow and red clearance and 30 of `look` are no gap, 70 are one.
        later = "\n".join(line.replace("00:00:", "00:01:") if ",2,1" in line else line for line in LOG.splitlines()[:-4])
        status, sheet, told = self.read(later)
        self.assertEqual(status, 1)
        self.assertIn("phase 1 of node a: the log ends in its green", told)
        self.assertIn("signal 1, 2000-01-01 00:00:15.0", told)
        self.assertEqual(sheet[2], "green,,a,1,15,20,")
        gap = LOG.replace("00:00:45.0,1,8,2", "00:01:30.0,1,8,2").replace("00:00:48.0", "00:01:33.0").replace("00:00:50.0", "00:01:35.0")
        self.assertIn("no event for 75 s: a gap, or a clock that steps on, in line 13", self.read(gap)[2])

    def test_a_log_that_begins_and_ends_in_a_green(self) -> None:
        # Five seconds later the first green of each node has no begin, and the second one of `a`, from 10 on, no end; neither is wrong.
        log = "\n".join(LOG.splitlines()[:-3])
        status, sheet, told = self.read(log, "--begin", "2000-01-01 00:00:05")
        self.assertEqual((status, sheet[1:3]), (0, ["green,,a,1,10,15,", "link,,,sa,1000,1000,500"]))
        self.assertIn("the log begins in its green, which is no row", told)

    def test_two_rings_by_a_map(self) -> None:
        log = "Time,Event Param,event_code,Signal\n" + "".join(
            f"05/04/2026 07:00:{second:04.1f},{number},{code},7115\n"
            for second, code, number in (
                (0, 1, 2), (0.5, 1, 6), (8, 8, 6), (10, 8, 2), (11, 10, 6), (13, 10, 2), (13, 11, 6), (15, 11, 2), (15, 1, 4), (16, 82, 9)
            )
        )  # fmt: skip
        self.file(MAP, "map")
        words = ("--map", str(self.folder / "map"), "--begin", "2026-05-04 07:00:00", "--arrivals", str(self.folder / "detected"))
        status, sheet, told = self.read(log, *words)
        self.assertEqual((status, sheet[1:3]), (1, ["green,,a,0,0,10,", "green,,a,1,15,20,"]))
        self.assertIn("the controller's phases of phase 0 are not green together: 0 to 10 and 0.5 to 8", told)
        # The detector is ten seconds after the begin of its link.
        self.assertEqual([(row.second, row.link) for row in read_arrivals(self.folder / "detected")], [(6, "sa")])

    def test_what_is_refused(self) -> None:
        for text, words in BAD_LOGS:
            with self.assertRaises(Fault) as fault:
                self.read(text)
            self.assertIn(words, str(fault.exception))
        for text, words in BAD_MAPS:
            with self.assertRaises(Fault) as fault:
                self.read(LOG, "--map", str(self.file(text, "map")))
            self.assertIn(words, str(fault.exception))
        for there, here, words in BAD_REPORTS:
            texts = (NETWORK, HELD.replace(there, here), ARRIVALS.replace(there, here))
            with self.assertRaises(Fault) as fault:
                to_log.answer([str(self.file(text, name)) for text, name in zip(texts, ("net", "report", "arr"))])
            self.assertIn(words, str(fault.exception))
        with self.assertRaisesRegex(Fault, "no event is of second 0 or later: write --begin"):
            self.read(LOG, "--begin", "2000-01-02 00:00:00")
        with self.assertRaisesRegex(Fault, "--begin is .7:00., and has to be a whole second"):
            self.read(LOG, "--begin", "7:00")

    def test_time_stamps(self) -> None:
        for text in ("2026-05-04T19:00:00.1", "2026-05-04 19:00:00.100000", "5/4/2026 7:00:00.1 PM", "05/04/2026 19:00:00.1"):
            moment = moment_of(text)
            self.assertEqual((moment.hour, moment.minute, moment.microsecond), (19, 0, 100_000))
        # Without a begin, second 0 is the midnight before the first event.
        self.assertEqual(read_log(self.file(LOG.replace(" 00:", " 07:"), "log")).events[0].tenths, 252_000)


if __name__ == "__main__":
    import unittest

    unittest.main()
