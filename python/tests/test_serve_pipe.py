"""Tests of standard input under `serve`, over a real pipe: no contract says that the program takes the bytes that a pipe carries.

They run the program that is built here, or that of KOLVUNH_PROGRAM, and are skipped where there is none.
"""

import subprocess
import unittest
from collections.abc import Iterable
from threading import Thread
from typing import IO

from kolvunh.programs import built_program_words

from .worked import ROOT

NETWORK = str(ROOT / "examples/corridor.toml")
STATE = ROOT / "examples/corridor_state.csv"
PROGRAM = built_program_words()


def answer_of(words: list[str], pieces: Iterable[bytes] = ()) -> tuple[bytes, int]:
    """The answer of a call of the program, to whose standard input these are written one after another, and its status."""
    with subprocess.Popen([*PROGRAM, *words], stdin=subprocess.PIPE, stdout=subprocess.PIPE, bufsize=0) as process:
        writer = Thread(target=write_all, args=(process.stdin, pieces))
        writer.start()
        answer = process.stdout.read()
        writer.join()
        return answer, process.wait()


def write_all(pipe: IO[bytes], pieces: Iterable[bytes]) -> None:
    """Writes the pieces into a pipe one by one, and closes it."""
    with pipe:
        for piece in pieces:
            pipe.write(piece)


@unittest.skipIf(PROGRAM == [str(ROOT / "signal")], "the program is not built")
class PipeTest(unittest.TestCase):
    """What is served is what `decide` answers to the same text of a file, whichever way the bytes come."""

    def setUp(self):
        self.request = STATE.read_bytes() + b"end\n"
        self.answer = answer_of(["decide", NETWORK, str(STATE)])[0] + b"end\n"

    def test_bytes_one_by_one(self):
        pieces = [bytes([byte]) for byte in self.request]
        self.assertEqual(answer_of(["serve", NETWORK], pieces), (self.answer, 0))

    def test_many_requests_at_once(self):
        self.assertEqual(answer_of(["serve", NETWORK], [self.request * 200]), (self.answer * 200, 0))

    def test_pieces_that_end_within_lines(self):
        text = self.request * 20
        pieces = [text[at : at + 37] for at in range(0, len(text), 37)]
        self.assertEqual(answer_of(["serve", NETWORK], pieces), (self.answer * 20, 0))

    def test_a_line_longer_than_a_buffer(self):
        long = b"queue," + b"x" * 200_000 + b",0,,\nend\n"
        answer, status = answer_of(["serve", NETWORK], [self.request + long + self.request])
        first, rest = answer[: len(self.answer)], answer[len(self.answer) :]
        self.assertEqual((first, rest[-len(self.answer) :], status), (self.answer, self.answer, 0))
        self.assertRegex(rest[: -len(self.answer)], rb"\Arefused,[^\n]*\nend\n\Z")

    def test_no_bytes(self):
        self.assertEqual(answer_of(["serve", NETWORK]), (b"", 0))


if __name__ == "__main__":
    unittest.main()
