"""A process of the program that stays, `serve`: it reads a network once, and answers one state after another.

    with Serving(program, "net.toml") as serving:
        text = serving.decide(state)              # as `decide NET STATE` writes it
        texts = serving.turns(state, ["a", "b"])  # as `decide NET STATE NODE` does, for each of these nodes
        text = serving.decide_next(sensed)        # as `decide` of the state `sensed + serving.told`; what is sensed alone is sent

What was told last is what the last `decide` or `decide_next` answered, without its header. `turns` changes nothing of it, nor does a refusal.
"""

import subprocess
from collections.abc import Sequence
from os import PathLike, fspath
from typing import NoReturn

from .faults import Fault
from .records import plural, records_of

HEADER, END = "kind,name,x,y,z", b"\nend\n"


class Refused(Fault):
    """The program refused a state, with the line that `decide` has for it. It answers the next one all the same."""


class Serving:
    """The process. A state that is refused raises `Refused`. `told` is what was told last, without its header; None where nothing was yet."""

    def __init__(self, program: Sequence[str], network: str | PathLike[str]) -> None:
        self.told: str | None = None
        pipe = subprocess.PIPE
        try:
            self._process = subprocess.Popen([*program, "serve", fspath(network)], stdin=pipe, stdout=pipe, stderr=pipe)
        except OSError as fault:
            raise Fault(f"the program can't be run: {fault}") from fault

    def __enter__(self) -> "Serving":
        return self

    def __exit__(self, *how: object) -> None:
        """Ends the process, which stops where its input ends."""
        self._process.communicate()

    def decide(self, state: str) -> str:
        """The decision of all nodes in a state."""
        return self._decision(state, "end")

    def decide_next(self, sensed: str) -> str:
        """The decision of all nodes in the state of these records and, after them, those that were told last, which are not sent."""
        return self._decision(sensed, "next")

    def turns(self, state: str, names: Sequence[str]) -> list[str]:
        """The decision of each of these nodes in a state, by its own turn."""
        texts = [HEADER + text for text in self._answer(state, ",".join(["end", *names])).split(HEADER)[1:]]
        if len(texts) != len(names):
            raise Fault(f"serve: it answered {plural(len(texts), 'node')} of {len(names)}")
        return texts

    def _decision(self, text: str, last: str) -> str:
        """The answer to a request of all nodes, which is then what was told last."""
        answer = self._answer(text, last)
        self.told = answer.partition("\n")[2]
        return answer

    def _answer(self, state: str, last: str) -> str:
        """The answer to a request, without its last line, which is `end`."""
        try:
            self._process.stdin.write(f"{state}{last}\n".encode())
            self._process.stdin.flush()
        except BrokenPipeError:
            self._end()
        read, tail = [], b"\n"
        while tail != END:
            read.append(self._process.stdout.read1() or self._end())
            tail = (tail + read[-1])[-len(END) :]
        answer = b"".join(read).decode().removesuffix("end\n")
        if answer.startswith("refused,"):
            raise Refused(f"serve: {next(records_of(answer)).fields[1]}")
        return answer

    def _end(self) -> NoReturn:
        """Raises what the program said as it ended."""
        said = self._process.communicate()[1].decode(errors="replace").strip().splitlines()
        raise Fault(f"serve: it ended with status {self._process.returncode}: {(said or ['nothing is on its standard error'])[-1]}")
