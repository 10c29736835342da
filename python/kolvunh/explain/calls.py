"""What is wrong with the words of a call: docs/FORMATS.md, "Words"."""

import re
from collections.abc import Sequence

from ..records import plural, quote
from .wording import meant, thousands

# Words of ./signal alone, of which the program knows nothing: what they call, and those that have no word after them.
TOOLS = (
    "check-input", "explain", "summary", "measures", "page", "to-log", "from-log", "compare-seeds", "retime", "street", "counts",
    "from-utdf", "recommend",
)  # fmt: skip
ALONE = ("--build", "--version", "--help", "-h", "help")
NUMBER = re.compile(r"0|[1-9][0-9]*")
FORMS: dict[str, tuple[str, ...]] = {
    "plan": ("FILE",),
    "certify": ("FILE",),
    "certify_bound": ("FILE",),
    "certify_par": ("FILE WIDTH",),
    "check": ("FILE",),
    "turns": ("NET ARR",),
    "totals": ("NET ARR",),
    "net": ("NET ARR",),
    "replay": ("NET ARR HIST",),
    "instance": ("NET ARR HIST NODE ROUND",),
    "actuate": ("NET ARR",),
    "fixed": ("NET ARR PLAN",),
    "compare": ("NET ARR", "NET ARR PLAN"),
    "scale": ("NET ARR FROM TO STEP",),
    "spill": ("NET ARR STORE", "NET ARR STORE actuated"),
    "decide": ("NET STATE", "NET STATE NODE"),
    "serve": ("NET",),
    "audit": ("NET ARR REPORT",),
    "queues": ("NET ARR REPORT",),
    "upgrade": ("NET",),
    "bounds": ("NET", "NET PLAN"),
    "grid": ("NUMBER SIDE ROUNDS",),
}
BOUNDS = {
    "WIDTH": (1, 4096),
    "ROUND": (0, 2**32 - 1),
    "NUMBER": (0, 2**64 - 1),
    "SIDE": (2, 8),
    "ROUNDS": (1, 600),
    "FROM": (0, 10_000),
    "TO": (0, 10_000),
    "STEP": (1, 2**32 - 1),
}
# The kind of text that a word of the form names.
KINDS = {"ARR": "arrivals", "HIST": "history", "PLAN": "plan", "STORE": "store", "STATE": "state", "REPORT": "sheet"}
MOST_FACTORS = 20


def form_of(words: Sequence[str]) -> list[str]:
    """The names of the words of this call, the command first; nothing where it is none by its command and count."""
    found = next((form.split() for form in FORMS.get(words[0], ()) if len(form.split()) == len(words) - 1), None) if words else None
    return [words[0], *found] if found is not None else []


def files_of(words: Sequence[str]) -> list[tuple[str, str]]:
    """The files that a call names, in the order of its words, each with the name of its word."""
    pairs = zip(form_of(words), words)
    return [(name, word) for name, word in pairs if name in ("FILE", "NET") or name in KINDS]


def usage(words: Sequence[str]) -> list[str]:
    """Why words are no call, and the form of the call that was meant."""
    if not words:
        return ["no command is named; `./signal --help` lists them"]
    command = words[0]
    if command not in FORMS:
        return [no_command(words)]
    forms = " or ".join(f"`{command} {form}`" for form in FORMS[command])
    form = form_of(words)
    if not form:
        options = [word for word in words[1:] if word.startswith("-")]
        hint = f"; there are no options, as {quote(options[0])}, and the answer goes to standard output: add > FILE" if options else ""
        return [f"{command} has {plural(len(words) - 1, 'word')} after it, and the form is {forms}{hint}"]
    words_of = dict(zip(form[1:], words[1:]))
    fault = next((f"the last word is {quote(word)}, and has to be `{name}`" for name, word in words_of.items() if name.islower() and word != name), None)
    fault = fault or next(filter(None, (number_fault(name, word) for name, word in words_of.items() if name in BOUNDS)), None)
    fault = fault or (factors_fault(*(int(words_of[name]) for name in ("FROM", "TO", "STEP"))) if command == "scale" else None)
    return [f"{fault}; the form is {forms}"] if fault else []


def no_command(words: Sequence[str]) -> str:
    """Why the first of the words is no command of the program."""
    command, commands = words[0], (*FORMS, *TOOLS)
    if command in ALONE and len(words) > 1:
        return f"{command} has no word after it; `./signal COMMAND --help` explains a command"
    if command in (*ALONE, *TOOLS):
        return f"{command} is no command of the program: ./signal takes it as its first word"
    if command.startswith("-"):
        return f"there is no option {quote(command)}: the first word is a command, and `./signal --help` lists them"
    return f"there is no command {quote(command)}{meant(command, commands)}: there are {', '.join(commands)}"


def number_fault(name: str, word: str) -> str | None:
    """Why a word is not the number that its place wants."""
    least, most = BOUNDS[name]
    if not NUMBER.fullmatch(word):
        zero = ", without a zero in front" if word.isdigit() else ""
        return f"{name} is {quote(word)}, and has to be a whole number from 0 on{zero}"
    if not least <= int(word) <= most:
        return f"{name} is {word}, and has to be {least} to {thousands(most)}"
    return None


def factors_fault(first: int, last: int, step: int) -> str | None:
    """Why FROM, TO and STEP of `scale` make no factors."""
    if first > last:
        return f"FROM is {first}, and has to be at most TO, which is {last}"
    count = (last - first) // step + 1
    return f"there are {count} factors from {first} to {last} by {step}, and may be {MOST_FACTORS}" if count > MOST_FACTORS else None
