"""Reads crates.txt, which lists the crates of the repository and what each depends on."""

from pathlib import Path

ROOT = Path(__file__).resolve().parent.parent


def crate_lines(text):
    """The lines of crates.txt that name a crate, by name: each as it is, and what the crate depends on."""
    lines = {}
    for line in text.splitlines():
        head, colon, rest = line.split("#")[0].partition(":")
        if colon:
            lines[head.split()[0]] = line, rest.split()
    return lines


def at_or_below(name, lines):
    """The crate and all crates of the repository that it is made of, lowest first."""
    found = []

    def visit(crate):
        """Adds a crate after those below it."""
        if crate in lines and crate not in found:
            for low in lines[crate][1]:
                visit(low)
            found.append(crate)

    visit(name)
    return found


def text_of(names, lines):
    """A crates.txt of these crates alone."""
    return "".join(f"{lines[name][0]}\n" for name in names)
