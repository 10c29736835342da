#!/usr/bin/env python3
"""Reads and writes files of recorded cases, which have a group of cases each.

    unpack GROUP.cases.. TO    makes of each group a folder TO/GROUP with a folder for each case
    pack FROM TO               makes of each folder FROM/GROUP of cases a file TO/GROUP.cases
    check FOLDER               whether the files of FOLDER are what pack makes of what they hold
    sum CASE..                 puts the length and the sum of a case's `stdout` in its place

What the files of a case are is said in run_cases.py. A file of cases is a text in UTF-8. A line
`=== NAME` begins a case, and a line `--- FILE` a file of it, whose lines follow. A line
`*** N lines as D before` stands for N lines, each of which is as the line D lines before it. A text
that can't be written so is `--- FILE escaped`: it does not end in a newline, has a control
character other than a tab, is not UTF-8, or has a line that begins like one of these. In its lines
`\\r` stands for a carriage return and `\\xHH` for the byte HH, also for a backslash, and a
backslash at the end of a line says that no newline follows. Of these files no lines follow:

    --- FILE as GROUP/CASE/FILE                        the text of another file of this folder
    --- FILE first N bytes of GROUP/CASE/FILE          the front of one
    --- stdout of N bytes, sha256 HEX                  an answer of which only the sum is kept

The other file has its own lines. An answer that is a sum is the file `stdout.sum` of a case that
is unpacked. A `stdout` or `stderr` of no bytes is left out. The exit status is 0, 1 where a file is
not as pack makes it, or 2 where something can't be read or written.
"""

import argparse
import hashlib
import re
import sys
from pathlib import Path

FRONT = ("note", "words", "replays")
BACK = ("status", "stdout", "stdout.sum", "stderr")
SUM = "stdout.sum"
# A shorter text is written again, where a longer one is named; and so is a shorter front of one.
LEAST_AS, LEAST_FRONT = 40, 200
# How many bytes a line `***` saves at least, and at how many lines alike it looks.
LEAST_SAVED, MOST_ALIKE = 16, 300

MARKS = (b"=== ", b"--- ", b"*** ")
PLAIN = re.compile(rb"[^\x00-\x08\x0b-\x1f\x7f]*")
ESCAPE = re.compile(rb"\\(\n|r|x[0-9a-f]{2}|)")
ESCAPED = {b"\n": b"", b"r": b"\r"}
REPEAT = re.compile(rb"\*\*\* ([1-9]\d*) lines as ([1-9]\d*) before")
FIRST = re.compile(r"first (\d+) bytes of (.+)")
SUM_LINE = re.compile(r"\d+ bytes, sha256 [0-9a-f]{64}")


class Malformed(Exception):
    """What is wrong with a file or a folder of cases."""


def order(name):
    """The place of a file in its case: what it shows, its words, its files, and the answer."""
    if name in FRONT:
        return 0, FRONT.index(name), name
    return (2, BACK.index(name), name) if name in BACK else (1, 0, name)


# Lines of a text.


def is_plain(text):
    """Whether a text can be written as it is."""
    try:
        text.decode()
    except UnicodeDecodeError:
        return False
    if text and not text.endswith(b"\n"):
        return False
    has_mark = any(b"\n" + mark in b"\n" + text for mark in MARKS)
    return PLAIN.fullmatch(text) is not None and not has_mark


def escaped_form(text):
    """The escaped form of a text."""
    text = text.decode(errors="surrogateescape")
    text = re.sub("[\0-\x08\x0b\x0c\x0e-\x1f\x7f\\\\\udc80-\udcff]", escape, text)
    text = text.replace("\r", r"\r")
    text = re.sub(r"(?m)^[-=*](?=(--|==|\*\*) )", escape, text)
    return text.encode() + (b"" if text.endswith("\n") else b"\\\n")


def escape(character):
    """The escape of a character that stands for a byte."""
    return rf"\x{ord(character[0]) % 256:02x}"


def unescape(text):
    """The text of an escaped form."""

    def byte(found):
        word = found[1]
        if not word:
            raise Malformed("a backslash that begins no escape")
        return ESCAPED[word] if word in ESCAPED else bytes.fromhex(word[1:].decode())

    return ESCAPE.sub(byte, text)


def fold(lines):
    """Lines of which those that are as lines before them are named together, where that is shorter."""
    made, places, place = [], {}, 0
    while place < len(lines):
        saved, count, back = best_copy(lines, place, places.get(lines[place], ()))
        if saved >= LEAST_SAVED:
            made.append(b"*** %d lines as %d before" % (count, back))
        else:
            made.append(lines[place])
            count = 1
        for passed in range(place, place + count):
            places.setdefault(lines[passed], []).append(passed)
        place += count
    return made


def best_copy(lines, place, alike):
    """The copy at a place that saves most: how many bytes, of how many lines, and from how far before."""
    best = 0, 1, 0
    for before in reversed(alike[-MOST_ALIKE:]):
        count = 0
        while place + count < len(lines) and lines[before + count] == lines[place + count]:
            count += 1
        size = sum(len(line) + 1 for line in lines[place : place + count])
        saved = size - len("*** %d lines as %d before\n" % (count, place - before))
        if saved > best[0]:
            best = saved, count, place - before
    return best


def unfold(lines):
    """The lines that folded lines stand for."""
    made = []
    for line in lines:
        repeat = REPEAT.fullmatch(line)
        if repeat is None:
            made.append(line)
            continue
        count, back = map(int, repeat.groups())
        if back > len(made):
            raise Malformed(f"{line.decode()} after {len(made)} lines")
        for _ in range(count):
            made.append(made[-back])
    return made


# Files of cases.


def sections(path):
    """The cases of a file by name, and of each its files: what their heads say, and their lines."""
    cases = {}
    *whole, rest = path.read_bytes().split(b"\n")
    if rest:
        raise Malformed(f"{path} does not end in a newline")
    for number, line in enumerate(whole, 1):
        mark, rest = line[:4], line[4:].decode(errors="replace")
        if mark == b"=== " and rest not in cases:
            case = cases[rest] = {}
        elif mark == b"--- " and cases and rest.split(" ")[0] not in case:
            name, _, form = rest.partition(" ")
            lines = []
            case[name] = form, lines
        elif mark in (b"=== ", b"--- ") or not cases or not case:
            raise Malformed(f"{path}:{number}: {line.decode(errors='replace')}")
        else:
            lines.append(line)
    return cases


def text_of(form, lines):
    """The text of a file that has its own lines."""
    text = b"".join(line + b"\n" for line in unfold(lines))
    return unescape(text) if form == "escaped" else text


def is_own(form):
    return form in ("", "escaped")


def read_file(groups, form, lines):
    """The text of a file of some groups."""
    if is_own(form):
        return text_of(form, lines)
    first = FIRST.fullmatch(form)
    count, path = (int(first[1]), first[2]) if first else (None, form.removeprefix("as "))
    try:
        group, case, name = path.split("/")
        form, own = groups[group][case][name]
    except (KeyError, ValueError) as fault:
        raise Malformed(f"no file {path}") from fault
    if lines or not is_own(form):
        raise Malformed(f"{path} has no lines of its own, or there are lines beside it")
    text = text_of(form, own)
    if count is not None and count > len(text):
        raise Malformed(f"{path} has {len(text)} bytes")
    return text[:count]


def read_group(groups, name):
    """The cases of a group, each with its files."""
    cases = {}
    for case, files in groups[name].items():
        texts = cases[case] = {}
        for file, (form, lines) in files.items():
            try:
                if form.startswith("of ") and file == "stdout" and SUM_LINE.fullmatch(form[3:]):
                    texts[SUM] = form[3:].encode() + b"\n"
                else:
                    texts[file] = read_file(groups, form, lines)
            except Malformed as fault:
                raise Malformed(f"{name}/{case}/{file}: {fault}") from fault
    return cases


def read_files(paths):
    """The groups of files of cases. What they name of others is in files beside them."""
    paths = [Path(path) for path in paths]
    beside = {file for path in paths for file in path.parent.glob("*.cases")}
    folders = {path.parent for path in paths}
    if len(folders) > 1:
        raise Malformed("files of cases in several folders")
    groups = {file.stem: sections(file) for file in sorted({*beside, *paths})}
    return {path.stem: read_group(groups, path.stem) for path in paths}


# Texts that are written once.


def owners(groups):
    """For each text of some length the first file that has it."""
    found = {}
    for group, cases in groups.items():
        for case, files in cases.items():
            for name, text in files.items():
                if len(text) >= LEAST_AS and name != SUM:
                    found.setdefault(text, f"{group}/{case}/{name}")
    return found


def fronts(texts):
    """For each of these texts that is the front of others the first of those that is no front itself."""
    places = {text: place for place, text in enumerate(texts)}
    ordered, found = sorted(texts), {}
    for place, text in enumerate(ordered):
        longer = []
        for other in ordered[place + 1 :]:
            if not other.startswith(text):
                break
            longer.append(other)
        if longer and len(text) >= LEAST_FRONT:
            found[text] = longer
    return {
        text: min((it for it in longer if it not in found), key=places.get)
        for text, longer in found.items()
    }


def head_and_lines(path, text, owner, front):
    """How a file is written: what its head says after its name, and its lines."""
    if text in front:
        return f" first {len(text)} bytes of {owner[front[text]]}", []
    if owner.get(text, path) != path:
        return f" as {owner[text]}", []
    form, text = ("", text) if is_plain(text) else (" escaped", escaped_form(text))
    return form, fold(text.split(b"\n")[:-1])


def texts_of(groups):
    """The files of cases of these groups."""
    groups = {group: in_order(groups[group]) for group in sorted(groups)}
    owner = owners(groups)
    front = fronts(owner)
    return {group: group_text(group, cases, owner, front) for group, cases in groups.items()}


def in_order(cases):
    """Cases in their order, with their files in their order."""
    return {
        case: {name: files[name] for name in sorted(files, key=order)}
        for case, files in sorted(cases.items())
    }


def group_text(group, cases, owner, front):
    """The file of a group."""
    made = []
    for case, files in cases.items():
        made.append(f"=== {case}".encode())
        for name, text in files.items():
            if name == SUM:
                made.append(b"--- stdout of " + text.rstrip())
                continue
            form, lines = head_and_lines(f"{group}/{case}/{name}", text, owner, front)
            made += [f"--- {name}{form}".encode(), *lines]
    return b"".join(line + b"\n" for line in made)


# Folders.


def read_case(folder):
    """The files of a case's folder."""
    files = {}
    for path in sorted(folder.iterdir(), key=lambda it: order(it.name)):
        if not path.is_file() or re.search(r"[\s/]", path.name):
            raise Malformed(f"{path} is no file of a case")
        text = path.read_bytes()
        if text or path.name not in ("stdout", "stderr"):
            files[path.name] = text
    if not SUM_LINE.fullmatch(files.get(SUM, b"0 bytes, sha256 " + b"0" * 64).decode().rstrip()):
        raise Malformed(f"{folder / SUM} is no length and sum")
    return files


def read_folders(folder):
    """The groups of a folder of folders."""
    return {
        group.name: {case.name: read_case(case) for case in sorted(group.iterdir())}
        for group in sorted(Path(folder).iterdir())
    }


def unpack(paths, to):
    """Makes of files of cases folders."""
    for group, cases in read_files(paths).items():
        for case, files in cases.items():
            folder = Path(to) / group / case
            folder.mkdir(parents=True)
            for name, text in files.items():
                (folder / name).write_bytes(text)


def pack(folder, to):
    """Makes of folders files of cases, the only ones of their folder."""
    groups, to = read_folders(folder), Path(to)
    others = [path for path in to.glob("*.cases") if path.stem not in groups]
    if others:
        raise Malformed(f"{others[0]} is there, and {folder} has no such group")
    for group, text in texts_of(groups).items():
        (to / f"{group}.cases").write_bytes(text)


def others(folder):
    """The files of cases in a folder that pack would make otherwise."""
    paths = sorted(Path(folder).glob("*.cases"))
    if not paths:
        raise Malformed(f"{folder} has no files of cases")
    made = texts_of(read_files(paths))
    return [path for path in paths if made[path.stem] != path.read_bytes()]


def sum_line(text):
    """The length and the sum of a text."""
    return f"{len(text)} bytes, sha256 {hashlib.sha256(text).hexdigest()}"


def keep_sum(case):
    """Puts the length and the sum of a case's answer in its place."""
    answer = Path(case) / "stdout"
    (answer.parent / SUM).write_text(sum_line(answer.read_bytes()) + "\n")
    answer.unlink()


def main():
    parser = argparse.ArgumentParser(
        description=__doc__, formatter_class=argparse.RawDescriptionHelpFormatter
    )
    parser.add_argument("command", choices=("unpack", "pack", "check", "sum"))
    parser.add_argument("places", nargs="+", metavar="PLACE")
    options = parser.parse_args()
    command, places = options.command, options.places
    if (command == "pack" and len(places) != 2) or (command == "unpack" and len(places) < 2):
        parser.error(f"{command} takes what is read, and a folder")
    try:
        sys.exit(done(command, places))
    except (Malformed, OSError) as fault:
        print(f"cases: {fault}", file=sys.stderr)
        sys.exit(2)


def done(command, places):
    """Does what is asked. How many files are not as they should be."""
    if command == "check":
        found = [path for folder in places for path in others(folder)]
        for path in found:
            print(f"{path} is not as pack makes it")
        return 1 if found else 0
    if command == "unpack":
        unpack(places[:-1], places[-1])
    elif command == "pack":
        pack(*places)
    else:
        for case in places:
            keep_sum(case)
    return 0


if __name__ == "__main__":
    main()
