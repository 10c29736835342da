#!/usr/bin/env python3
"""Tries the wrong bodies of crates: the check has to refuse each of them.

    tools/wrong_bodies.py [--jobs N | --kept] [CRATE ..]

A wrong body is a file NAME.edit in crates/CRATE/must-fail/, which `rt ci` tries too, or in
crates/CRATE/wrong-bodies/, which is tried here alone. It has a line `file: src/FILE` and then
pairs of lines `old: TEXT` and `new: TEXT`; each old text is in that file exactly once, and further
pairs apply to what the earlier ones made. No other line is read.

A contract says what callers are given, and an edit leaves it as it is. So the wrong bodies of a
crate that are in different functions are tried together, in one check of a copy of the crate with
all of them, which begins with what `rt check` kept of the crate: only these functions are proved
again. Each of them has to be refused for a reason of its own, and no other function may be: that
one calls a function that is refused is no such reason. Where a check says anything else, each of
its wrong bodies is tried alone.

It runs in the repository, and tries the crates that are named, or all. Where `rt check` kept
nothing of a crate, or a library below it is not built, `rt check` is run in the crate's folder
first, which takes as long as it takes there, and keeps its work in out/ as ever. Nothing else is
written outside a temporary folder. --jobs says how many crates are tried side by side; if it is
left out, as many as there are processors, and 3 GB of free memory for each.

With --kept all is done by `rt ci`, over the proofs that it kept of the crates below: no library is
built by `rt check`. It is run on a copy of these crates in which all their wrong bodies are in
must-fail/. So each of these crates is proved once more, and each wrong body is tried in a check of
its own, which says that the crate is refused, and not which function. What `rt ci` tried of the same
files, here or in the gate, it does not try again.

For each wrong body a line says `refused`, or what went wrong; the last one is `N wrong bodies, M
not refused`. The exit status is 0 where M is 0, 1 where it is not, and 2 where there are none, or
they can't be tried; a line on standard error then says what is wrong.
"""

import argparse
import os
import re
import shutil
import subprocess
import sys
import tempfile
import threading
from concurrent.futures import ThreadPoolExecutor
from dataclasses import dataclass
from pathlib import Path

from crates import ROOT, at_or_below, crate_lines, text_of

FOLDERS = ("must-fail", "wrong-bodies")
PARTS = ("src", "specs", "proofs")
MEMORY_OF_A_JOB = 3_000_000_000
REFUSED = "refused"
LOST_NAME = "refused, but only since a proof names what it takes away, which says nothing of the contract"
NOT_REFUSED = "NOT REFUSED: the function is still proved"

FN = re.compile(r"\s*(?:pub(?:\([^)]*\))? )?(?:const |unsafe |extern \"C\" )*fn (\w+)")
OWNER = re.compile(r"\s*(?:pub(?:\([^)]*\))? )?(?:unsafe )?(impl|trait|mod)\b")
VERDICT = re.compile(r"(?m)^fn (\S+): (proved|not proved|no proof|could not tell)(?:: )?(.*)$")
LOST = re.compile(r"has no field|is not in scope|has no `|was not admitted")
TRIED = re.compile(r"(?m)^rt: must-fail (\w+)/(\S+): (refused|NOT REFUSED|BAD EDIT|NOT TRIED)(.*)$")


class Malformed(Exception):
    """What is wrong with an edit, a crate or the repository."""


@dataclass(frozen=True)
class Function:
    """A function by the module that it is written in, its name, and, of a method, the type and the trait of its impl."""

    module: str
    name: str
    type: str = ""
    trait: str = ""

    def is_named(self, printed):
        """Whether a check prints the function, or a closure in it, by this name. A method is under its type's module."""
        if not self.type:
            names = [f"{self.module}::{self.name}"]
        elif self.trait:
            names = [f"{self.module}::{self.type}{self.trait}\\w*::{self.name}"]
        else:
            names = [rf"{self.module.partition('::')[0]}(?:::\w+)*?::{self.type}::{self.name}"]
        tail = f"{self.type}{self.trait}\\w*::{self.name}" if self.type else self.name
        names.append(rf"{self.module}::fn::{tail}::.*")
        return any(re.fullmatch(name, printed) for name in names)


@dataclass(frozen=True)
class Edit:
    """A wrong body: its file, and its pairs of old and new text, each with the file of the crate that it is in."""

    path: Path
    pairs: tuple

    @property
    def label(self):
        return f"{self.path.parents[1].name}/{self.path.parent.name}/{self.path.name}"


def edit_of(path):
    """The wrong body in a file."""
    pairs, file, old = [], None, None
    for line in path.read_text(encoding="utf-8").split("\n"):
        if line.startswith("file: "):
            file = line.removeprefix("file: ").strip()
        elif line.startswith("old: "):
            old = line.removeprefix("old: ")
        elif line.startswith("new:"):
            if not file or not old:
                raise Malformed("a `new:` comes before any `file:` or `old:`")
            pairs.append((file, old, line.removeprefix("new:").removeprefix(" ")))
            old = None
    if not pairs:
        raise Malformed("it has no pair of `old:` and `new:`")
    return Edit(path, tuple(pairs))


def apply(edit, folder, texts):
    """The texts of a crate's files with the edit, by path, and the functions that it changes; where there are texts, they
    stand for the files."""
    texts, functions = dict(texts), set()
    for file, old, new in edit.pairs:
        if not file.startswith("src/") or ".." in file:
            raise Malformed(f"{file} is no file of src/")
        if file not in texts:
            if not (folder / file).is_file():
                raise Malformed(f"there is no {file}")
            texts[file] = (folder / file).read_text(encoding="utf-8")
        if texts[file].count(old) != 1:
            raise Malformed(f"its old text is in {file} {texts[file].count(old)} times")
        line = texts[file].count("\n", 0, texts[file].index(old))
        functions.add(function_at(texts[file], line, module_of(folder.name, file)))
        texts[file] = texts[file].replace(old, new)
    return texts, functions


def module_of(crate, file):
    """The path of the module in a file of src/."""
    parts = Path(file).with_suffix("").parts[1:]
    return "::".join([crate, *(part for part in parts if part not in ("lib", "main", "mod"))])


def indent_of(line):
    return len(line) - len(line.lstrip())


def function_at(text, at, module):
    """The function around a line, counted from 0, of a text in rt fmt's layout; None outside of functions."""
    lines = text.split("\n")
    name = name_at(lines, at)
    if name is None:
        return None
    owner = enclosure_of(lines, name, OWNER)
    while owner is not None:
        head = head_of(lines, owner)
        if head[0] != "mod":
            return Function(module, FN.match(lines[name])[1], *head[1:])
        module += f"::{head[1]}"
        owner = enclosure_of(lines, owner, OWNER)
    return Function(module, FN.match(lines[name])[1])


def name_at(lines, at):
    """The line with the name of the outermost function around a line."""
    found, above = None, at if FN.match(lines[at]) else enclosure_of(lines, at, FN)
    while above is not None:
        found, above = above, enclosure_of(lines, above, FN)
    return found


def enclosure_of(lines, at, form):
    """The nearest line above of this form whose block is still open there: it is indented less than all since that close one."""
    limit = indent_of(lines[at])
    for place in range(at - 1, -1, -1):
        line = lines[place]
        if form.match(line) and indent_of(line) < limit:
            return place
        if line.lstrip().startswith("}"):
            limit = min(limit, indent_of(line))
    return None


def head_of(lines, at):
    """What opens a block: `impl`, its type and its trait; `impl` and a trait for the trait itself; or `mod` and its name."""
    head = lines[at].strip()
    while "{" not in head and at + 1 < len(lines):
        at += 1
        head += f" {lines[at].strip()}"
    head = without_brackets(head.partition("{")[0].removeprefix("unsafe ")).partition(" where ")[0]
    word, _, rest = re.sub(r"^pub(\([^)]*\))? ", "", head).partition(" ")
    trait, is_for, type = rest.partition(" for ")
    if word == "mod":
        return "mod", rest.strip()
    if word == "trait" or not is_for:
        return "impl", last_name(trait.partition(":")[0] if word == "trait" else rest), ""
    return "impl", last_name(type), last_name(trait)


def without_brackets(text):
    """A text without what is in angle brackets."""
    kept, depth = [], 0
    for letter in text.replace("impl<", "impl <").replace("->", ""):
        depth += letter == "<"
        kept += letter if depth == 0 else ""
        depth -= letter == ">"
    return re.sub(r"\s+", " ", "".join(kept))


def last_name(path):
    """The last name of a path, which may be behind a reference."""
    names = re.findall(r"\w+", path.split("::")[-1])
    return names[-1] if names else ""


def checks_of(edits, folder):
    """The wrong bodies in as few checks as keep them in different functions, each with its functions, and why others can't be
    applied. One that is outside of functions has a check of its own."""
    checks, faults = [], {}
    for edit in edits:
        try:
            functions = apply(edit, folder, {})[1]
        except Malformed as fault:
            faults[edit] = f"cannot be applied: {fault}"
            continue
        for check in checks if None not in functions else []:
            if joins(edit, functions, check, folder):
                check[edit] = functions
                break
        else:
            checks.append({edit: functions})
    return checks, faults


def joins(edit, functions, check, folder):
    """Whether a wrong body may be in a check: in functions of its own, with old texts that the others leave alone."""
    if any(None in others or functions & others for others in check.values()):
        return False
    try:
        texts_of([*check, edit], folder)
    except Malformed:
        return False
    return True


def texts_of(edits, folder):
    """The texts of a crate's files with all these wrong bodies."""
    texts = {}
    for edit in edits:
        texts = apply(edit, folder, texts)[0]
    return texts


def own_reasons(reasons):
    """Why a function has no proof, but for what it calls."""
    return [it for it in reasons.split("; ") if it and not it.startswith("it calls ")]


def refused_in(told):
    """The functions that a check refuses for reasons of their own, and those on which it gives no verdict."""
    lines, refused = VERDICT.findall(told), set()
    for name, said, reasons in lines:
        if said == "not proved" or said == "no proof" and (own_reasons(reasons) or not reasons):
            refused.add(name)
    return refused, {name for name, said, _ in lines if said == "could not tell"}


def loses_names(told, names):
    """Whether all that a check says of the proofs of these functions is that names are gone."""
    folders = [f"proofs/{name.partition('::')[2].replace('::', '/')}/" for name in names]
    lines = [re.match(r"(?:note: )?(?:\./)?(proofs/\S+?):\d+:\d+: error: (.*)", line) for line in told.split("\n")]
    faults = [line[2] for line in lines if line and line[1].startswith(tuple(folders))]
    is_asked = any(name in names and "did not prove" in why for name, _, why in VERDICT.findall(told))
    return bool(faults) and not is_asked and all(LOST.search(fault) for fault in faults)


def outcomes(check, told):
    """What a check of these wrong bodies says of each, where it is well or there is but one; else None."""
    last = [line for line in told.split("\n") if line.startswith(("logic=", "rattle: "))][-1:]
    if not last or not last[0].startswith("logic="):
        return whole(check, unread(told))
    refused, unsure = refused_in(told)
    if None in next(iter(check.values())):
        return whole(check, REFUSED if refused else NOT_REFUSED)
    found, rest = {}, set(refused)
    for edit, functions in check.items():
        named = {name for name in refused if any(function.is_named(name) for function in functions)}
        rest -= named
        found[edit] = (LOST_NAME if loses_names(told, named) else REFUSED) if named else NOT_REFUSED
        if not named and any(function.is_named(name) for function in functions for name in unsure):
            found[edit] = "NO VERDICT on its function"
    if rest:
        return whole(check, f"another function fell too: {', '.join(sorted(rest))}")
    return found if len(check) == 1 or set(found.values()) <= {REFUSED, LOST_NAME} else None


def whole(check, said):
    """What is said of the one wrong body of a check; None where there are more."""
    return {next(iter(check)): said} if len(check) == 1 else None


def unread(told):
    """What went wrong in a check that came to no verdict."""
    lines = told.strip().split("\n")
    fault = next((line for line in lines if re.search(r"\berror(\[[\w-]+\])?:", line)), None)
    if fault is not None and not any(line.startswith("rattle: no verdict") for line in lines):
        return f"does not compile: {fault}"
    return f"NO VERDICT: {lines[-1]}"


def try_edits(folder, edits, run):
    """What comes of each wrong body of the crate in a folder; the call gives what a check with these texts prints."""
    checks, found = checks_of(edits, folder)
    while checks:
        check = checks.pop(0)
        said = outcomes(check, run(texts_of(check, folder)))
        if said is None:
            checks = [{edit: functions} for edit, functions in check.items()] + checks
        else:
            found.update(said)
    return found


def tried_in(told):
    """What a run of `rt ci` says of each wrong body, by its crate and the name of its file."""
    return {(crate, name): said_by_ci(how, why) for crate, name, how, why in TRIED.findall(told)}


def said_by_ci(how, why):
    """What is said here of a wrong body of which `rt ci` says this."""
    if how == "refused" and "(only because a proof file names" in why:
        return LOST_NAME
    if how == "refused" and "(only by a limit" in why:
        return f"NO VERDICT{why.removeprefix(', as it must be')}"
    return {"refused": REFUSED, "NOT REFUSED": NOT_REFUSED}.get(how, f"{how}{why}")


class Repository:
    """The crates that crates.txt lists, each with its line and those below it."""

    def __init__(self, root):
        self.root = root
        self.lines = crate_lines((root / "crates.txt").read_text(encoding="utf-8"))
        self.making = threading.Lock()

    def require(self, names):
        """Refuses the names of what is no crate."""
        for name in names:
            if name not in self.lines:
                raise Malformed(f"crates.txt has no crate {name}")

    def folder(self, crate):
        """The folder of a crate."""
        return self.root / "crates" / crate

    def below(self, crate):
        """The crates below a crate, lowest first."""
        return at_or_below(crate, self.lines)[:-1]

    def edits(self, crate):
        """The wrong bodies of a crate, and what is wrong with those that can't be read."""
        found, faults = [], {}
        for path in sorted(path for part in FOLDERS for path in (self.folder(crate) / part).glob("*.edit")):
            try:
                found.append(edit_of(path))
            except (Malformed, UnicodeDecodeError) as fault:
                faults[Edit(path, ())] = f"cannot be applied: {fault}"
        return found, faults

    def is_ready(self, crate):
        """Whether `rt check` kept work of the crate, and built each library below after its last change."""
        return (self.folder(crate) / "out/incremental").is_dir() and all(
            is_newer(self.folder(name) / "out/rlib/stamp", self.folder(name)) for name in self.below(crate)
        )

    def make_ready(self, crate):
        """Runs `rt check` in the crate's folder, unless all that it makes is there."""
        with self.making:
            if not self.is_ready(crate):
                print(f"{crate}: rt check, which keeps what is missing below it", flush=True)
                if run_check(self.folder(crate)).returncode:
                    raise Malformed("rt check does not prove its crate as it is")

    def check(self, crate, texts):
        """What `rt check` prints in a copy of a crate, with these texts in place of its own, and what was kept of it."""
        with tempfile.TemporaryDirectory(prefix="wrong-bodies-") as place:
            copy = self.copy(crate, Path(place))
            link_tree(self.folder(crate) / "out/incremental", copy / "out/incremental")
            for file, text in texts.items():
                (copy / file).write_text(text, encoding="utf-8")
            return run_check(copy).stdout

    def copy(self, crate, top):
        """Makes a repository of a crate and those below it, which are built as they are here; and answers the crate's folder."""
        for name in self.copy_texts([crate], top):
            if name != crate:
                link_tree(self.folder(name) / "out/rlib", top / "crates" / name / "out/rlib")
        return top / "crates" / crate

    def copy_texts(self, crates, top):
        """Makes a repository of these crates and those below them, of which nothing is built; and answers the names of all."""
        names = list(dict.fromkeys(name for crate in crates for name in at_or_below(crate, self.lines)))
        (top / "crates.txt").write_text(text_of(names, self.lines))
        shutil.copy(self.root / "HANDLES", top)
        for name in names:
            for part in PARTS:
                if (self.folder(name) / part).is_dir():
                    shutil.copytree(self.folder(name) / part, top / "crates" / name / part)
        return names

    def copy_for_ci(self, crates, top):
        """Makes a repository of these crates and those below them, in which all wrong bodies of these are such as `rt ci` tries."""
        self.copy_texts(crates, top)
        for crate in crates:
            folder = top / "crates" / crate / "must-fail"
            folder.mkdir()
            for edit in self.edits(crate)[0]:
                if (folder / edit.path.name).exists():
                    raise Malformed(f"two wrong bodies of {crate} are named {edit.path.name}")
                shutil.copy(edit.path, folder)


def is_newer(stamp, folder):
    """Whether a file is there and no file of a crate was changed after it."""
    files = [file for part in PARTS for file in (folder / part).rglob("*") if file.is_file()]
    return stamp.is_file() and all(file.stat().st_mtime <= stamp.stat().st_mtime for file in files)


def link_tree(folder, to):
    """Copies a folder that rt made, by links where these can be made and the toolchain replaces the files, never writes to them."""

    def link(one, other):
        try:
            if one.endswith(".oantt") or "/out/rlib/" in one:
                return os.link(one, other)
        except OSError:
            pass
        return shutil.copy2(one, other)

    if folder.is_dir():
        shutil.copytree(folder, to, copy_function=link)


def run_check(folder):
    """How `rt check` in a crate's folder ended, and all that it printed."""
    return run_here(["rt", "check", "--jobs", "1"], folder)


def run_here(words, folder):
    """How a command in a folder ended, and all that it printed."""
    streams = {"stdin": subprocess.DEVNULL, "stdout": subprocess.PIPE, "stderr": subprocess.STDOUT}
    return subprocess.run(words, cwd=folder, errors="replace", check=False, **streams)


def jobs_that_fit():
    """How many crates can be tried side by side."""
    memory = re.search(r"MemAvailable:\s+(\d+)", Path("/proc/meminfo").read_text())
    return max(1, min(len(os.sched_getaffinity(0)), int(memory[1]) * 1024 // MEMORY_OF_A_JOB))


def try_crate(repository, crate):
    """What comes of each wrong body of a crate, in the order of their files."""
    edits, found = repository.edits(crate)
    try:
        repository.make_ready(crate)
        found |= try_edits(repository.folder(crate), edits, lambda texts: repository.check(crate, texts))
    except Malformed as fault:
        found |= {edit: f"not tried: {fault}" for edit in edits}
    return sorted(found.items(), key=lambda it: it[0].path)


def main():
    parser = argparse.ArgumentParser(description=__doc__, formatter_class=argparse.RawDescriptionHelpFormatter)
    how = parser.add_mutually_exclusive_group()
    how.add_argument("--jobs", type=int, metavar="N", help="crates side by side")
    how.add_argument("--kept", action="store_true", help="by rt ci, over what it kept")
    parser.add_argument("crates", nargs="*", metavar="CRATE", help="those whose wrong bodies are tried; all, if none is named")
    options = parser.parse_args()
    if options.jobs is not None and options.jobs < 1:
        parser.error("--jobs is above 0")
    try:
        sys.exit(1 if try_crates(options) else 0)
    except (Malformed, OSError) as fault:
        print(f"wrong_bodies: {fault}", file=sys.stderr)
        sys.exit(2)


def try_kept(repository, crates):
    """What `rt ci` says of each wrong body of the crates, in the order of their files."""
    with tempfile.TemporaryDirectory(prefix="wrong-bodies-") as place:
        repository.copy_for_ci(crates, Path(place))
        print(f"rt ci, which says at its end what came of the wrong bodies of {len(crates)} crates", flush=True)
        told = run_here(["rt", "ci", *crates], Path(place)).stdout
    tried, last = tried_in(told), told.strip().split("\n")[-1]
    for crate in crates:
        edits, found = repository.edits(crate)
        for edit in edits:
            found[edit] = tried.get((crate, edit.path.name), f"not tried: rt ci says nothing of it, and at its end: {last}")
        yield sorted(found.items(), key=lambda it: it[0].path)


def try_checked(repository, crates, number):
    """What comes of each wrong body of the crates, in the order of their files; so many crates are tried side by side."""
    with ThreadPoolExecutor(number) as jobs:
        try:
            yield from jobs.map(lambda crate: try_crate(repository, crate), crates)
        except BaseException:
            jobs.shutdown(cancel_futures=True)
            raise


def try_crates(options):
    """Prints what comes of the wrong bodies of the crates, and answers how many are not refused."""
    repository = Repository(ROOT)
    if shutil.which("rt") is None:
        raise Malformed("there is no rt, which checks crates")
    repository.require(options.crates)
    crates = [name for name in options.crates or repository.lines if any(repository.edits(name))]
    if not crates:
        raise Malformed("these crates have no wrong bodies")
    count = missed = 0
    tried = try_kept(repository, crates) if options.kept else try_checked(repository, crates, options.jobs or jobs_that_fit())
    for found in tried:
        for edit, said in found:
            count, missed = count + 1, missed + (said not in (REFUSED, LOST_NAME))
            print(f"{edit.label}: {said}", flush=True)
    print(f"{count} wrong bodies, {missed} not refused")
    return missed


if __name__ == "__main__":
    main()
