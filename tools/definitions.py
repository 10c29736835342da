#!/usr/bin/env python3
"""Prints all definitions below NAME in reading order, from the specs of the crates.

NAME is a definition of some `crates/*/specs/`, as `Headline`; where several files define it, the file stands before it,
as `control_flow/Greens.IsLawful`. Each definition comes before those that it rests on. A file comes once, with all that
NAME rests on in it; after the files come the data types of the sources, and the names of libraries, which are only
listed. What NAME rests on only by way of a name of `--skip` is marked, and comes as early as it may.

`--renew FILE ..` renews pages: in each table with a column `below it` the counts of its rows are written anew.

The exit status is 0, or 2 where a name or a file is not there; a line on standard error then says which.
"""

import argparse
import re
import sys
from collections import deque
from dataclasses import dataclass, field
from itertools import groupby
from pathlib import Path

ROOT = Path(__file__).resolve().parents[1]
USE = re.compile(r"^\s*(?P<pub>pub )?(?:ghost )?use (?P<path>[\w.]+?)(?:\.\{(?P<names>[^}]*)\}| as (?P<alias>\w+))?;?$")
HEAD = re.compile(r"^(?P<indent>\s*)(?:abbrev |unfoldable )?pub (?:(?P<kind>record|data) )?(?P<name>[^\s:]+)")
TYPE = re.compile(r"^\s*(?:pub(?:\(crate\))? )?(?:struct|enum|trait|type) (?P<name>\w+)")


class Unknown(Exception):
    """What is asked for and not there."""


@dataclass(frozen=True, order=True)
class Key:
    """A definition by its crate, its file (`specs/F.antt`, `src/f.rt`) and its name."""

    crate: str
    file: str
    name: str

    @property
    def place(self):
        """The file as the docs name it: `crate/File` of specs, the path in `crates` of a source."""
        return f"{self.crate}/{Path(self.file).stem}" if self.is_spec else f"{self.crate}/{self.file}"

    @property
    def is_spec(self):
        return self.file.startswith("specs/")


@dataclass(frozen=True)
class Library:
    """A name of a library: its crate and module, and the name."""

    module: str
    name: str


@dataclass
class Definition:
    """A definition with its comment, or that of the definition before it, which then speaks of both; the modules that it is
    in, whose arguments are its first ones; and what it cites, in the order in which it does."""

    key: Key
    comment: list[str]
    lines: list[str]
    modules: list[str] = field(default_factory=list)
    cites: list | None = None


@dataclass
class File:
    """A file of specs: its first comment, comments that belong to no one definition, what it imports, its definitions, and the
    constructors of its data, each with the name of the data."""

    crate: str
    name: str
    head: list[str] = field(default_factory=list)
    notes: list[str] = field(default_factory=list)
    imports: dict = field(default_factory=dict)
    aliases: dict = field(default_factory=dict)
    definitions: dict = field(default_factory=dict)
    constructors: dict = field(default_factory=dict)


# ---- the files of specs


def add_use(file, line):
    """Adds what a `use` line imports; True where the line is one."""
    use = USE.match(line)
    if not use:
        return False
    if use["alias"]:
        file.aliases[use["alias"]] = use["path"]
    for item in (use["names"] or "").split(","):
        name, _, other = item.strip().partition(" as ")
        if name:
            file.imports[other or name] = (use["path"], name)
    return True


def indent_of(line):
    return len(line) - len(line.lstrip())


def is_comment(line):
    return line.lstrip().startswith("--")


def blocks_of(lines):
    """The comments, modules and definitions of a file of specs, one after another, each with the comment above it."""
    block, indent = [], None
    for line in [*lines, ""]:
        head = HEAD.match(line) or line.lstrip().startswith("module ")
        inside = indent is not None and indent_of(line) > indent
        ends = indent is not None and not inside and (head or is_comment(line)) or block and block[-1].lstrip().startswith("module ")
        if block and (ends or not line.strip()):
            yield block
            block, indent = [], None
        if line.strip():
            block.append(line)
            indent = indent_of(line) if head and indent is None else indent


def add_block(file, block, modules):
    """Adds a definition, or a comment that belongs to none, to a file; `modules` are those that the block may be in."""
    comment = [line for line in block if is_comment(line) and indent_of(line) == indent_of(block[0])]
    rest = block[len(comment):]
    modules[:] = [module for module in modules if indent_of(module[-1]) < indent_of(block[-1 if not rest else len(comment)])]
    outer = [line for module in modules for line in module]
    if not rest:
        file.notes += [line for line in map(str.strip, comment) if not line.startswith("-- ----")]
    elif rest[0].lstrip().startswith("module "):
        modules.append(block)
    elif head := HEAD.match(rest[0]):
        cut = indent_of(rest[0])
        key = Key(file.crate, file.name, head["name"])
        lines = [line[cut:] for line in rest]
        before = list(file.definitions.values())
        said = [line.strip() for line in comment] or (before[-1].comment if before else [])
        file.definitions[head["name"]] = Definition(key, said, lines, [line.strip() for line in outer])
        if head["kind"] == "data":
            file.constructors |= {line.split()[0]: head["name"] for line in lines[1:]}


def read_specs(path, crate):
    """A file of specs, with what its definitions cite not yet found."""
    file = File(crate, f"specs/{path.name}")
    body = [line for line in path.read_text(encoding="utf-8").splitlines() if not add_use(file, line) and not line.startswith("infix")]
    while body and body[0].startswith("--"):
        file.head.append(body.pop(0))
    modules = []
    for block in blocks_of(body):
        add_block(file, block, modules)
    return file


# ---- what a definition cites


def without_texts(line):
    """A line without what is between quotation marks and without a comment at its end."""
    return re.sub(r'"[^"]*"', '""', re.sub(r"\s-- .*", "", line))


def chunks_of(text):
    """The chunks of a text between blanks, brackets, commas and semicolons; the empty list is one."""
    return re.findall(r"\[\]|[^\s(){}\[\],;«»]+", text)


def arguments_of(clause):
    """The names that the left side of a clause binds, as far as they are no constructors."""
    inside = re.sub(r"\((\w+) ", "(", clause)
    return {chunk for chunk in chunks_of(inside) if chunk[0].islower()} - {"zero", "true", "false"}


def read_in(definition):
    """The names in a definition that it does not bind itself, each as often as it stands there."""
    head = HEAD.match(definition.lines[0])
    lines = [without_texts(line) for line in definition.lines]
    bound = {definition.key.name}
    for line in lines[1:]:
        if not line.startswith(" ") and " =" in line:
            bound |= arguments_of(line.split(" =")[0])
    text = "\n".join([*definition.modules, *lines])
    for names in re.findall(r"[({]([\w ]+?) : ", text) + re.findall(r"λ ([\w ]+)\.", text) + re.findall(r"let (\w+) |(?m:^ *)(\w+) ← ", text):
        bound |= set(" ".join(names).split() if isinstance(names, tuple) else names.split())
    # A field is bound after its own lines.
    field = definition.key.name
    for line in re.sub(r"(?<=[{;])\s*\w+ = ", " ", text).split("\n"):
        label = re.match(r"\s+(?:pub )?(\S+) : (.*)", line) if head["kind"] else None
        if label:
            bound.add(field)
            field = label[1]
        yield from ((chunk, chunk.split(".")[0] in bound) for chunk in chunks_of(label[2] if label else line))


def parts_of_operator(name):
    return [part for part in name.split("◌") if part]


class House:
    """All definitions of the specs, and the data types of the sources that they cite."""

    def __init__(self, root=ROOT):
        self.crates = root / "crates"
        self.files = {}
        self.exports = {}
        self.types = {}
        for path in sorted(self.crates.glob("*/specs/*.antt")):
            crate = path.parts[-3]
            if path.name == "Lib.antt":
                self.exports[crate] = [use["path"] for use in map(USE.match, path.read_text(encoding="utf-8").splitlines()) if use and use["pub"]]
            else:
                self.files[crate, path.stem] = read_specs(path, crate)

    def file_of(self, key):
        return self.files[key.crate, Path(key.file).stem]

    def definition(self, key):
        """A definition with what it cites."""
        if not key.is_spec:
            return self.types[key]
        definition = self.file_of(key).definitions[key.name]
        if definition.cites is None:
            definition.cites = self.citations_of(self.file_of(key), definition)
        return definition

    def citations_of(self, file, definition):
        """What a definition cites: keys and words of libraries, each once."""
        found = {}
        operators = {part: name for name in (*file.imports, *file.definitions) for part in parts_of_operator(name) if "◌" in name}
        for chunk, is_bound in read_in(definition):
            first, *rest = chunk.split(".")
            if is_bound:
                continue
            if first in file.aliases and rest:
                found[self.at(file.aliases[first], rest[0])] = None
            else:
                found[self.target_of(file, "◌>>=◌" if chunk == "←" else operators.get(chunk, first))] = None
        found.pop(None, None)
        found.pop(definition.key, None)
        return list(found)

    def target_of(self, file, name):
        """What a name of a file stands for, or None."""
        if name in file.imports:
            return self.at(*file.imports[name])
        name = file.constructors.get(name, name)
        return file.definitions[name].key if name in file.definitions else None

    def at(self, path, name):
        """What stands at a path of modules: a definition, a data type or a word of a library."""
        _, crate, *modules = path.split(".")
        if not (self.crates / crate).is_dir():
            return Library(path, name)
        if modules[:2] == ["specs", "declared"]:
            within = modules[2:-1] if modules[-1] == "TheVariants" else modules[2:]
            return self.type_at(crate, within[:-1], within[-1])
        module = modules[-1]
        if (crate, module) not in self.files:
            others = [other for other in self.exports.get(crate, []) if other.endswith("." + module)]
            if not others:
                raise Unknown(f"no file of specs for {path}")
            return self.at(others[0], name)
        target = self.target_of(self.files[crate, module], name)
        if target is None:
            raise Unknown(f"{path} has no {name}")
        return target

    # ---- data types of the sources

    def type_at(self, crate, modules, name):
        """The key of a data type of a crate, which is read where it was not yet."""
        source = self.crates / crate / "src"
        for path in [source.joinpath(*modules).with_suffix(".rt"), source / "lib.rt", source / "main.rt", *sorted(source.rglob("*.rt"))]:
            key = Key(crate, f"src/{path.relative_to(source)}" if path.is_relative_to(source) else "", name)
            if key in self.types:
                return key
            if path.is_file() and (found := declaration_of(path, name)):
                self.types[key] = Definition(key, *found)
                self.types[key].cites = self.citations_of_type(path, self.types[key])
                return key
        return self.reexport_of(crate, name)

    def reexport_of(self, crate, name):
        """The key of a data type that a crate re-exports."""
        for line in (self.crates / crate / "src" / "lib.rt").read_text(encoding="utf-8").splitlines():
            use = re.match(r"pub use (\w+)::(.*);", line)
            if use and use[1] != "crate" and (self.crates / use[1]).is_dir() and re.search(rf"\b{name}\b", use[2]):
                return self.type_at(use[1], re.findall(r"(\w+)::", use[2]), name)
        raise Unknown(f"no data type {name} in crates/{crate}/src")

    def citations_of_type(self, path, definition):
        """What a data type rests on: the types of its fields, or what contracts see in its place."""
        text = path.read_text(encoding="utf-8")
        value = model_of(text, definition.key.name)
        if value:
            definition.lines = [definition.lines[0].split(" {")[0] + f";  // contracts see it as {value[0]}"]
            scope = File(definition.key.crate, "")
            for line in text.splitlines():
                add_use(scope, line)
            return [target for target in (self.target_of(scope, chunk) for chunk in chunks_of(value[0])) if target]
        fields = "\n".join(line for line in definition.lines if not line.lstrip().startswith("//"))
        names = dict.fromkeys(name for name in re.findall(r"\b[A-Z]\w*", fields) if name != definition.key.name)
        return [target for target in (self.field_type(path, text, definition.key.crate, name) for name in names) if target]

    def field_type(self, path, text, crate, name):
        """The key of a data type that a source names, or None where it is of a library."""
        if re.search(rf"^\s*(pub(\(crate\))? )?(struct|enum|trait|type) {name}\b", text, re.M):
            return self.type_at(crate, list(path.relative_to(self.crates / crate / "src").with_suffix("").parts), name)
        use = re.search(rf"^\s*(?:pub )?use (\w+)((?:::\w+)*)::(?:\{{[^}}]*\b{name}\b[^}}]*\}}|{name});", text, re.M)
        if not use:
            return None
        other = crate if use[1] == "crate" else use[1]
        return self.type_at(other, [part for part in use[2].split("::") if part], name) if (self.crates / other).is_dir() else None


def declaration_of(path, name):
    """The comment and the lines of the declaration of a public data type in a source, or None."""
    lines = path.read_text(encoding="utf-8").splitlines()
    for at, line in enumerate(lines):
        head = TYPE.match(line)
        if head and head["name"] == name:
            end = at if line.rstrip().endswith(("}", ";")) else next(k for k in range(at, len(lines)) if lines[k] == "}")
            above = at
            while lines[above - 1].startswith(("//", "#[")):
                above -= 1
            comment = [text for text in lines[above:at] if re.match("///? (?!docs/)", text)]
            return comment, lines[at : end + 1]
    return None


def model_of(text, name):
    """What contracts see in place of a data type, or None: the value of its model."""
    model = re.search(rf"^impl(?:<[^>]*>)? Model for {name}\b.*?ghost Value = \{{ (.*?) \}};", text, re.M | re.S)
    return [model[1]] if model else None


# ---- what is below a name, and its order


def below(house, roots, without=()):
    """All that some definitions rest on, they themselves first, without passing through some others."""
    found, todo = {}, deque(roots)
    while todo:
        key = todo.popleft()
        if key in found or key in without:
            continue
        found[key] = None
        if not isinstance(key, Library):
            todo.extend(house.definition(key).cites)
    return found


def walk(roots, cites):
    """All that is reached from some roots, each before what it cites; of two that may stand in either order, that which
    is cited first."""
    done, after = set(), []

    def visit(key):
        if key not in done:
            done.add(key)
            for other in reversed(cites(key)):
                visit(other)
            after.append(key)

    for root in reversed(roots):
        visit(root)
    return after[::-1]


@dataclass
class Reading:
    """What is below a definition, as it is to be read: its files of specs with their definitions, data types by file, words of libraries;
    and those of them that rest on nothing but names that may be skipped."""

    files: list
    types: list
    words: list
    skipped: set

    @property
    def definitions(self):
        return [d for _, definitions in self.files for d in definitions]


def spec_citations(house, key):
    """The definitions in specs that a definition cites, also by way of data types."""
    found, seen = {}, {key}
    todo = deque(house.definition(key).cites)
    while todo:
        other = todo.popleft()
        if isinstance(other, Library) or other in seen:
            continue
        seen.add(other)
        if other.is_spec:
            found[other] = None
        else:
            todo.extend(house.definition(other).cites)
    return list(found)


def as_comments_say(house, keys):
    """Definitions of a file in their order, but those that share a comment in that of the file, of which it speaks, where none
    of them cites another."""
    for _, group in groupby(keys, lambda key: house.definition(key).comment):
        group = list(group)
        if any(other in group for key in group for other in house.definition(key).cites):
            yield from group
        else:
            own = list(house.file_of(group[0]).definitions)
            yield from sorted(group, key=lambda key: own.index(key.name))


def reading_of(house, root, skip=()):
    """What is below a definition, in reading order."""
    all_below = below(house, [root])
    skipped = set(all_below) - set(below(house, [root], without=skip))
    specs = [key for key in all_below if not isinstance(key, Library) and key.is_spec]
    cites = {key: spec_citations(house, key) for key in specs}
    by_file = {}
    for key in specs:
        by_file.setdefault(key.place, []).append(key)

    def file_citations(place):
        cited = dict.fromkeys(other.place for key in within(place) for other in cites[key] if other.place != place)
        return sorted(cited, key=lambda other: (any(key not in skipped for key in by_file[other]), len(below(house, by_file[other]))))

    def within(place):
        own = list(house.file_of(by_file[place][0]).definitions.values())
        roots = [d.key for d in reversed(own) if d.key in cites]
        return as_comments_say(house, walk(roots, lambda key: [other for other in cites[key] if other.place == place]))

    order = walk([root.place], file_citations)
    files = [(place, [house.definition(key) for key in within(place)]) for place in order]
    types = [key for key in all_below if not isinstance(key, Library) and not key.is_spec]
    words = sorted((key for key in all_below if isinstance(key, Library)), key=lambda w: (w.module, w.name))
    return Reading(files, [house.definition(key) for key in sorted(types)], words, skipped)


def find(house, name):
    """The key of a definition by its name, or by its file and its name."""
    place, _, word = name.rpartition(".")
    found = [d.key for file in house.files.values() for d in file.definitions.values() if d.key.name == word and place in ("", d.key.place)]
    if not found:
        raise Unknown(f"no definition {name}")
    if len(found) > 1:
        raise Unknown(f"{name} is in several files: " + ", ".join(f"{key.place}.{word}" for key in found))
    return found[0]


# ---- what is printed


def size_of(definitions):
    """How many definitions there are, and their lines without comments."""
    return len(definitions), sum(len(definition.lines) for definition in definitions)


def anchor_of(title):
    """The part of a link that leads to a heading."""
    return "#" + re.sub(r"[^\w -]", "", title.lower()).replace(" ", "-")


def sentence_of(head):
    """The first comment of a file as one line."""
    return " ".join(line.removeprefix("--").strip() for line in head)


def fence(language, texts):
    """Texts in a fence, with an empty line between each two."""
    body = "\n\n".join("\n".join(text) for text in texts)
    return [f"```{language}", body, "```", ""]


def texts_of(definitions):
    """Each definition with its comment; those of a module are below its line, and further in."""
    shown, said = [], []
    for definition in definitions:
        begins = definition.modules if definition.modules != shown else []
        comment = definition.comment if definition.comment != said else []
        shown, said = definition.modules, definition.comment
        yield [*begins, *("  " * bool(shown) + line for line in [*comment, *definition.lines])]


def callers_of(reading, house, place):
    """Which definitions of other files cite one of this file, in reading order."""
    names = [d.key.name for d in reading.definitions if d.key.place != place and any(is_in(key, place) for key in d.cites)]
    names += [d.key.name for d in reading.types if any(is_in(key, place) for key in d.cites)]
    more = f" and {len(names) - 6} more" if len(names) > 6 else ""
    return ", ".join(f"`{name}`" for name in names[:6]) + more


def is_in(key, place):
    return not isinstance(key, Library) and key.place == place


def of_others(reading, house, definitions):
    """Sentences that say of which file a name is that these definitions cite and that more than one file defines."""
    every = {d.key for d in reading.definitions}
    names = [key.name for key in every]
    cited = dict.fromkeys(key for d in definitions for key in d.cites if key in every and names.count(key.name) > 1)
    others = [key for key in cited if key.place != definitions[0].key.place]
    return "".join(f" Here `{written_as(house, definitions, key)}` is that of {key.place}." for key in others)


def written_as(house, definitions, key):
    """A name as these definitions of one file write it: after the alias of its file, where they do so."""
    names = [f"{alias}.{key.name}" for alias in house.file_of(definitions[0].key).aliases]
    return next((name for name in names if any(name in line for d in definitions for line in d.lines)), key.name)


def table_of_files(reading, house):
    """The files in their order, with what each has and how much of it."""
    yield "| | file | definitions | lines | what it has |"
    yield "|---|---|---|---|---|"
    for number, (place, definitions) in enumerate(reading.files, 1):
        key = definitions[0].key
        count, lines = size_of(definitions)
        skip = " *(skip)*" if all(d.key in reading.skipped for d in definitions) else ""
        title = f"{number}. {place}"
        yield f"| {number} | [{place}]({anchor_of(title)}){skip} | {count} | {lines} | {sentence_of(house.file_of(key).head)} |"


def sections_of(reading, house):
    """A section for each file, with its comments and its definitions."""
    for number, (place, definitions) in enumerate(reading.files, 1):
        key = definitions[0].key
        file = house.file_of(key)
        yield from [f"### {number}. {place}", ""]
        cited = callers_of(reading, house, place)
        yield from [sentence_of(file.head) + (f" Cited by {cited}." if cited else "") + of_others(reading, house, definitions), ""]
        notes = [file.notes] if file.notes else []
        yield from fence("text", [*notes, *texts_of(definitions)])


def types_of(reading):
    """The data types by name, each with its source."""
    own = sorted(reading.types, key=lambda d: (d.key.name, d.key.place))
    return fence("rust", [[f"// {d.key.place}", *d.comment, *d.lines] for d in own])


def page_of(house, name, skip):
    """What is printed of a definition, as a list of lines."""
    root, skipped = find(house, name), [find(house, other) for other in skip]
    reading = reading_of(house, root, skipped)
    count, lines = size_of(reading.definitions)
    crates = len({d.key.crate for d in reading.definitions})
    page = [f"Below `{name}`: {count} definitions in {len(reading.files)} files of {crates} crates, {lines} lines without comments."]
    if skip:
        less = size_of([d for d in reading.definitions if d.key in reading.skipped])
        words = " and ".join(f"`{other}`" for other in skip)
        page.append(f"{less[0]} of them, {less[1]} lines, only by way of {words}: files that have nothing else are marked *(skip)*.")
    page += ["", *table_of_files(reading, house), "", "## The definitions", "", *sections_of(reading, house)]
    if reading.types:
        page += ["## The data types", "", f"{len(reading.types)}, by name.", "", *types_of(reading)]
    page += ["## Names of libraries, which are not followed", ""]
    for module in dict.fromkeys(word.module for word in reading.words):
        page.append(f"- {module}: " + ", ".join(f"`{word.name}`" for word in reading.words if word.module == module))
    return page


# ---- pages that are renewed


def cells_of(line):
    return [cell.strip() for cell in line.strip().strip("|").split("|")]


def keys_of(house, cells):
    """The definitions that the cells of a row name, each in the first file named after it in which it is."""
    words = re.findall(r"`([^`]+)`", " ".join(cells))
    for at, name in enumerate(words):
        if "/" not in name:
            places = [word for word in words[at:] if "/" in word]
            found = [key for key in (find_in(house, place, name) for place in places) if key]
            if not found:
                raise Unknown(f"{name} is not in {' or '.join(places) or 'a file that is named'}")
            yield found[0]


def find_in(house, place, name):
    """The key of a definition of a file, or None."""
    file = house.files.get(tuple(place.split("/")))
    return file.definitions[name].key if file and name in file.definitions else None


def specs_of(house, keys):
    return [house.definition(key) for key in keys if not isinstance(key, Library) and key.is_spec]


def counts_of(house, root, keys):
    """Two cells: how many definitions and lines are below some definitions, they themselves with them; and those of them on which
    a root rests in no other way, where it rests on them at all."""
    every, whole = size_of(specs_of(house, below(house, keys))), below(house, [root])
    inside = [key for key in keys if key in whole and key != root]
    rest = below(house, [root], without=inside)
    alone = size_of(specs_of(house, [key for key in whole if key not in rest]))
    return f"{every[0]}, {every[1]}", f"{alone[0]}, {alone[1]}" if inside else ""


def with_counts(house, root, lines):
    """Lines of a page in which each table with a column `below it` has its counts renewed."""
    head = None
    for line in lines:
        cells = cells_of(line) if line.startswith("|") else None
        if cells is None or head is None:
            head = cells if cells and "below it" in cells else None
        elif not cells[-1].startswith("---"):
            row = [cell for title, cell in zip(head, cells) if title.startswith(("definition", "where"))]
            cells[head.index("below it") :] = counts_of(house, root, list(keys_of(house, row)))
            line = "| " + " | ".join(cells) + " |"
        yield line


def renew(house, text):
    """A page with its counts as they are now."""
    return "\n".join(with_counts(house, find(house, "Headline"), text.splitlines())) + "\n"


def parser():
    words = argparse.ArgumentParser(description=__doc__.partition("\n")[0])
    words.add_argument("name", nargs="?", help="a definition of the specs, as Headline or control_flow/Greens.IsLawful")
    words.add_argument("--skip", nargs="+", default=[], metavar="NAME", help="mark what rests on nothing but these")
    words.add_argument("--renew", nargs="+", default=[], metavar="FILE", type=Path, help="renew these pages, and print nothing")
    return words


def main():
    words = parser().parse_args()
    try:
        house = House()
        for page in words.renew:
            page.write_text(renew(house, page.read_text(encoding="utf-8")), encoding="utf-8")
        if words.name:
            print("\n".join(page_of(house, words.name, words.skip)), flush=True)
        elif not words.renew:
            raise Unknown("no name of a definition, and no page to renew")
    except BrokenPipeError:
        sys.stdout = None
    except (Unknown, OSError) as why:
        print(f"definitions.py: {why}", file=sys.stderr)
        return 2
    return 0


if __name__ == "__main__":
    sys.exit(main())
