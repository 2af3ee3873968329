"""The definitions of `crates/*/specs`, and which of them a definition rests on.

A file is read line by line: a definition begins at the left margin, with the comment before it, and
ends before the next one. What it names is looked up as the checker does: in its own file, and in
what the file's `use` lines bring in. A type that is `declared` is one of the code, in `src/`.
"""

from __future__ import annotations

import re
from collections import deque
from collections.abc import Iterable, Iterator
from dataclasses import dataclass, field
from functools import cache

from tool.kit import TOP

CRATES = TOP / "crates"
USE = re.compile(r"(?:unfoldable )?(?:pub )?use Rattle\.([\w.]+)(?:\.\{(.*)\}| as (\w+)|)$")
# A `use` line that goes on over more lines.
MANY = re.compile(r"^(?:pub )?use [^{\n]*\{\n[^}]*\}", re.MULTILINE)
HEAD = re.compile(
    r"(?:abbrev |unfoldable |opaque )*(?:pub )?(?:abbrev |unfoldable |opaque )*"
    r"(?:(record|data) (\S+)|(\S+) *:(?!:))"
)
PART = re.compile(r"  (?:pub )?(\S+) :")
WORD = re.compile(r"[^\W\d][\w']*(?:\.\w+)*|◌\S+◌")
SIGN = re.compile(r"◌(\S+)◌")
TYPE = r"^(?:pub(?:\(crate\))? )?(?:enum|struct) {}\b.*?(?:^\}}|;)\n"
# A `use` line of the code, and the types that a file of the code has.
CODE_USE = re.compile(r"^use (crate|hmc_\w+)::\{?([\w, ]+)\}?;", re.MULTILINE)
TYPES = re.compile(r"^(?:pub(?:\(crate\))? )?(?:enum|struct) (\w+)", re.MULTILINE)

# A definition: its file from the top on, and its name.
Name = tuple[str, str]


@dataclass
class Definition:
    """The lines of a definition, without the blank ones, and of a record those of each field."""

    lines: list[str] = field(default_factory=list)
    fields: dict[str, list[str]] = field(default_factory=dict)


@dataclass
class File:
    """What one file defines, and what its `use` lines bring in."""

    path: str
    definitions: dict[str, Definition] = field(default_factory=dict)
    # The names of the constructors of its data types, each with that of the type.
    constructors: dict[str, str] = field(default_factory=dict)
    # Names of other modules, and other names of modules.
    brought: dict[str, tuple[str, str]] = field(default_factory=dict)
    modules: dict[str, str] = field(default_factory=dict)


def text_of(path: str) -> str:
    """What a file holds, with its path from the top on."""
    return (TOP / path).read_text(encoding="utf-8")


def path_of(module: str) -> str:
    """The file of a module: hmc_x.specs.A, or that of the code where a type is declared."""
    crate, _, *names = module.split(".")
    if names[0] == "declared":
        return f"crates/{crate}/src/{names[1]}.rt"
    return f"crates/{crate}/specs/{names[0]}.antt"


@cache
def read(path: str) -> File:
    """Reads a file of definitions."""
    file, comment, now = File(path), list[str](), Definition()
    text = MANY.sub(lambda it: " ".join(it[0].split()), text_of(path))
    for line in text.splitlines():
        used, head = USE.match(line), HEAD.match(line)
        if used:
            _bring(file, *used.groups())
        elif line.startswith("--"):
            comment.append(line)
        elif not line:
            comment = []
        elif head and not line.startswith(" "):
            name = head[2] or head[3]
            now = file.definitions.setdefault(name.split("{")[0], Definition())
            now.lines += [*comment, line]
            comment = []
            if head[1] == "data":
                file.constructors[name] = name
        else:
            now.lines.append(line)
    for name, it in file.definitions.items():
        _read_parts(file, name, it)
    return file


def _read_parts(file: File, name: str, it: Definition) -> None:
    """Reads the fields of a record, or the constructors of a data type."""
    is_data = file.constructors.get(name) == name
    comment: list[str] = []
    part: list[str] = []
    for line in it.lines:
        found = PART.match(line)
        if found and is_data:
            file.constructors[found[1]] = name
        elif found:
            part = it.fields[found[1]] = [*comment, line]
            comment = []
        elif line.startswith("  --"):
            comment.append(line)
        elif part and line.startswith("    "):
            part.append(line)


def _bring(file: File, module: str, names: str | None, alias: str | None) -> None:
    """Notes what a `use` line brings in from this repository."""
    if not module.startswith("hmc_") or ".specs." not in module:
        return
    if names is None:
        file.modules[alias or module.rpartition(".")[2]] = module
        return
    for text in names.split(","):
        name, _, other = text.strip().partition(" as ")
        file.brought[other or name] = module, name


def of_module(module: str, name: str) -> Name | None:
    """The definition that a module has under a name."""
    path, inner = path_of(module), module.split(".")[3:]
    if path.endswith(".rt"):
        return path, inner[0] if len(inner) == 1 else inner[1]
    return (path, inner[0]) if inner else _found(path, name)


def _found(path: str, word: str) -> Name | None:
    """The definition that a word of a file names, if it is one of this repository."""
    file = read(path)
    first, _, rest = word.partition(".")
    if first in file.definitions:
        return path, first
    if first in file.constructors:
        return path, file.constructors[first]
    if first in file.brought:
        return of_module(*file.brought[first])
    if first in file.modules:
        return of_module(file.modules[first], rest.partition(".")[0])
    return None


def _named(path: str, lines: Iterable[str]) -> Iterator[Name]:
    """Yields what lines of a file name. What is in comments is not looked up."""
    text = "\n".join(line for line in lines if not line.lstrip().startswith("--"))
    operators = map(SIGN.match, read(path).brought)
    signs = [it[0] for it in operators if it and it[1] in text]
    for word in dict.fromkeys([*WORD.findall(text), *signs]):
        found = _found(path, word)
        if found:
            yield found


def lines_of(it: Name) -> list[str]:
    """The lines of a definition, or of a field of a record; of a declared type those of the code.
    """
    path, word = it
    if path.endswith(".antt"):
        name, _, part = word.partition(".")
        found = read(path).definitions[name]
        return found.fields[part] if part else found.lines
    type_of = re.search(TYPE.format(word), text_of(path), re.MULTILINE | re.DOTALL)
    return [line for line in type_of[0].splitlines() if line] if type_of else []


@cache
def types_of(crate: str) -> dict[str, str]:
    """The types that the code of a crate has, each with its file."""
    files = sorted(str(it.relative_to(TOP)) for it in (CRATES / crate / "src").glob("*.rt"))
    return {name: path for path in files for name in TYPES.findall(text_of(path))}


def _types_in(path: str, lines: Iterable[str]) -> Iterator[Name]:
    """Yields the types that lines of the code name."""
    crate = path.split("/")[1]
    text = "\n".join(line for line in lines if "//" not in line)
    words = set(re.findall(r"\b[A-Z]\w+", text))
    used = [("crate", name) for name in types_of(crate)]
    for of, names in CODE_USE.findall(text_of(path)):
        used += [(of, name.strip()) for name in names.split(",")]
    for of, name in used:
        file = types_of(crate if of == "crate" else of).get(name)
        if file and name in words:
            yield file, name


def rests_on(path: str, names: Iterable[str]) -> dict[str, set[str]]:
    """The definitions that some names of a file rest on, by their files: first what the names use,
    then what that uses. `IsWhole.lawful` is one field of a record.
    """
    known: dict[str, set[str]] = {}
    left = deque[Name]()
    left.extend((path, name) for name in names)
    while left:
        it = left.popleft()
        if it[1] in known.setdefault(it[0], set()):
            continue
        known[it[0]].add(it[1])
        named = _named if it[0].endswith(".antt") else _types_in
        left += named(it[0], lines_of(it))
    return known


def count_of(known: dict[str, set[str]]) -> int:
    """How many lines these definitions have."""
    return sum(len(lines_of((path, name))) for path, names in known.items() for name in names)


def length_of(path: str) -> int:
    """How many lines a file has."""
    return len(text_of(path).splitlines())
