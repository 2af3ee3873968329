"""Mutants of definitions: each changes a definition of `crates/*/specs` in one value.

A mutant replaces lines of one file. What stands in comments, in `use` lines and in the type of a
definition is left alone, and so are the patterns of an equation. Nothing here says that a mutant
can be read, or that it means something else than the definition did.
"""

from __future__ import annotations

import re
from collections.abc import Iterator
from dataclasses import dataclass
from functools import cache
from itertools import combinations

from tool.definitions import CRATES, HEAD, text_of
from tool.kit import TOP

# A word with its fields, a number, a sign of brackets, or any other sign.
TOKEN = re.compile(r"[^\W\d][\w']*(?:\.\w+)*|\d+|[(){};,]|[^\s\w(){};,]+")
WORD = re.compile(r"[a-z_][\w']*(?:\.\w+)*$")
NUMBER = re.compile(r"\d+$")
FIELD = re.compile(r"  (?:pub )?(\w+) : (.*)$")
NAME = re.compile(r"\b[a-z]\w*")
READ = re.compile(r"(\w+)\.(\w+)\b")
BINDER = re.compile(r"\(([\w ]+) : ")
KEPT = {"record", "in", "let", "where", "pub", "data", "Type"}
PRELUDE = re.compile(r"use Rattle\.std\.specs\.Prelude\.\{([^}]*)\}")
# Each of these stands for the other.
TWINS = {"true": "false", "false": "true", "<": "≤", "≤": "<", "&&": "||", "||": "&&"}


@dataclass(frozen=True)
class Mutant:
    """What lines of a file, from a number on, are to be, and what was changed in them."""

    path: str
    line: int
    old: tuple[str, ...]
    new: tuple[str, ...]
    change: str

    def applied(self, text: str) -> str:
        """The file's text with the change, and with the signs that it brings in."""
        lines = text.split("\n")
        start, end = self.line - 1, self.line - 1 + len(self.old)
        assert tuple(lines[start:end]) == self.old, f"{self.path}:{self.line}"
        changed = "\n".join([*lines[:start], *self.new, *lines[end:]])
        return _with_names(changed, self.change.partition(" for ")[0])

    def text(self) -> str:
        """The changed lines as one, with single blanks."""
        return " ".join(" ".join(self.new).split())


def _with_names(text: str, word: str) -> str:
    """A file's text in which a sign or a word that stands for its twin is brought in."""
    name = word if word.isalpha() else f"◌{word}◌"
    found = PRELUDE.search(text)
    if word not in TWINS or not found or name in found[1].split(", "):
        return text
    return f"{text[: found.end(1)]}, {name}{text[found.end(1) :]}"


@dataclass
class Equation:
    """One equation of a definition, or one field of a record: the lines from a number on, and
    where in the first of them begins what it says.
    """

    name: str
    line: int
    lines: list[str]
    start: int

    def said(self) -> str:
        """What stands behind the equality sign, or behind the colon."""
        return "\n".join([self.lines[0][self.start :], *self.lines[1:]])


def equations(text: str) -> Iterator[Equation]:
    """Yields the equations and the fields of a file in order."""
    now: Equation | None = None
    for number, line in enumerate(text.split("\n"), 1):
        begun = _begun(line, number)
        if begun or not line.startswith(" "):
            if now:
                yield now
            now = begun
        elif now and not line.lstrip().startswith("--"):
            now.lines.append(line)
    if now:
        yield now


def _begun(line: str, number: int) -> Equation | None:
    """The equation or the field that a line begins."""
    field = FIELD.match(line)
    if field:
        return Equation("", number, [line], field.start(2))
    sign = re.search(r" =( |$)", line)
    if line[:1] in " -" or line.startswith(("use ", "pub ")) or HEAD.match(line) or not sign:
        return None
    return Equation(line.split()[0], number, [line], sign.end())


@dataclass
class Types:
    """What is of one type in all crates: names that a binder names together, and fields that stand
    beside each other in a record; and which fields are read of each name.
    """

    together: set[frozenset[str]]
    beside: dict[str, set[str]]
    read: dict[str, set[str]]

    def instead(self, word: str) -> Iterator[str]:
        """Yields what may stand in place of a word that reads a field."""
        front, dot, field = word.rpartition(".")
        of = self.read.get(front.rpartition(".")[2], set())
        for other in sorted(self.beside.get(field, set()) & of if dot else ()):
            yield f"{front}.{other}"

    def are_alike(self, one: str, two: str) -> bool:
        """Whether two words are names, or fields, of one type."""
        ends = frozenset(it.rpartition(".")[2] for it in (one, two))
        return ends in self.together


@cache
def types() -> Types:
    """The types of all crates."""
    known = Types(set(), {}, {})
    for path in sorted(CRATES.glob("*/specs/*.antt")):
        text = path.read_text(encoding="utf-8")
        for name, field in READ.findall(text):
            known.read.setdefault(name, set()).add(field)
        for names in BINDER.findall(text):
            known.together |= {frozenset(it) for it in combinations(names.split(), 2)}
        for record in re.split(r"\n(?=\S)", text):
            _read_fields(known, [it for it in map(FIELD.match, record.split("\n")) if it])
    return known


def _read_fields(known: Types, found: list[re.Match[str]]) -> None:
    """Notes which fields of a record stand beside others of their type."""
    for one, two in zip(found, found[1:]):
        if one[2] == two[2]:
            known.together.add(frozenset((one[1], two[1])))
            known.beside.setdefault(one[1], set()).add(two[1])
            known.beside.setdefault(two[1], set()).add(one[1])


def mutants(path: str) -> Iterator[Mutant]:
    """Yields the mutants of a file."""
    before: Equation | None = None
    for it in equations(text_of(path)):
        for at, line in enumerate(it.lines):
            for new, change in _changed(line, it.start if at == 0 else 0):
                yield Mutant(path, it.line + at, (line,), (new,), change)
        if before and _can_be_exchanged(before, it):
            yield _exchanged(path, before, it)
        before = it


def of_crate(crate: str) -> list[Mutant]:
    """The mutants of a crate's definitions."""
    files = sorted((CRATES / crate / "specs").glob("*.antt"))
    return [it for file in files for it in mutants(str(file.relative_to(TOP)))]


def _can_be_exchanged(one: Equation, two: Equation) -> bool:
    """Whether two equations are of one definition, and each may say what the other one does."""
    if not one.name or one.name != two.name or one.said().split() == two.said().split():
        return False
    bound = [set(NAME.findall(it.lines[0][: it.start])) for it in (one, two)]
    used = [set(NAME.findall(it.said())) for it in (one, two)]
    return used[0] & bound[0] <= bound[1] and used[1] & bound[1] <= bound[0]


def _exchanged(path: str, one: Equation, two: Equation) -> Mutant:
    """Two equations, each with what the other one says."""
    between = text_of(path).split("\n")[one.line - 1 + len(one.lines) : two.line - 1]
    old = (*one.lines, *between, *two.lines)
    first = (one.lines[0][: one.start] + two.said()).split("\n")
    second = (two.lines[0][: two.start] + one.said()).split("\n")
    return Mutant(path, one.line, old, (*first, *between, *second), "two arms exchanged")


def _changed(line: str, start: int) -> Iterator[tuple[str, str]]:
    """Yields a line with one change behind a place of it, and what the change is."""
    found = list(TOKEN.finditer(line, start))
    words = [it[0] for it in found]
    for at, (it, word) in enumerate(zip(found, words)):
        for other in _instead(words, at):
            yield line[: it.start()] + other + line[it.end() :], f"{other} for {word}"
        if word in ("suc", "not") and at + 1 < len(words):
            yield line[: it.start()] + line[found[at + 1].start() :], f"without {word}"
        if _are_arguments(words, at):
            yield _swapped(line, found[at], found[at + 1]), f"{word} and {words[at + 1]} exchanged"
        if word == "++" and _are_sides(words, at):
            yield _swapped(line, found[at - 1], found[at + 1]), "the sides of ++ exchanged"


def _instead(words: list[str], at: int) -> Iterator[str]:
    """Yields what may stand in place of a word."""
    word = words[at]
    if word in TWINS:
        yield TWINS[word]
    if NUMBER.match(word) and (at == 0 or words[at - 1] not in ("{", "Type")):
        yield str(int(word) + 1)
    yield from types().instead(word)


def _are_arguments(words: list[str], at: int) -> bool:
    """Whether two words are arguments of one type, one after the other, and no names of a binder.
    """
    if not 0 < at < len(words) - 1 or words[at] == words[at + 1]:
        return False
    if not types().are_alike(words[at], words[at + 1]) or words[at - 1] in ("λ", *KEPT):
        return False
    is_applied = re.match(r"[^\W\d]|\)", words[at - 1])
    return bool(is_applied) and words[at + 2 : at + 3] not in (["="], [":"], ["."])


def _are_sides(words: list[str], at: int) -> bool:
    """Whether both sides of an operator are single words."""
    if not 0 < at < len(words) - 1:
        return False
    one, two = words[at - 1], words[at + 1]
    ends = (words[at - 2] if at > 1 else "(", words[at + 2] if at + 2 < len(words) else ")")
    alone = not re.match(r"[\w∷]", ends[0]) and not re.match(r"[\w(∷]", ends[1])
    are_words = all(WORD.match(it) and it not in KEPT for it in (one, two))
    return are_words and one != two and alone


def _swapped(line: str, one: re.Match[str], two: re.Match[str]) -> str:
    """A line in which two places are exchanged."""
    between = line[one.end() : two.start()]
    return f"{line[: one.start()]}{two[0]}{between}{one[0]}{line[two.end() :]}"
