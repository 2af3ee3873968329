"""Where the keys of a TOML document are in its text. The document has been read without a fault."""

from __future__ import annotations

import re
from dataclasses import dataclass

from tool.case import Path

MULTI_LINE = ("'''", '"""')
KEY = re.compile(r"""("[^"\n]*"|'[^'\n]*'|[^=\n])+=""")
HEADER = re.compile(r"\[\[?([^\]\n]*)\]\]?")
# The four forms of a string.
STRING = re.compile(
    r"'''.*?'{3,5}|\"{3}(?:\\.|.)*?\"{3,5}|'[^'\n]*'|\"(?:\\.|[^\"\\\n])*\"", re.DOTALL
)


@dataclass(frozen=True)
class Span:
    """A piece of a text: its line and column, both from 0, and its width."""

    line: int
    column: int
    width: int


class Places:
    """The place of each key, value and header of a document."""

    def __init__(self, text: str):
        self.text = text.replace("\r\n", "\n").removeprefix("\ufeff")
        self.keys: dict[Path, Span] = {}
        self.values: dict[Path, Span] = {}
        self.starts: dict[Path, int] = {}
        self._counts: dict[str, int] = {}
        self._table: Path = ()
        self._scan()

    def lines(self) -> list[str]:
        """The lines of the text."""
        return self.text.split("\n")

    def key(self, path: Path) -> Span | None:
        """The place of the key or header that a path names, or of what encloses it."""
        return self._nearest(self.keys, path)

    def value(self, path: Path) -> Span | None:
        """The place of the value that a path names, or of what encloses it."""
        return self._nearest({**self.keys, **self.values}, path)

    def in_string(self, path: Path, line: int, column: int, width: int) -> Span | None:
        """The place of a part of a string: its line, from 1, its column, from 0, and its width.

        It is None where the string is on one line of the document or has escapes, so that its
        lines are not those of the document.
        """
        start = self.starts.get(path)
        if start is None or not self.text.startswith(MULTI_LINE, start):
            return None
        found = STRING.match(self.text, start)
        if found and self.text[start] == '"' and "\\" in found.group():
            return None
        start += 4 if self.text.startswith("\n", start + 3) else 3
        first = self._span(start, 1)
        column += first.column if line == 1 else 0
        return Span(first.line + line - 1, column, width)

    @staticmethod
    def _nearest(places: dict[Path, Span], path: Path) -> Span | None:
        while path and path not in places:
            path = path[:-1]
        return places.get(path)

    def _span(self, start: int, width: int) -> Span:
        line = self.text.count("\n", 0, start)
        column = start - (self.text.rfind("\n", 0, start) + 1)
        return Span(line, column, width)

    def _scan(self) -> None:
        at = 0
        while at < len(self.text):
            at = self._item(at)

    def _item(self, at: int) -> int:
        """Takes what begins here, and returns where it ends."""
        here = self.text[at]
        if here in " \t\n":
            return at + 1
        if here == "#":
            return self._line_end(at)
        if here == "[":
            return self._header(at)
        return self._pair(at)

    def _line_end(self, at: int) -> int:
        end = self.text.find("\n", at)
        return len(self.text) if end < 0 else end

    def _header(self, at: int) -> int:
        found = HEADER.match(self.text, at)
        if not found:
            return self._line_end(at)
        name = found.group(1).strip().strip("\"'")
        self._table = (name,)
        if found.group().startswith("[["):
            self._table = (name, self._counts.get(name, 0))
            self._counts[name] = self._table[1] + 1
            self.keys.setdefault((name,), self._span(at, len(found.group())))
        self.keys[self._table] = self._span(at, len(found.group()))
        return self._line_end(at)

    def _pair(self, at: int) -> int:
        found = KEY.match(self.text, at)
        if not found:
            return self._line_end(at)
        name = found.group()[:-1].strip()
        path = (*self._table, name.strip("\"'"))
        start = found.end()
        while self.text[start : start + 1] in (" ", "\t"):
            start += 1
        end = self._value_end(start)
        self.keys[path] = self._span(at, len(name))
        self.starts[path] = start
        width = len(self.text[start:end].split("\n")[0].rstrip())
        self.values[path] = self._span(start, max(width, 1))
        return end

    def _value_end(self, at: int) -> int:
        """The end of the value that begins here: a line's end or a comment outside of brackets."""
        depth = 0
        while at < len(self.text):
            found = STRING.match(self.text, at)
            if found:
                at = found.end()
                continue
            here = self.text[at]
            if here in "\n#" and depth <= 0:
                return at
            depth += (here in "[{") - (here in "]}")
            at = self._line_end(at) if here == "#" else at + 1
        return at
